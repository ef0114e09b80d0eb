//! Whole calls through the frame machine, in both programs: a function is entered that has room for a
//! call, the call's values are filled, what filling left is put by writes in registers and in the
//! caller's outgoing area, a callee is entered and reads, homes and views what it finds, makes calls of
//! its own, leaves a result in its registers, and leaves. Every write must be accepted, the values read
//! must be those filled, and after the leave the caller must find all that a call preserves.

use crate::calls::{bytes, values};
use crate::encode;
use crate::generate::valid_for;
use crate::machine_calls::{self, base, leaf, request, small_request};
use crate::machine_lists::Preserved;
use crate::machines::{stack_pointer, Call, Pair};
use crate::random::Random;
use crate::signatures::{hex, refused, ACCEPTED};
use crate::Difference;
use flakuzhen::surface::marshal as library;
use flakuzhen::surface::Answer;
use reference::dump::header;
use reference::machine::{floor, frame_size, Registers, Request};
use reference::{marshal as second, ArgumentPlan, Convention, Place, Plan, Refusal, ResultPlan};
use std::fmt;

/// What was reached.
#[derive(Default)]
pub struct Reach {
    /// Calls whose callee was entered and left.
    pub calls: u64,
    /// Of these, those made by a callee, and those from a function that had made one already.
    pub nested: u64,
    pub later: u64,
    /// From the start, to a leaf, by a function whose area has just the room.
    pub from_start: u64,
    pub to_leaf: u64,
    pub exact_room: u64,
    /// With a hidden address, with a result in registers, with arguments in memory.
    pub hidden: u64,
    pub results: u64,
    pub in_memory: u64,
    /// With copies, outside the machine and in the caller's locals.
    pub copies_outside: u64,
    pub copies_inside: u64,
    /// With r6 on Z; with an area that is no multiple of 8.
    pub sixes: u64,
    pub odd_areas: u64,
    /// With an ellipsis and a float that is in a floating register and elsewhere too.
    pub doubled: u64,
    /// Homed, and views taken.
    pub homed: u64,
    pub views: u64,
    /// The most calls that were open at once.
    pub deepest: usize,
}

impl fmt::Display for Reach {
    fn fmt(&self, to: &mut fmt::Formatter<'_>) -> fmt::Result {
        write!(
            to,
            "{} whole calls: {} nested (up to {} open), {} later ones of a function, {} from the start, {} to a \
             leaf, {} with just the room; {} with a hidden address, {} results in registers, {} with memory, \
             copies of {} outside and {} inside the machine, {} with r6, {} areas that are no multiple of 8, {} \
             with a float in several places; {} homed, with {} views",
            self.calls,
            self.nested,
            self.deepest,
            self.later,
            self.from_start,
            self.to_leaf,
            self.exact_room,
            self.hidden,
            self.results,
            self.in_memory,
            self.copies_outside,
            self.copies_inside,
            self.sixes,
            self.odd_areas,
            self.doubled,
            self.homed,
            self.views
        )
    }
}

/// Makes this many whole calls of a convention, or a few more.
pub fn run(seed: u64, convention: Convention, calls: u64) -> Result<Reach, Difference> {
    let mut random = Random::new(seed);
    let mut reach = Reach::default();
    while reach.calls < calls {
        let program = random.number();
        run_program(&mut Random::new(program), convention, &mut reach)
            .map_err(|difference| Difference(format!("program {program:#x}: {difference}")))?;
    }
    Ok(reach)
}

/// A start and the calls that it and its callees make.
fn run_program(
    random: &mut Random,
    convention: Convention,
    reach: &mut Reach,
) -> Result<(), Difference> {
    let length = match random.below(8) {
        0 => machine_calls::memory_length(random, convention),
        1 => 65_536,
        _ => 16 * (256 + random.below(1024)),
    };
    let mut pair = Pair::new(random, length);
    let start = machine_calls::start(random, convention, length);
    expect(&mut pair, &start, "a start")?;
    let mut program = Program {
        random,
        convention,
        pair,
        reach,
        open: 0,
        left: 12,
    };
    program.body(None)
}

struct Program<'a> {
    random: &'a mut Random,
    convention: Convention,
    pair: Pair,
    reach: &'a mut Reach,
    /// The whole calls that are open.
    open: usize,
    /// How many more may be made.
    left: usize,
}

/// One call with its values and its buffers, as filling left them.
struct Filled {
    signature: Vec<u8>,
    plan: Plan,
    values: Vec<u8>,
    image: Vec<u8>,
    area: Vec<u8>,
    copies: Vec<u8>,
    base: u64,
    hidden: u64,
    inside: bool,
}

impl Program<'_> {
    /// What a running function that is no leaf does: calls from frames of its own, and calls that its own
    /// area has room for. `running` is what it asked for, and nothing for the start.
    fn body(&mut self, running: Option<&Request>) -> Result<(), Difference> {
        let mut made = 0;
        for _ in 0..1 + self.random.below(3) {
            if self.left == 0 {
                break;
            }
            self.left -= 1;
            let signature = encode::signature(&valid_for(self.random, self.convention));
            let (_, plan) = reference::call(&signature).map_err(|refusal| {
                Difference(format!("{} is refused: {refusal:?}", hex(&signature)))
            })?;
            let has_room = plan.area as u64 <= outgoing(self.convention, running)
                && (!uses_six(&plan) || running.is_some_and(|own| own.first_gpr <= 6));
            if has_room && !self.random.once_in(4) {
                let called = self.whole_call(signature, plan, running)?;
                made += u64::from(called);
                self.reach.later += u64::from(called && made > 1);
                continue;
            }
            let caller = self.caller(&plan);
            let callers = running.map_or(0, |own| own.outgoing);
            if let Some(kept) = self.enter(&caller, callers)? {
                self.whole_call(signature, plan, Some(&caller))?;
                expect(&mut self.pair, &Call::Leave, "a leave")?;
                if !kept.holds(&self.pair) {
                    return Err(Difference(
                        "a function did not preserve what it must".into(),
                    ));
                }
            }
        }
        Ok(())
    }

    /// A request of a function that can make the call, often with just the room for it.
    fn caller(&mut self, plan: &Plan) -> Request {
        let asked = (plan.area as u64).div_ceil(8) * 8;
        let mut caller = small_request(self.random, self.convention);
        if self.random.once_in(4) {
            let other = request(self.random, self.convention);
            (caller.first_gpr, caller.first_fpr) = (other.first_gpr, other.first_fpr);
            caller.saves_cr = other.saves_cr;
        }
        if uses_six(plan) {
            caller.first_gpr = 6;
        }
        caller.outgoing = match self.random.below(3) {
            0 => (asked + 8 * (self.random.number() % 8)).min(32_776),
            _ => asked,
        };
        caller.locals = match self.random.below(3) {
            0 => 0,
            // just the copies, or some bytes more
            1 => plan.copies as u64,
            _ => plan.copies as u64 + self.random.number() % 40,
        };
        caller
    }

    /// Enters, and gives what the caller, which asked for an outgoing area of `callers` bytes, must find again; or
    /// nothing where there is no room for the frame (19) or no record (18).
    fn enter(&mut self, request: &Request, callers: u64) -> Result<Option<Preserved>, Difference> {
        let machine = self.pair.state();
        let needed = frame_size(self.convention, request) + floor(self.convention);
        let fits = stack_pointer(machine) - machine.base >= needed;
        let kept = fits.then(|| Preserved::new(&self.pair, self.convention, request, callers));
        match self.pair.call(&Call::Enter(*request))? {
            0 if fits => Ok(kept),
            18 | 19 => Ok(None),
            number => Err(Difference(format!("{request:?} is answered {number}"))),
        }
    }

    /// A call from the running function, which can make it. False where no callee could be entered.
    fn whole_call(
        &mut self,
        signature: Vec<u8>,
        plan: Plan,
        running: Option<&Request>,
    ) -> Result<bool, Difference> {
        let filled = self.fill(signature, plan, running)?;
        self.put(&filled)?;
        let callee = self.callee();
        let callers = running.map_or(0, |own| own.outgoing);
        let Some(kept) = self.enter(&callee, callers)? else {
            return Ok(false);
        };
        self.open += 1;
        self.reach.deepest = self.reach.deepest.max(self.open);
        self.find(&filled, &callee)?;
        if !callee.is_leaf() && self.random.once_in(2) {
            self.body(Some(&callee))?;
        }
        let result = self.put_result(&filled.plan.result)?;
        expect(&mut self.pair, &Call::Leave, "a callee's leave")?;
        self.open -= 1;
        if !kept.holds(&self.pair) {
            return Err(Difference(format!(
                "the callee of {} did not preserve what it must",
                hex(&filled.signature)
            )));
        }
        for (place, value) in result {
            if held(&self.pair.state().registers, place) != value {
                return Err(Difference(format!("the result in {place:?} is lost")));
            }
        }
        self.count(&filled, &callee, running);
        Ok(true)
    }

    /// Fills in both programs, with the copies outside the machine or in the running function's locals.
    fn fill(
        &mut self,
        signature: Vec<u8>,
        plan: Plan,
        running: Option<&Request>,
    ) -> Result<Filled, Difference> {
        let read = reference::read(&signature).map_err(|refusal| {
            Difference(format!("{} is refused: {refusal:?}", hex(&signature)))
        })?;
        let values = values(self.random, &read);
        let image = bytes(self.random, 512);
        let more = self.random.pick(&[0, 0, 1, 9]);
        let area = bytes(self.random, plan.area + more);
        let copies = bytes(self.random, plan.copies);
        // the first multiple of 8 in the locals, where they have room from there
        let locals = running.map(|own| {
            let pointer = stack_pointer(self.pair.state());
            let from =
                pointer + header(self.convention) as u64 + outgoing(self.convention, running);
            let start = from.div_ceil(8) * 8;
            (start, from + own.locals)
        });
        let room = locals.filter(|(start, end)| start.saturating_add(plan.copies as u64) <= *end);
        let (base, inside) = match room {
            Some((start, _)) if plan.copies > 0 => (start, true),
            _ => {
                let length = copies.len().div_ceil(16) * 16;
                (base(self.random, self.convention, length), false)
            }
        };
        let largest = machine_calls::last_address(self.convention);
        let hidden = self.random.number() & largest;
        let mut filled = Filled {
            signature,
            plan,
            values,
            image,
            area,
            copies,
            base,
            hidden,
            inside,
        };
        let mut other = (
            filled.image.clone(),
            filled.area.clone(),
            filled.copies.clone(),
        );
        let given = library::fill(
            &filled.signature,
            &filled.values,
            &mut filled.image,
            &mut filled.area,
            &mut filled.copies,
            base,
            hidden,
        );
        let expected = second::fill(
            &filled.signature,
            &filled.values,
            &mut other.0,
            &mut other.1,
            &mut other.2,
            base,
            hidden,
        );
        both("fill", &filled.signature, given, expected)?;
        if (&filled.image, &filled.area, &filled.copies) != (&other.0, &other.1, &other.2) {
            return Err(Difference(format!(
                "fill of {} differs",
                hex(&filled.signature)
            )));
        }
        Ok(filled)
    }

    /// Puts what filling left: a write for each register that the plan names, and the area and the copies
    /// in pieces of any length that a write may have.
    fn put(&mut self, filled: &Filled) -> Result<(), Difference> {
        for place in named(&filled.plan) {
            let (bank, number, at) = match place {
                Place::General(n) => (0, n, 8 * n),
                Place::Floating(n) => (1, n, 256 + 8 * n),
                Place::Memory(_) => continue,
            };
            let call = Call::WriteRegister {
                bank,
                number: number as u64,
                value: word(&filled.image, at),
            };
            expect(&mut self.pair, &call, "a register's write")?;
        }
        let own = stack_pointer(self.pair.state()) + header(self.convention) as u64;
        self.put_pieces(own, &filled.area[..filled.plan.area])?;
        if filled.inside {
            self.put_pieces(filled.base, &filled.copies)?;
        }
        Ok(())
    }

    fn put_pieces(&mut self, address: u64, of: &[u8]) -> Result<(), Difference> {
        let mut at = 0;
        while at < of.len() {
            let most = (of.len() - at).min(256);
            let length = match self.random.once_in(3) {
                true => 1 + self.random.below(most),
                false => most,
            };
            let call = Call::WriteMemory {
                address: address + at as u64,
                bytes: of[at..at + length].to_vec(),
            };
            expect(&mut self.pair, &call, "a write of the area")?;
            at += length;
        }
        Ok(())
    }

    /// A callee: a frame, small or not, or a leaf.
    fn callee(&mut self) -> Request {
        let callee = match self.random.once_in(4) {
            true => request(self.random, self.convention),
            false => small_request(self.random, self.convention),
        };
        match self.convention {
            Convention::Z => callee,
            _ if self.random.once_in(3) => leaf(callee),
            _ => callee,
        }
    }

    /// The callee's side: what it finds by its own stack pointer and the size of its frame is read, homed
    /// and viewed.
    fn find(&mut self, filled: &Filled, callee: &Request) -> Result<(), Difference> {
        let Filled {
            signature, plan, ..
        } = filled;
        let machine = self.pair.state();
        let image = image_of(&machine.registers);
        let callers = stack_pointer(machine)
            + frame_size(self.convention, callee)
            + header(self.convention) as u64;
        let from = |address: u64, length: usize| {
            let at = (address - machine.base) as usize;
            self.pair.memory()[at..at + length].to_vec()
        };
        let area = from(callers, plan.area);
        let copies = match filled.inside {
            true => from(filled.base, plan.copies),
            false => filled.copies.clone(),
        };
        let lost =
            |what: &str| Difference(format!("{what} of {} is not the caller's", hex(signature)));

        let mut values = bytes(self.random, plan.values);
        let mut other = values.clone();
        let given = library::read(signature, &mut values, &image, &area, &copies, filled.base);
        let expected = second::read(signature, &mut other, &image, &area, &copies, filled.base);
        both("read", signature, given, expected)?;
        if values != filled.values || other != filled.values {
            return Err(lost("what the callee reads"));
        }
        if let ResultPlan::Hidden(place) = plan.result {
            if held(&machine.registers, place) != filled.hidden {
                return Err(lost("the hidden address"));
            }
        }
        if self.convention == Convention::Z {
            return Ok(());
        }
        let mut homed = area.clone();
        let mut other = area;
        let given = library::home(signature, &image, &mut homed);
        let expected = second::home(signature, &image, &mut other);
        both("home", signature, given, expected)?;
        if homed != other {
            return Err(lost("home"));
        }
        self.put_pieces(callers, &homed)?;
        self.reach.homed += 1;
        let read = reference::read(signature).expect("it was read before");
        let mut start = 0;
        for (index, argument) in read.arguments.iter().enumerate() {
            let size = argument.size(self.convention);
            start += size;
            // of a long list some
            if read.arguments.len() > 12 && !self.random.once_in(12) {
                continue;
            }
            let part = library::view(&homed, signature, index as u64);
            let own = second::view(&homed, signature, index as u64);
            both(
                "view",
                signature,
                part.answer,
                own.as_ref().map(|_| ()).map_err(|no| *no),
            )?;
            let seen = &homed[part.start as usize..][..part.length as usize];
            if own != Ok(part.start as usize..(part.start + part.length) as usize)
                || seen != &filled.values[start - size..start]
            {
                return Err(lost("a view"));
            }
            self.reach.views += 1;
        }
        Ok(())
    }

    /// Puts a result in its registers, and gives what stands there.
    fn put_result(&mut self, result: &ResultPlan) -> Result<Vec<(Place, u64)>, Difference> {
        let ResultPlan::Registers(places) = result else {
            return Ok(Vec::new());
        };
        let mut put = Vec::new();
        for &place in places {
            let (bank, number) = match place {
                Place::General(n) => (0, n),
                Place::Floating(n) => (1, n),
                Place::Memory(_) => continue,
            };
            let value = match bank {
                0 => self.random.number() & machine_calls::last_address(self.convention),
                _ => self.random.number(),
            };
            let call = Call::WriteRegister {
                bank,
                number: number as u64,
                value,
            };
            expect(&mut self.pair, &call, "a result's write")?;
            put.push((place, value));
        }
        Ok(put)
    }

    fn count(&mut self, filled: &Filled, callee: &Request, running: Option<&Request>) {
        let Filled { plan, inside, .. } = filled;
        let reach = &mut *self.reach;
        let in_memory = |place: &Place| matches!(place, Place::Memory(_));
        let some = |yes: bool| u64::from(yes);
        reach.calls += 1;
        reach.nested += some(self.open > 0);
        reach.from_start += some(running.is_none());
        reach.to_leaf += some(callee.is_leaf());
        reach.exact_room += some(plan.area as u64 == outgoing(self.convention, running));
        reach.hidden += some(matches!(plan.result, ResultPlan::Hidden(_)));
        reach.results += some(matches!(plan.result, ResultPlan::Registers(_)));
        let mut places = plan.arguments.iter().flat_map(|argument| &argument.places);
        reach.in_memory += some(places.any(in_memory));
        reach.copies_outside += some(plan.copies > 0 && !inside);
        reach.copies_inside += some(*inside);
        reach.sixes += some(uses_six(plan));
        reach.odd_areas += some(plan.area % 8 != 0);
        let doubled = |argument: &ArgumentPlan| {
            let floating = |place: &Place| matches!(place, Place::Floating(_));
            argument.places.iter().any(floating) && !argument.places.iter().all(floating)
        };
        reach.doubled += some(plan.arguments.iter().any(doubled));
    }
}

/// The length of the outgoing area of a function, or of the start.
fn outgoing(convention: Convention, of: Option<&Request>) -> u64 {
    let least = match convention {
        Convention::Ppc64 | Convention::Ppc64b => 64,
        Convention::Aix => 32,
        Convention::Z => 0,
    };
    of.map_or(0, |request| request.outgoing).max(least)
}

/// The places of the hidden address and of the arguments.
fn named(plan: &Plan) -> Vec<Place> {
    let hidden = match plan.result {
        ResultPlan::Hidden(place) => Some(place),
        _ => None,
    };
    let arguments = plan.arguments.iter();
    let places = arguments.flat_map(|argument| argument.places.iter().copied());
    hidden.into_iter().chain(places).collect()
}

/// Whether r6 of Z, which is preserved, is among them.
fn uses_six(plan: &Plan) -> bool {
    plan.convention == Convention::Z && named(plan).contains(&Place::General(6))
}

/// "The image holds GPR n at 8n, FPR n at 256 + 8n"
fn image_of(registers: &Registers) -> Vec<u8> {
    let words = registers.gpr.iter().chain(&registers.fpr);
    words.flat_map(|word| word.to_be_bytes()).collect()
}

fn word(image: &[u8], at: usize) -> u64 {
    let bytes = image[at..at + 8].iter();
    bytes.fold(0, |number, &byte| number << 8 | u64::from(byte))
}

fn held(registers: &Registers, place: Place) -> u64 {
    match place {
        Place::General(n) => registers.gpr[n],
        Place::Floating(n) => registers.fpr[n],
        Place::Memory(_) => 0,
    }
}

/// Makes a call that must be accepted.
fn expect(pair: &mut Pair, call: &Call, what: &str) -> Result<(), Difference> {
    match pair.call(call)? {
        0 => Ok(()),
        number => Err(Difference(format!(
            "{what} is refused with {number}: {call:?}"
        ))),
    }
}

/// Both programs accept.
fn both(
    what: &str,
    signature: &[u8],
    given: Answer,
    expected: Result<(), Refusal>,
) -> Result<(), Difference> {
    let second = match &expected {
        Ok(()) => ACCEPTED,
        Err(refusal) => refused(refusal),
    };
    match given == ACCEPTED && expected.is_ok() {
        true => Ok(()),
        false => Err(Difference(format!(
            "{what} of {}: the library answers {given:?}, the second program {second:?}",
            hex(signature)
        ))),
    }
}
