//! Lists of calls of the frame machine, and states and memories that no calls lead to, with a count
//! of all that they reach.

use crate::machine_calls::{self as calls, Style, STYLES};
use crate::machines::{random_bytes, stack_pointer, told, Call, Pair, GUARD};
use crate::random::Random;
use crate::Difference;
use reference::machine::{
    first_pointer, floor, frame_size, lowest_pointer, pointer_register, request_allowed,
    save_slots, Area, AreaKind, Machine, Registers, Request,
};
use reference::Convention;
use std::fmt;

/// The most calls of a list, its start included.
pub const LONGEST_LIST: usize = 200;
/// CR fields 2 to 4, which a function preserves.
const PRESERVED_CR_FIELDS: u64 = 0x00ff_f000;

/// How often each thing happened.
#[derive(Clone, Default)]
pub struct Reach {
    pub lists: u64,
    pub calls: u64,
    /// Lists of the most calls.
    pub longest: u64,
    /// Accepted calls.
    pub starts: u64,
    pub enters: u64,
    pub leaves: u64,
    /// Accepted register writes by bank.
    pub register_writes: [u64; 4],
    /// Those of registers that the frame has saved.
    pub saved_register_writes: u64,
    /// Accepted memory writes: locals, own and caller's outgoing area, a leaf's part of the floor.
    pub memory_writes: [u64; 4],
    /// Accepted memory writes that touch the first, and the last, byte of an area.
    pub first_bytes: u64,
    pub last_bytes: u64,
    /// Refused memory writes that would lie in an area but for one byte.
    pub one_byte_outside: u64,
    /// Refused calls by number.
    pub refusals: [u64; 29],
    /// The most frames, and how often there were 32.
    pub deepest: u64,
    pub full: u64,
    /// Enters that left no byte but the floor's, and refused ones that would fit with one byte of
    /// locals less.
    pub last_free_byte: u64,
    pub one_byte_too_many: u64,
    /// What was refused for the floor alone: starts, enters, and calls of states. Each would have
    /// been accepted, or its state would, if the stack pointer might go down to the base.
    pub floors: [u64; 3],
    /// What was refused on AIX for more than 32 bits alone: starts whose memory ends too high, writes
    /// of registers, and calls of states with such a register.
    pub over_32_bits: [u64; 3],
    /// Leaves entered, at the start, above a frame, as the 32nd, and where no frame would fit.
    pub leaves_entered: [u64; 4],
    /// Leaves left, register writes of a leaf, and calls of states with a leaf below the top.
    pub leaves_left: u64,
    pub leaf_register_writes: u64,
    pub leaves_below: u64,
    /// Leaves after which the caller was seen to find all that a call must preserve.
    pub preserving: u64,
    /// Accepted leaves that restored bytes by chance.
    pub foreign_leaves: u64,
}

impl fmt::Display for Reach {
    fn fmt(&self, to: &mut fmt::Formatter<'_>) -> fmt::Result {
        let [gpr, fpr, lr, cr] = self.register_writes;
        let [locals, own, callers, floor] = self.memory_writes;
        writeln!(
            to,
            "{} lists or states, {} of {LONGEST_LIST} calls; {} calls",
            self.lists, self.longest, self.calls
        )?;
        writeln!(
            to,
            "accepted: {} starts, {} enters ({} to the last free byte), {} leaves ({} from foreign \
             bytes, {} seen to preserve the caller's)",
            self.starts,
            self.enters,
            self.last_free_byte,
            self.leaves,
            self.foreign_leaves,
            self.preserving
        )?;
        writeln!(
            to,
            "register writes: general {gpr}, floating {fpr}, LR {lr}, CR {cr}; {} of them saved",
            self.saved_register_writes
        )?;
        writeln!(
            to,
            "memory writes: locals {locals}, own outgoing {own}, caller's outgoing {callers}, floor \
             {floor}; {} with a first byte, {} with a last, {} refused for one byte",
            self.first_bytes, self.last_bytes, self.one_byte_outside
        )?;
        let [first, above, last, full] = self.leaves_entered;
        writeln!(
            to,
            "leaves: {first} at the start, {above} above frames, {last} as the 32nd, {full} where no \
             frame fits; {} left; {} register writes; {} calls with one below the top",
            self.leaves_left, self.leaf_register_writes, self.leaves_below
        )?;
        write!(to, "refused:")?;
        for number in (16..=23).chain([28]) {
            write!(to, " {number}: {}", self.refusals[number])?;
        }
        let [starts, enters, states] = self.floors;
        write!(
            to,
            "; {} stack full for one byte; for the floor alone {starts} starts, {enters} enters, \
             {states} calls of states; deepest {}, {} times 32",
            self.one_byte_too_many, self.deepest, self.full
        )?;
        let [starts, writes, states] = self.over_32_bits;
        write!(
            to,
            "; for more than 32 bits alone {starts} starts, {writes} writes, {states} calls of states"
        )
    }
}

/// A pair of machines that counts what its calls reach.
struct Counted<'r> {
    pair: Pair,
    reach: &'r mut Reach,
}

impl Counted<'_> {
    fn call(&mut self, call: &Call) -> Result<u64, Difference> {
        self.call_lending(call, self.pair.memory().len())
    }

    fn call_lending(&mut self, call: &Call, lent: usize) -> Result<u64, Difference> {
        let before = self.pair.state().clone();
        let number = self.pair.call_lending(call, lent)?;
        self.reach.calls += 1;
        match number {
            0 => self.count_accepted(call, &before),
            _ => self.count_refused(call, &before, lent, number),
        }
        Ok(number)
    }

    fn count_accepted(&mut self, call: &Call, before: &Machine) {
        let after = self.pair.state();
        let reach = &mut self.reach;
        match call {
            Call::Start { .. } => reach.starts += 1,
            Call::Enter(request) => {
                reach.enters += 1;
                if request.is_leaf() {
                    reach.leaves_entered[usize::from(before.depth > 0)] += 1;
                    reach.leaves_entered[2] += u64::from(after.depth == 32);
                    let frame = Request {
                        leaf: 0,
                        ..*request
                    };
                    let convention = before.possible().expect("it is accepted");
                    let room = calls::room(before, convention);
                    let fits = frame_size(convention, &frame) <= room;
                    reach.leaves_entered[3] += u64::from(!fits);
                }
                reach.deepest = reach.deepest.max(after.depth);
                reach.full += u64::from(after.depth == 32);
                let free = stack_pointer(after) - after.base;
                let convention = after.possible().expect("it is accepted");
                // stack pointers of PPC64 and AIX are multiples of 16, and AIX's floor is none
                reach.last_free_byte += u64::from(free < floor(convention) + 8);
            }
            Call::WriteRegister { bank, number, .. } => {
                reach.register_writes[*bank as usize] += 1;
                let saved = match (Convention::of_code(before.convention), bank) {
                    (Some(Convention::Aix), 0) => *number >= 13,
                    (Some(Convention::Ppc64 | Convention::Aix | Convention::Ppc64b), 0 | 1) => {
                        *number >= 14
                    }
                    (Some(Convention::Ppc64 | Convention::Aix | Convention::Ppc64b), 3) => {
                        (2..=4).contains(number)
                    }
                    (Some(Convention::Z), 0) => (6..=13).contains(number),
                    (Some(Convention::Z), 1) => *number >= 8,
                    _ => false,
                };
                reach.saved_register_writes += u64::from(saved);
                reach.leaf_register_writes += u64::from(calls::in_leaf(before));
            }
            Call::WriteMemory { address, bytes } => {
                let start = u128::from(*address);
                let end = start + bytes.len() as u128;
                for area in areas(before) {
                    if area.start <= start && end <= area.end {
                        let kind = match area.kind {
                            AreaKind::Locals => 0,
                            AreaKind::OwnOutgoing => 1,
                            AreaKind::CallersOutgoing => 2,
                            AreaKind::Floor => 3,
                        };
                        reach.memory_writes[kind] += 1;
                        reach.first_bytes += u64::from(area.start == start);
                        reach.last_bytes += u64::from(area.end == end);
                    }
                }
            }
            Call::Leave => {
                reach.leaves += 1;
                reach.leaves_left += u64::from(calls::in_leaf(before));
            }
        }
    }

    fn count_refused(&mut self, call: &Call, before: &Machine, lent: usize, number: u64) {
        let reach = &mut self.reach;
        reach.refusals[number as usize] += 1;
        match (number, call) {
            (
                16,
                Call::Start {
                    convention, base, ..
                },
            ) => {
                let least = calls::least_memory(*convention);
                let multiples = lent % 16 == 0 && base % 16 == 0;
                let last = calls::last_address(*convention) - lent as u64;
                let lacks_floor = (256..least).contains(&lent) && *base <= last;
                reach.floors[0] += u64::from(multiples && lacks_floor);
                let too_high = *base > last && *base <= u64::MAX - lent as u64;
                let enough = (least..=65_536).contains(&lent);
                reach.over_32_bits[0] += u64::from(multiples && too_high && enough);
            }
            (
                20,
                Call::WriteRegister {
                    bank,
                    number,
                    value,
                },
            ) if *value > u64::from(u32::MAX) => {
                let mut machine = before.clone();
                let memory = vec![0; lent];
                let low = machine.write_register(*bank, *number, 0, &memory);
                let too_high = before.convention == 3 && matches!(bank, 0 | 2) && low.is_ok();
                reach.over_32_bits[1] += u64::from(too_high);
            }
            (19, Call::Enter(request)) => {
                let convention = before.possible().expect("23 is tested before 19");
                let room = calls::room(before, convention);
                if request.locals > 0 {
                    let smaller = Request {
                        locals: request.locals - 1,
                        ..*request
                    };
                    reach.one_byte_too_many += u64::from(frame_size(convention, &smaller) <= room);
                }
                let to_the_base = room + floor(convention);
                reach.floors[1] += u64::from(frame_size(convention, request) <= to_the_base);
            }
            (23, _) => {
                reach.floors[2] += u64::from(lacks_the_floor_alone(before));
                reach.over_32_bits[2] += u64::from(has_too_many_bits_alone(before));
                let below = 0..before.depth.clamp(1, 32) as usize - 1;
                reach.leaves_below += u64::from(before.frames[below].iter().any(Request::is_leaf));
            }
            (20, Call::WriteMemory { address, bytes }) if (2..=256).contains(&bytes.len()) => {
                let start = u128::from(*address);
                let end = start + bytes.len() as u128;
                let misses = |area: &Area| {
                    area.start <= start + 1 && end <= area.end
                        || area.start <= start && end - 1 <= area.end
                };
                reach.one_byte_outside += u64::from(areas(before).iter().any(misses));
            }
            _ => {}
        }
    }
}

/// Whether a state cannot be that could, if the stack pointer might go down to the base: with as
/// much more memory under it, it can.
fn lacks_the_floor_alone(machine: &Machine) -> bool {
    let Some(convention) = Convention::of_code(machine.convention) else {
        return false;
    };
    // bases are multiples of 16
    let floor = floor(convention).div_ceil(16) * 16;
    let mut roomier = machine.clone();
    roomier.base = machine.base.wrapping_sub(floor);
    roomier.size = machine.size.wrapping_add(floor);
    floor > 0
        && (256..=65_536 - floor).contains(&machine.size)
        && stack_pointer(machine) >= machine.base
        && roomier.possible().is_some()
}

/// Whether a state of AIX cannot be that could, if its registers had their low halves alone.
fn has_too_many_bits_alone(machine: &Machine) -> bool {
    let mut narrowed = machine.clone();
    clear_high_halves(&mut narrowed.registers);
    machine.convention == 3 && narrowed != *machine && narrowed.possible().is_some()
}

fn clear_high_halves(registers: &mut Registers) {
    registers.lr &= u64::from(u32::MAX);
    for gpr in &mut registers.gpr {
        *gpr &= u64::from(u32::MAX);
    }
}

fn areas(machine: &Machine) -> Vec<Area> {
    match machine.possible() {
        Some(convention) => machine.areas(convention),
        None => Vec::new(),
    }
}

/// What a caller relies on, told from the calls and their answers alone: what it finds again after
/// a matching leave, whatever the calls between were.
pub(crate) struct Preserved {
    convention: Convention,
    registers: Registers,
    /// The caller's stack pointer, and the memory from there up.
    pointer: u64,
    memory: Vec<u8>,
    /// What of that memory may change.
    open: Vec<(u64, u64)>,
}

impl Preserved {
    /// Just before an enter; `callers_outgoing` is what the caller itself asked for.
    pub(crate) fn new(
        pair: &Pair,
        convention: Convention,
        request: &Request,
        callers_outgoing: u64,
    ) -> Self {
        let machine = pair.state();
        let pointer = machine.registers.gpr[pointer_register(convention)];
        let from = (pointer - machine.base) as usize;
        let mut open = vec![match convention {
            Convention::Ppc64 | Convention::Ppc64b => {
                (pointer + 48, pointer + 48 + callers_outgoing.max(64))
            }
            Convention::Aix => (pointer + 24, pointer + 24 + callers_outgoing.max(32)),
            Convention::Z => (pointer + 160, pointer + 160 + callers_outgoing),
        }];
        for (saved, at) in save_slots(convention, request, u128::from(pointer)) {
            let length = saved.width(convention);
            open.push((at as u64, at as u64 + length as u64));
        }
        Preserved {
            convention,
            registers: machine.registers,
            pointer,
            memory: pair.memory()[from..].to_vec(),
            open,
        }
    }

    /// Whether it is all there just after the matching leave.
    pub(crate) fn holds(&self, pair: &Pair) -> bool {
        let machine = pair.state();
        let (old, new) = (&self.registers, &machine.registers);
        let registers = match self.convention {
            Convention::Ppc64 | Convention::Aix | Convention::Ppc64b => {
                old.gpr[2] == new.gpr[2]
                    && old.gpr[13..] == new.gpr[13..]
                    && old.fpr[14..] == new.fpr[14..]
                    && (old.cr ^ new.cr) & PRESERVED_CR_FIELDS == 0
                    && old.lr == new.lr
            }
            // the return address is r14
            Convention::Z => {
                old.gpr[6..=14] == new.gpr[6..=14] && old.fpr[8..=15] == new.fpr[8..=15]
            }
        };
        let from = (self.pointer - machine.base) as usize;
        let mut memory = pair.memory()[from..].to_vec();
        for &(start, end) in &self.open {
            // a slot below the pointer is none of the caller's memory
            if start >= self.pointer {
                let (start, end) = (start - self.pointer, end - self.pointer);
                let part = start as usize..end as usize;
                memory[part.clone()].copy_from_slice(&self.memory[part]);
            }
        }
        registers && stack_pointer(machine) == self.pointer && memory == self.memory
    }
}

/// Compares this many lists of a convention.
pub fn run(seed: u64, convention: Convention, lists: u64) -> Result<Reach, Difference> {
    let mut random = Random::new(seed);
    let mut reach = Reach::default();
    for _ in 0..lists {
        let list = random.number();
        run_list(&mut Random::new(list), convention, &mut reach)
            .map_err(|difference| Difference(format!("list {list:#x}: {difference}")))?;
    }
    Ok(reach)
}

fn run_list(
    random: &mut Random,
    convention: Convention,
    reach: &mut Reach,
) -> Result<(), Difference> {
    let length = calls::memory_length(random, convention);
    let pair = Pair::new(random, length);
    let mut machine = Counted { pair, reach };
    let count = match random.below(4) {
        0 => LONGEST_LIST,
        _ => 2 + random.below(LONGEST_LIST - 1),
    };
    machine.reach.lists += 1;
    machine.reach.longest += u64::from(count == LONGEST_LIST);
    let style = random.pick(&STYLES);
    let mut made = 0;
    if random.once_in(4) {
        let (start, lent) = calls::refused_start(random, convention, length);
        refused_start(random, &mut machine, &start, lent)?;
        made += 2;
    }
    let start = calls::start(random, convention, length);
    expect(machine.call(&start)?, 0, "a start that is allowed")?;
    made += 1;
    match random.once_in(4) {
        true => run_interfered(random, &mut machine, style, count.saturating_sub(made)),
        false => run_undisturbed(
            random,
            &mut machine,
            convention,
            style,
            count.saturating_sub(made),
        ),
    }
}

/// A start that is refused, and a call of what it leaves.
fn refused_start(
    random: &mut Random,
    machine: &mut Counted,
    start: &Call,
    lent: usize,
) -> Result<(), Difference> {
    expect(
        machine.call_lending(start, lent)?,
        16,
        "a start that is not allowed",
    )?;
    let call = calls::call(random, machine.pair.state(), Style::Mixed);
    expect(machine.call(&call)?, 23, "a call after a refused start")
}

fn expect(given: u64, expected: u64, what: &str) -> Result<(), Difference> {
    match given == expected {
        true => Ok(()),
        false => Err(Difference(format!(
            "both programs answer {given} to {what}, which gives {expected}"
        ))),
    }
}

/// Calls alone, so that every leave must give its caller back what it had. At times another length
/// is lent.
fn run_undisturbed(
    random: &mut Random,
    machine: &mut Counted,
    convention: Convention,
    style: Style,
    count: usize,
) -> Result<(), Difference> {
    // for each open frame, what its caller relies on, and the outgoing area that it asked for
    let mut open: Vec<(Preserved, u64)> = Vec::new();
    for _ in 0..count {
        let call = calls::call(random, machine.pair.state(), style);
        if random.once_in(50) {
            let lent = other_length(random, machine.pair.memory().len());
            expect(
                machine.call_lending(&call, lent)?,
                16,
                "a memory of another length",
            )?;
            continue;
        }
        let preserved = match &call {
            Call::Enter(request) if fits(machine.pair.state(), convention, request) => {
                let callers = open.last().map_or(0, |&(_, outgoing)| outgoing);
                let preserved = Preserved::new(&machine.pair, convention, request, callers);
                Some((preserved, request.outgoing))
            }
            _ => None,
        };
        if machine.call(&call)? != 0 {
            continue;
        }
        match call {
            Call::Enter(_) => open.extend(preserved),
            Call::Leave => {
                let there = open
                    .pop()
                    .is_some_and(|(preserved, _)| preserved.holds(&machine.pair));
                if !there {
                    return Err(Difference(format!(
                        "both programs leave a frame and do not give its caller back what it had; \
                         now {}",
                        told(machine.pair.state())
                    )));
                }
                machine.reach.preserving += 1;
            }
            _ => {}
        }
    }
    Ok(())
}

/// Whether a frame can be had, be there 32 already or not.
fn fits(machine: &Machine, convention: Convention, request: &Request) -> bool {
    request_allowed(convention, request)
        && frame_size(convention, request) <= calls::room(machine, convention)
}

/// A length that is not the memory's, which is this one, and no longer than its guard lets it be.
pub fn other_length(random: &mut Random, length: usize) -> usize {
    match random.below(5) {
        0 => length - 16,
        1 => length + 16,
        2 => length - 1,
        3 => length + 1 + random.below(GUARD),
        _ => random.below(length),
    }
}

/// Calls between which the memory and the state are changed from outside.
fn run_interfered(
    random: &mut Random,
    machine: &mut Counted,
    style: Style,
    count: usize,
) -> Result<(), Difference> {
    for _ in 0..count {
        match random.below(12) {
            0 | 1 => foreign_memory(random, machine)?,
            2 => foreign_state(random, machine, style)?,
            _ => {
                let call = calls::call(random, machine.pair.state(), style);
                machine.call(&call)?;
            }
        }
    }
    Ok(())
}

/// A leave after some bytes were changed that matter to it. Where it is refused, they are put back,
/// so that the list goes on.
fn foreign_memory(random: &mut Random, machine: &mut Counted) -> Result<(), Difference> {
    let state = machine.pair.state();
    let Some(convention) = state.possible() else {
        return machine.call(&Call::Leave).map(|_| ());
    };
    let length = random.pick(&[1, 4, 8]);
    let address = calls::protected(random, state, convention) + random.number() % 8;
    let at = ((address - state.base) as usize).min(machine.pair.memory().len() - length);
    let before = machine.pair.memory()[at..at + length].to_vec();
    let bytes = random_bytes(random, length);
    machine.pair.change_memory(at, &bytes);
    match machine.call(&Call::Leave)? {
        0 => machine.reach.foreign_leaves += 1,
        _ => machine.pair.change_memory(at, &before),
    }
    Ok(())
}

/// A call of a state that was changed. Where it is refused, the state is put back.
fn foreign_state(
    random: &mut Random,
    machine: &mut Counted,
    style: Style,
) -> Result<(), Difference> {
    let before = machine.pair.state().clone();
    machine.pair.change_state(|state| change(random, state));
    let call = calls::call(random, machine.pair.state(), style);
    // an accepted call may have moved the changed machine: it goes on from there
    if machine.call(&call)? != 0 || machine.pair.state().size != before.size {
        machine.pair.change_state(|state| *state = before);
    }
    Ok(())
}

/// One change of a state: most make one that cannot be, some one that can.
pub fn change(random: &mut Random, state: &mut Machine) {
    let convention = Convention::of_code(state.convention).unwrap_or(Convention::Ppc64);
    let pointer = &mut state.registers.gpr[pointer_register(convention)];
    let step = random.pick(&[1, 8, 16, 112, 160, 4096]);
    let signed = random.pick(&[step, 0u64.wrapping_sub(step)]);
    let entered = state.depth.clamp(1, 32) as usize;
    match random.below(15) {
        0 => state.convention = random.pick(&[0, 1, 2, 3, 4, 257, u64::MAX]),
        1 => state.base = state.base.wrapping_add(signed),
        2 => {
            let highest = (calls::last_address(convention) - 15).wrapping_sub(state.size);
            state.base = random.pick(&[0, u64::MAX - 15, highest, highest.wrapping_add(16)]);
        }
        3 => state.size = state.size.wrapping_add(signed),
        4 => {
            let sizes = [
                0,
                240,
                256,
                272,
                288,
                384,
                400,
                65_536,
                65_552,
                u64::MAX - 15,
            ];
            state.size = random.pick(&sizes);
        }
        5 => {
            let deeper = state.depth.wrapping_add(1);
            state.depth = random.pick(&[state.depth.wrapping_sub(1), deeper, 33, 0]);
        }
        6 => state.depth = random.pick(&[32, 64, 1 << 32, u64::MAX]),
        7 => *pointer = pointer.wrapping_add(signed),
        8 => state.registers.cr |= 1 << (32 + random.below(32)),
        9 => {
            let at = random.below(entered);
            let broken = calls::broken_request(random, convention, state.frames[at]);
            state.frames[at] = broken;
        }
        // what follows is possible if the state was
        10 => {
            let at = random.below(32 - entered + 1) + entered - 1;
            if at as u64 >= state.depth {
                state.frames[at] = Request {
                    first_gpr: random.number(),
                    first_fpr: random.number(),
                    saves_cr: random.number(),
                    locals: random.number(),
                    outgoing: random.number(),
                    leaf: random.number() % 3,
                };
            }
        }
        // a memory that begins further up, with the floor, one step less, or nothing under the
        // stack pointer
        11 => {
            let floor = floor(convention).div_ceil(16) * 16;
            let under = random.pick(&[floor, floor.saturating_sub(16), 0]);
            let cut = pointer.wrapping_sub(under).wrapping_sub(state.base);
            state.base = state.base.wrapping_add(cut);
            state.size = state.size.wrapping_sub(cut);
        }
        // a leaf anywhere, with the stack pointer that follows
        12 => {
            let at = random.below(entered);
            let frame = state.frames[at];
            state.frames[at] = calls::leaf(frame);
            if request_allowed(convention, &frame) {
                *pointer = pointer.wrapping_add(frame_size(convention, &frame));
            }
        }
        // a bit that AIX's registers have not
        13 => {
            let bit = 1 << (32 + random.below(32));
            match random.below(33) {
                32 => state.registers.lr |= bit,
                n => state.registers.gpr[n] |= bit,
            }
        }
        // the whole machine at another address
        _ => {
            let moved = calls::base(random, convention, (state.size % 65_537) as usize);
            *pointer = pointer.wrapping_sub(state.base).wrapping_add(moved);
            state.base = moved;
        }
    }
}

/// Compares calls of this many states that were made up, on memories that know nothing of them.
pub fn run_nonsense(seed: u64, states: u64) -> Result<Reach, Difference> {
    let mut random = Random::new(seed);
    let mut reach = Reach::default();
    for _ in 0..states {
        let state = random.number();
        run_state(&mut Random::new(state), &mut reach)
            .map_err(|difference| Difference(format!("state {state:#x}: {difference}")))?;
    }
    Ok(reach)
}

fn run_state(random: &mut Random, reach: &mut Reach) -> Result<(), Difference> {
    let convention = random.pick(&Convention::ALL);
    let length = calls::memory_length(random, convention);
    let mut pair = Pair::new(random, length);
    // one state in sixteen stays as it is, all by chance
    if !random.once_in(16) {
        pair.change_state(|state| make_up(random, convention, length, state));
        for _ in 0..random.pick(&[0, 0, 1, 1, 1, 2]) {
            pair.change_state(|state| change(random, state));
        }
    }
    let mut machine = Counted { pair, reach };
    machine.reach.lists += 1;
    for _ in 0..1 + random.below(6) {
        mend(random, &mut machine.pair);
        let call = match random.once_in(2) {
            true => calls::call(random, machine.pair.state(), Style::Mixed),
            false => Call::Leave,
        };
        let lent = match random.below(12) {
            0 => other_length(random, length),
            _ => length,
        };
        let number = machine.call_lending(&call, lent)?;
        if matches!(call, Call::Leave) && number == 0 {
            machine.reach.foreign_leaves += 1;
        }
    }
    Ok(())
}

/// A state with records by chance and the stack pointer that they make, which may be out of the
/// memory.
pub fn make_up(random: &mut Random, convention: Convention, length: usize, state: &mut Machine) {
    state.convention = u64::from(convention.code());
    state.base = calls::base(random, convention, length);
    state.size = length as u64;
    state.depth = match random.below(8) {
        0 => 0,
        1 => random.number() % 33,
        2 => 32,
        _ => 1 + random.number() % 6,
    };
    state.registers.cr &= 0xffff_ffff;
    if convention == Convention::Aix && !random.once_in(16) {
        clear_high_halves(&mut state.registers);
    }
    let mut pointer = first_pointer(convention, state.base, state.size) as u64;
    // at times frames that leave no floor stay
    let lowest = match random.once_in(3) {
        true => state.base,
        false => lowest_pointer(convention, state.base) as u64,
    };
    let small = !random.once_in(4);
    for frame in &mut state.frames[..state.depth as usize] {
        *frame = match small {
            true => calls::small_request(random, convention),
            false => calls::request(random, convention),
        };
        // now and then below others, where it may not be
        if random.once_in(256) {
            *frame = calls::leaf(*frame);
        }
        pointer = pointer.wrapping_sub(frame_size(convention, frame));
    }
    // mostly, frames that do not fit are cut off, so that the state can be
    if !random.once_in(8) {
        while state.depth > 0 && (pointer < lowest || pointer - lowest > length as u64) {
            state.depth -= 1;
            let cut = &state.frames[state.depth as usize];
            pointer = pointer.wrapping_add(frame_size(convention, cut));
        }
    }
    // mostly where it may be
    if state.depth > 0 && random.once_in(3) {
        let top = &mut state.frames[state.depth as usize - 1];
        pointer = pointer.wrapping_add(frame_size(convention, top));
        *top = calls::leaf(*top);
    }
    state.registers.gpr[pointer_register(convention)] = pointer;
}

/// Mostly puts the caller's stack pointer where a leave looks for it, in a memory that holds
/// nothing else of the machine.
fn mend(random: &mut Random, pair: &mut Pair) {
    if let Some((at, bytes)) = mending(random, pair.state(), pair.memory().len()) {
        pair.change_memory(at, &bytes);
    }
}

/// The bytes that mend the memory of this length, and where they go.
pub fn mending(random: &mut Random, state: &Machine, length: usize) -> Option<(usize, Vec<u8>)> {
    let convention = state.possible()?;
    if state.depth == 0 || state.size != length as u64 || random.once_in(4) {
        return None;
    }
    let pointer = stack_pointer(state);
    let caller = pointer + frame_size(convention, &state.frames[state.depth as usize - 1]);
    let at = match convention {
        Convention::Ppc64 | Convention::Aix | Convention::Ppc64b => pointer,
        Convention::Z => caller + 120,
    };
    let mut bytes = caller.to_be_bytes()[8 - convention.word()..].to_vec();
    if random.once_in(8) {
        let byte = random.below(bytes.len());
        bytes[byte] ^= 1 << random.below(8);
    }
    Some(((at - state.base) as usize, bytes))
}
