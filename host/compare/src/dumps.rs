//! The walk of a dump compared: the answer, the count and every number of the list. The dumps are
//! chains of frames that were made, whole and with faults in them, bytes by chance, and the memories of
//! machines after lists of calls.

use crate::machine_calls::{self as calls, STYLES};
use crate::machines::{call_second, random_bytes, random_state, stack_pointer, Call};
use crate::random::Random;
use crate::signatures::{refused, ACCEPTED};
use crate::Difference;
use flakuzhen::surface::dump::{self as surface, Walked};
use reference::dump::{alignment, header, walk, MOST_FRAMES};
use reference::machine::Machine;
use reference::Convention;
use std::fmt;

/// What a walk is handed.
#[derive(Clone, Debug)]
pub struct Dump {
    pub convention: Convention,
    pub memory: Vec<u8>,
    pub base: u64,
    pub pointer: u64,
    pub list: Vec<u64>,
}

/// What was made of a dump.
#[derive(Clone, Copy, Debug, PartialEq, Eq)]
pub enum Fault {
    None,
    /// A back chain to its own frame.
    ToItself,
    /// A back chain to a frame before.
    Loop,
    Misaligned,
    /// The last frame's header lacks its last byte.
    LastByteCut,
    /// The stack pointer, or a back chain, is some number.
    AnyAddress,
    /// The dump ends past 2^64 - 1.
    PastTheEnd,
}

pub const FAULTS: [Fault; 7] = [
    Fault::None,
    Fault::ToItself,
    Fault::Loop,
    Fault::Misaligned,
    Fault::LastByteCut,
    Fault::AnyAddress,
    Fault::PastTheEnd,
];

/// How often each answer came.
#[derive(Clone, Default)]
pub struct Counts {
    pub walks: u64,
    pub accepted: u64,
    /// The most frames of an accepted walk, and how often there were so many.
    pub longest: u64,
    pub most: u64,
    /// The machines, with a leaf on them, without, and the most frames on one.
    pub leaves: u64,
    pub machines: u64,
    pub deepest: u64,
    /// 30 to 32.
    pub refused: [u64; 3],
    /// 30 with the base.
    pub past_the_end: u64,
}

impl fmt::Display for Counts {
    fn fmt(&self, to: &mut fmt::Formatter<'_>) -> fmt::Result {
        let [bad, long, short] = self.refused;
        write!(
            to,
            "{} walks: accepted {} (up to {} frames, {} times {MOST_FRAMES}), 30: {bad} ({} of the \
             base), 31: {long}, 32: {short}; {} machines of up to {} frames and {} with a leaf",
            self.walks,
            self.accepted,
            self.longest,
            self.most,
            self.past_the_end,
            self.machines,
            self.deepest,
            self.leaves
        )
    }
}

/// What the second program answers, in the words of the C surface; it writes the list.
pub fn expected(dump: &mut Dump) -> Walked {
    let Dump {
        convention,
        memory,
        base,
        pointer,
        list,
    } = dump;
    match walk(*convention, memory, *base, *pointer, list) {
        Ok(count) => Walked {
            answer: ACCEPTED,
            count: count as u64,
        },
        Err(refusal) => Walked {
            answer: refused(&refusal),
            count: 0,
        },
    }
}

/// Numbers on either side of the list that no walk may touch.
const GUARD: usize = 4;

/// Walks in both, and gives what both answer.
pub fn compare(dump: &Dump, counts: &mut Counts) -> Result<Walked, Difference> {
    let mut second = dump.clone();
    let answer = expected(&mut second);
    let guard = [0xabad_cafe; GUARD];
    let mut list = [&guard, &dump.list[..], &guard].concat();
    let lent = &mut list[GUARD..GUARD + dump.list.len()];
    let walk = match dump.convention {
        Convention::Ppc64 | Convention::Ppc64b => surface::walk_dump_ppc64,
        Convention::Z => surface::walk_dump_z,
        Convention::Aix => surface::walk_dump_aix,
    };
    let given = walk(&dump.memory, dump.base, dump.pointer, lent);
    if given != answer || list != [&guard, &second.list[..], &guard].concat() {
        return Err(Difference(format!(
            "the library answers {given:?}, the second program {answer:?}, or their lists differ: \
             {:?} from {:#x} in {} bytes from {:#x} on, {} numbers",
            dump.convention,
            dump.pointer,
            dump.memory.len(),
            dump.base,
            dump.list.len()
        )));
    }
    counts.walks += 1;
    match given.answer.number {
        0 => {
            counts.accepted += 1;
            counts.longest = counts.longest.max(given.count);
            counts.most += u64::from(given.count == MOST_FRAMES as u64);
        }
        number => {
            counts.refused[number as usize - 30] += 1;
            let end = dump.base.checked_add(dump.memory.len() as u64);
            counts.past_the_end += u64::from(end.is_none());
        }
    }
    Ok(given)
}

/// Puts a back chain at an address of the dump.
fn put_chain(dump: &mut Dump, address: u64, chain: u64) {
    let at = (address - dump.base) as usize;
    let width = dump.convention.word();
    let bytes = chain.to_be_bytes();
    dump.memory[at..at + width].copy_from_slice(&bytes[8 - width..]);
}

/// A dump of so many frames, each some steps of the alignment above the one before: with a whole chain,
/// and the header of the last at the dump's very end or some bytes before it.
pub fn chain(random: &mut Random, convention: Convention, frames: usize) -> (Dump, Vec<u64>) {
    let step = alignment(convention);
    let header = header(convention) as u64;
    let most = match frames {
        0..=64 => 40,
        _ => 1,
    };
    let mut offsets = vec![step * random.below(4) as u64];
    while offsets.len() < frames {
        let last = offsets[offsets.len() - 1];
        offsets.push(last + step * (1 + random.below(most) as u64));
    }
    let last = offsets[offsets.len() - 1];
    let length = last + header + random.pick(&[0, 0, 1, 7, 200]);
    // on AIX a chain has 32 bits
    let highest = calls::last_address(convention) - length;
    let base = match random.below(6) {
        0 => 0,
        1 => step,
        2 => highest / step * step,
        _ => random.number() % highest / step * step,
    };
    let mut dump = Dump {
        convention,
        memory: random_bytes(random, length as usize),
        base,
        pointer: base + offsets[0],
        list: Vec::new(),
    };
    let addresses: Vec<u64> = offsets.iter().map(|offset| base + offset).collect();
    for (at, &address) in addresses.iter().enumerate() {
        let next = addresses.get(at + 1).copied().unwrap_or(0);
        put_chain(&mut dump, address, next);
    }
    let list = match random.below(4) {
        0 => frames - 1,
        1 => frames + 1 + random.below(4),
        _ => frames,
    };
    dump.list = (0..list).map(|_| random.number()).collect();
    (dump, addresses)
}

/// Makes a fault in a whole chain.
pub fn spoil(random: &mut Random, dump: &mut Dump, addresses: &[u64], fault: Fault) {
    let at = random.below(addresses.len());
    let address = addresses[at];
    let step = alignment(dump.convention);
    match fault {
        Fault::None => {}
        Fault::ToItself => put_chain(dump, address, address),
        Fault::Loop => put_chain(dump, address, addresses[random.below(at + 1)]),
        Fault::Misaligned => {
            let off = address + 1 + random.number() % (step - 1);
            match random.once_in(4) {
                true => dump.pointer = off,
                false => put_chain(dump, addresses[at.saturating_sub(1)], off),
            }
        }
        Fault::LastByteCut => {
            let last = addresses[addresses.len() - 1] - dump.base;
            let behind = last as usize + header(dump.convention);
            dump.memory.truncate(behind - 1);
        }
        Fault::AnyAddress => {
            let any = match random.below(4) {
                0 => random.number(),
                1 => dump.base.wrapping_sub(step),
                2 => dump.base.wrapping_add(dump.memory.len() as u64) / step * step,
                _ => dump.base.wrapping_add(random.number() % 4096) / step * step,
            };
            match random.once_in(2) {
                true => dump.pointer = any,
                false => put_chain(dump, address, any),
            }
        }
        Fault::PastTheEnd => {
            let length = dump.memory.len() as u64;
            dump.base = u64::MAX - length + 1 + random.number() % 2 * (random.number() % length);
        }
    }
}

/// A dump by chance: mostly a chain of a few frames, whole or with a fault; at times the longest, or
/// nothing but random bytes.
pub fn dump(random: &mut Random, convention: Convention) -> Dump {
    if random.once_in(16) {
        let length = random.below(400);
        let any = random.number();
        let base = random.pick(&[0, 16, any, u64::MAX - length as u64]);
        let list = random.below(3);
        return Dump {
            convention,
            memory: random_bytes(random, length),
            base,
            pointer: base.wrapping_add(random.number() % 64 * 8),
            list: vec![random.number(); list],
        };
    }
    let frames = match random.below(400) {
        0 => MOST_FRAMES - 1 + random.below(3),
        _ => 1 + random.below(12),
    };
    let (mut dump, addresses) = chain(random, convention, frames);
    let fault = match random.once_in(2) {
        true => Fault::None,
        false => random.pick(&FAULTS),
    };
    // of two faults the first in the walk is told
    for _ in 0..1 + random.below(2) {
        spoil(random, &mut dump, &addresses, fault);
        if fault == Fault::LastByteCut || fault == Fault::PastTheEnd {
            break;
        }
    }
    dump
}

/// The frames that a machine has by its records: the pointer, and each caller's above it.
fn frames_of(machine: &Machine, convention: Convention) -> Vec<u64> {
    let mut frames = vec![stack_pointer(machine)];
    for record in machine.frames[..machine.depth as usize].iter().rev() {
        let last = frames[frames.len() - 1];
        let size = reference::machine::frame_size(convention, record);
        // a leaf has no frame
        if size > 0 {
            frames.push(last + size);
        }
    }
    frames
}

/// A machine after a list of calls by chance, and its memory.
fn machine(random: &mut Random, convention: Convention) -> (Machine, Vec<u8>) {
    let length = calls::memory_length(random, convention);
    let mut state = random_state(random);
    let mut memory = random_bytes(random, length);
    let style = random.pick(&STYLES);
    call_second(
        &mut state,
        &calls::start(random, convention, length),
        &mut memory,
    );
    for _ in 0..random.below(80) {
        let call = calls::call(random, &state, style);
        if !matches!(call, Call::Start { .. }) {
            call_second(&mut state, &call, &mut memory);
        }
    }
    (state, memory)
}

/// The dump of a machine, into a list of just as many numbers as it has frames with the start.
pub fn of_machine(random: &mut Random, convention: Convention) -> (Dump, Machine) {
    let (state, memory) = machine(random, convention);
    let dump = Dump {
        convention,
        memory,
        base: state.base,
        pointer: stack_pointer(&state),
        list: vec![random.number(); state.depth as usize + 1],
    };
    (dump, state)
}

/// Walks the memory of a machine, which shows its frames and the start.
fn compare_machine(
    random: &mut Random,
    convention: Convention,
    counts: &mut Counts,
) -> Result<(), Difference> {
    let (dump, state) = of_machine(random, convention);
    let walked = compare(&dump, counts)?;
    let mut after = dump.clone();
    expected(&mut after);
    let frames = frames_of(&state, convention);
    if walked.count != frames.len() as u64 || after.list[..frames.len()] != frames {
        return Err(Difference(format!(
            "the walk of a machine answers {walked:?} and lists {:x?}, its frames are {frames:x?}",
            after.list
        )));
    }
    counts.deepest = counts.deepest.max(state.depth);
    match calls::in_leaf(&state) {
        true => counts.leaves += 1,
        false => counts.machines += 1,
    }
    Ok(())
}

/// Compares so many dumps and a tenth as many machines of each convention.
pub fn run(seed: u64, dumps: u64) -> Result<Counts, Difference> {
    let mut random = Random::new(seed);
    let mut counts = Counts::default();
    for convention in Convention::ALL {
        for number in 0..dumps {
            let dump = dump(&mut random, convention);
            compare(&dump, &mut counts)?;
            if number % 10 == 0 {
                compare_machine(&mut random, convention, &mut counts)?;
            }
        }
    }
    Ok(counts)
}
