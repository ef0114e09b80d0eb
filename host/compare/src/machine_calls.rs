//! Calls of the frame machine at random, aimed at the edges: frames down to the last free byte, 32
//! of them, leaves above them, writes at the borders of the areas, requests and registers at the
//! ends of their ranges.

use crate::machines::{random_bytes, random_registers, stack_pointer, Call};
use crate::random::Random;
use reference::machine::{floor, frame_size, pointer_register, save_slots, Machine, Request};
use reference::Convention;

/// What the calls of a list are mostly.
#[derive(Clone, Copy, Debug)]
pub enum Style {
    /// Small frames, as deep as it goes.
    Climb,
    /// All calls.
    Mixed,
    /// Writes, of few frames.
    Writes,
}

pub const STYLES: [Style; 3] = [Style::Climb, Style::Mixed, Style::Writes];

/// The smallest memory that a start takes: 256 bytes; on PPC64 112 and the floor's 288; on AIX 64 and
/// the floor's 220, rounded up.
pub fn least_memory(convention: Convention) -> usize {
    match convention {
        Convention::Ppc64 | Convention::Ppc64b => 400,
        Convention::Z => 256,
        Convention::Aix => 288,
    }
}

/// The largest address that a memory may end at.
pub fn last_address(convention: Convention) -> u64 {
    match convention {
        Convention::Ppc64 | Convention::Z | Convention::Ppc64b => u64::MAX,
        Convention::Aix => u64::from(u32::MAX),
    }
}

/// A memory's length that a start takes: mostly a few frames', at times the smallest and the
/// largest.
pub fn memory_length(random: &mut Random, convention: Convention) -> usize {
    let least = least_memory(convention) / 16;
    let steps = match random.below(24) {
        0 | 1 => least,
        2..=5 => least + random.below(64),
        6 => 4096,
        7 => least + random.below(4097 - least),
        8..=15 => 256 + random.below(256),
        _ => 64 + random.below(192),
    };
    16 * steps
}

/// A base that a start takes with a memory of this length.
pub fn base(random: &mut Random, convention: Convention, length: usize) -> u64 {
    let highest = last_address(convention) - 15 - length as u64;
    match random.below(8) {
        0 => 0,
        1 => 16,
        2 => highest,
        3 => highest - 16,
        _ => (random.number() % highest) / 16 * 16,
    }
}

/// A start of this convention that is accepted.
pub fn start(random: &mut Random, convention: Convention, length: usize) -> Call {
    Call::Start {
        convention,
        registers: Box::new(random_registers(random)),
        base: base(random, convention, length),
    }
}

/// A start, and the bytes that it is lent of a memory of this length, that is refused: the length
/// or the base is wrong, by as little as can be where that is so.
pub fn refused_start(random: &mut Random, convention: Convention, length: usize) -> (Call, usize) {
    let mut lent = length;
    let mut base = base(random, convention, length);
    let least = least_memory(convention);
    match random.below(8) {
        0 => {
            lent = random
                .pick(&[0, 16, 239, 240, 248, 255, least - 1])
                .min(length - 1)
        }
        // one step too short: on PPC64 and AIX this lacks the floor alone
        6 => lent = least - 16,
        1 => lent += 1 + random.below(15),
        2 => base += 1 + random.number() % 15,
        // base and length are 2^64, on AIX 2^32, or more
        3 => base = last_address(convention) - 15 - length as u64 + 16,
        4 => base = last_address(convention) - 15,
        5 => base = u64::MAX - 15,
        _ => {
            lent -= 1 + random.below(15);
            base ^= 8;
        }
    }
    let call = Call::Start {
        convention,
        registers: Box::new(random_registers(random)),
        base,
    };
    (call, lent)
}

/// The ranges of a convention: the lowest and the highest first saved general register, the same
/// for the floating ones, and the most that `saves_cr` may be.
fn ranges(convention: Convention) -> ([u64; 2], [u64; 2], u64) {
    match convention {
        Convention::Ppc64 | Convention::Ppc64b => ([14, 32], [14, 32], 1),
        Convention::Z => ([6, 14], [8, 16], 0),
        Convention::Aix => ([13, 32], [14, 32], 1),
    }
}

/// A number of the range, its ends more often than the others.
fn within(random: &mut Random, [lowest, highest]: [u64; 2]) -> u64 {
    match random.below(6) {
        0 => lowest,
        1 | 2 => highest,
        _ => lowest + random.number() % (highest - lowest + 1),
    }
}

/// A request that 17 has nothing against.
pub fn request(random: &mut Random, convention: Convention) -> Request {
    let (gprs, fprs, most_cr) = ranges(convention);
    Request {
        first_gpr: within(random, gprs),
        first_fpr: within(random, fprs),
        saves_cr: random.number() % (most_cr + 1),
        locals: match random.below(16) {
            0 => 32_000,
            1 => random.number() % 32_001,
            2..=8 => 0,
            _ => random.number() % 300,
        },
        outgoing: match random.below(16) {
            0 => 32_776,
            1 => random.number() % 4_098 * 8,
            2..=8 => 0,
            _ => random.number() % 20 * 8,
        },
        leaf: 0,
    }
}

/// The same request for a leaf.
pub fn leaf(request: Request) -> Request {
    Request {
        locals: 0,
        outgoing: 0,
        leaf: 1,
        ..request
    }
}

/// The request that saves and keeps the least.
fn smallest_request(convention: Convention) -> Request {
    let (gprs, fprs, _) = ranges(convention);
    Request {
        first_gpr: gprs[1],
        first_fpr: fprs[1],
        ..Request::default()
    }
}

/// A small request, of which many fit.
pub fn small_request(random: &mut Random, convention: Convention) -> Request {
    let mut request = smallest_request(convention);
    match random.below(4) {
        0 => request.locals = random.number() % 17,
        1 => request.outgoing = random.number() % 10 * 8,
        2 => request.first_gpr -= random.number() % 3,
        _ => {}
    }
    request
}

/// A request for just the room that is left, or a byte more or less.
fn fitting_request(random: &mut Random, convention: Convention, room: u64) -> Request {
    let mut fitting = match random.once_in(2) {
        true => small_request(random, convention),
        false => request(random, convention),
    };
    fitting.locals = 0;
    let needed = frame_size(convention, &fitting);
    if room >= needed && room - needed <= 31_990 {
        // what rounding adds is not known here, so a few bytes around the room are tried
        fitting.locals = (room - needed + random.number() % 18).saturating_sub(1);
        if random.once_in(2) {
            // the most that makes no larger frame
            while frame_size(convention, &fitting) > room {
                fitting.locals -= 1;
            }
            while fitting.locals < 32_000 && frame_size(convention, &next(fitting)) <= room {
                fitting = next(fitting);
            }
            if random.once_in(2) {
                fitting = next(fitting);
            }
        }
    }
    fitting
}

/// The same with a byte more of locals.
pub fn next(request: Request) -> Request {
    Request {
        locals: request.locals + 1,
        ..request
    }
}

/// The request with one number out of its range.
pub fn broken_request(random: &mut Random, convention: Convention, request: Request) -> Request {
    let (gprs, fprs, most_cr) = ranges(convention);
    let mut broken = request;
    let outside = |random: &mut Random, [lowest, highest]: [u64; 2]| match random.below(5) {
        0 => lowest - 1,
        1 => highest + 1,
        2 => random.number() % lowest,
        3 => u64::MAX - random.number() % 40,
        _ => random.number() | 64,
    };
    match random.below(8) {
        0 => broken.first_gpr = outside(random, gprs),
        1 => broken.first_fpr = outside(random, fprs),
        2 => broken.saves_cr = random.pick(&[most_cr + 1, 2, 256, u64::MAX]),
        3 => broken.locals = random.pick(&[32_001, 32_016, 1 << 32, u64::MAX - 400, u64::MAX]),
        4 => broken.outgoing = random.pick(&[32_784, 1 << 32, u64::MAX - 7, u64::MAX - 399]),
        5 => broken.outgoing = (broken.outgoing / 8 * 8) | (1 + random.number() % 7),
        6 => broken.leaf = random.pick(&[2, 3, 256, 1 << 32, u64::MAX]),
        // a leaf on Z, or one with locals or an outgoing area
        _ => {
            broken = leaf(broken);
            if convention != Convention::Z {
                match random.below(3) {
                    0 => broken.locals = random.pick(&[1, 8, 32_000]),
                    1 => broken.outgoing = random.pick(&[8, 64, 32_776]),
                    _ => (broken.locals, broken.outgoing) = (1, 8),
                }
            }
        }
    }
    broken
}

/// Whether the frame that was entered last, of a depth that can be, is a leaf.
pub fn in_leaf(machine: &Machine) -> bool {
    match machine.depth {
        depth @ 1..=32 => machine.frames[depth as usize - 1].is_leaf(),
        _ => false,
    }
}

/// The bytes that frames may still take, in a state that can be.
pub fn room(machine: &Machine, convention: Convention) -> u64 {
    stack_pointer(machine) - machine.base - floor(convention)
}

/// A call for this state, whether or not it can be.
pub fn call(random: &mut Random, machine: &Machine, style: Style) -> Call {
    // enters, register writes, memory writes, leaves
    let mut weights = match style {
        Style::Climb => [24, 2, 4, 2],
        Style::Mixed => [8, 6, 12, 4],
        Style::Writes => [2, 16, 32, 2],
    };
    if let Some(convention) = machine.possible() {
        if in_leaf(machine) {
            weights[0] = 1 + weights[0] / 4;
        } else if room(machine, convention) < frame_size(convention, &smallest_request(convention))
        {
            // now and then it is told that the stack is full
            weights[0] = 1;
            weights[3] *= 2;
        } else if machine.depth == 0 {
            weights[0] *= 4;
            weights[3] = 1;
        }
    }
    let mut left = random.below(weights.iter().sum());
    for (kind, weight) in weights.into_iter().enumerate() {
        if left < weight {
            return match kind {
                0 => enter(random, machine, style),
                1 => write_register(random, machine),
                2 => write_memory(random, machine),
                _ => Call::Leave,
            };
        }
        left -= weight;
    }
    unreachable!("the number is below the sum of the weights")
}

fn enter(random: &mut Random, machine: &Machine, style: Style) -> Call {
    let Some(convention) = machine.possible() else {
        let convention = random.pick(&Convention::ALL);
        return Call::Enter(request(random, convention));
    };
    let room = room(machine, convention);
    let small = match style {
        Style::Climb => true,
        Style::Mixed => random.once_in(2),
        Style::Writes => random.once_in(4),
    };
    let mut asked = match random.below(8) {
        0 => fitting_request(random, convention, room),
        _ if small => small_request(random, convention),
        _ => request(random, convention),
    };
    if convention != Convention::Z && random.once_in(6) {
        asked = leaf(asked);
    }
    match random.below(16) {
        0 => Call::Enter(broken_request(random, convention, asked)),
        _ => Call::Enter(asked),
    }
}

fn write_register(random: &mut Random, machine: &Machine) -> Call {
    let bank = match random.below(16) {
        0..=5 => 0,
        6..=9 => 1,
        10 | 11 => 2,
        12..=14 => 3,
        _ => random.pick(&[4, 5, 256, u64::MAX]),
    };
    let top = match machine.depth {
        1..=32 => machine.frames[machine.depth as usize - 1],
        _ => Request::default(),
    };
    let first_saved = if bank == 0 {
        top.first_gpr
    } else {
        top.first_fpr
    };
    let number = match (bank, random.below(8)) {
        (_, 0) => random.number(),
        (3, _) => random.number() % 9,
        (2, 1..=6) => 0,
        (_, 1..=3) => first_saved
            .wrapping_add(random.number() % 3)
            .wrapping_sub(1),
        _ => random.number() % 34,
    };
    let is_aix = machine.convention == u64::from(Convention::Aix.code());
    let value = match (bank, random.below(8)) {
        (3, 1..=6) => random.number() % 16,
        (3, 7) => 16,
        // of 32 bits, at their edge, and of more
        (0 | 2, 1..=5) if is_aix => random.number() >> 32,
        (0 | 2, 6) if is_aix => u64::from(u32::MAX),
        (0 | 2, 7) if is_aix => 1 << 32,
        _ => random.number(),
    };
    Call::WriteRegister {
        bank,
        number,
        value,
    }
}

fn write_memory(random: &mut Random, machine: &Machine) -> Call {
    let Some(convention) = machine.possible() else {
        let length = random.below(260);
        return Call::WriteMemory {
            address: machine.base.wrapping_add(random.number() % 70_000),
            bytes: random_bytes(random, length),
        };
    };
    let mut areas = machine.areas(convention);
    if !random.once_in(8) && areas.iter().any(|area| area.start < area.end) {
        areas.retain(|area| area.start < area.end);
    }
    let area = areas[random.below(areas.len())];
    let room = (area.end - area.start) as usize;
    let length = match random.below(12) {
        0 => 0,
        1 => 256,
        2 => 257,
        3 => room.min(300),
        4 => (room + 1).min(300),
        5 | 6 => 1,
        7 => 8,
        _ => 1 + random.below(room.clamp(1, 256)),
    };
    // from just before the area, up to just after it
    let near = match random.below(12) {
        0 => area.start.wrapping_sub(1),
        1..=3 => area.start,
        4 => area.start + 1,
        5..=7 => area.end.saturating_sub(length as u128),
        8 => (area.end + 1).saturating_sub(length as u128),
        9 => area.end,
        _ => area.start + random.number() as u128 % (area.end - area.start + 1),
    };
    let address = match random.below(24) {
        0 => protected(random, machine, convention),
        1 => machine
            .base
            .wrapping_add(random.number() % (machine.size + 8)),
        2 => random.pick(&[0, machine.base.wrapping_sub(1), u64::MAX, u64::MAX - 7]),
        _ => near as u64,
    };
    Call::WriteMemory {
        address,
        bytes: random_bytes(random, length),
    }
}

/// The address of a back chain, of a header's doubleword or word, or of a save slot.
pub fn protected(random: &mut Random, machine: &Machine, convention: Convention) -> u64 {
    let pointer = machine.registers.gpr[pointer_register(convention)];
    let word = convention.word() as u64;
    if machine.depth == 0 {
        return pointer + word * (random.number() % 6);
    }
    let top = machine.frames[machine.depth as usize - 1];
    let caller = pointer + frame_size(convention, &top);
    match random.below(4) {
        0 => pointer,
        1 => caller + word * (random.number() % 6),
        _ => {
            let slots = save_slots(convention, &top, u128::from(caller));
            match slots.len() {
                // a leaf that saves nothing
                0 => pointer,
                count => slots[random.below(count)].1 as u64,
            }
        }
    }
}
