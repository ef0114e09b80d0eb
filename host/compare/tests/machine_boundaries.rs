//! The frame machine at each edge of its rules, one step on either side. Each case states the answer
//! that the documents give, and both programs are held to it; after every call both states and
//! memories are compared too.

use compare::machine_calls;
use compare::machines::{random_registers, stack_pointer, Call, Pair};
use compare::random::Random;
use reference::machine::{Machine, Registers, Request};
use reference::Convention::{self, Aix, Ppc64, Ppc64b, Z};

const BASE: u64 = 0x4000;
/// Those with a floor and leaves.
const POWERPC: [Convention; 2] = [Ppc64, Aix];

/// Both give this answer to the call.
fn answers(pair: &mut Pair, call: &Call, number: u64) {
    let lent = pair.memory().len();
    answers_lending(pair, call, lent, number);
}

fn answers_lending(pair: &mut Pair, call: &Call, lent: usize, number: u64) {
    match pair.call_lending(call, lent) {
        Ok(given) => assert_eq!(given, number, "{call:x?} with {lent} bytes of memory"),
        Err(difference) => panic!("{difference}"),
    }
}

fn start(convention: Convention, base: u64) -> Call {
    Call::Start {
        convention,
        registers: Box::new(random_registers(&mut Random::new(7))),
        base,
    }
}

fn started(convention: Convention, length: usize) -> Pair {
    let mut pair = Pair::new(&mut Random::new(9), length);
    answers(&mut pair, &start(convention, BASE), 0);
    pair
}

fn request(g: u64, m: u64, saves_cr: u64, locals: u64, outgoing: u64) -> Request {
    Request {
        first_gpr: g,
        first_fpr: m,
        saves_cr,
        locals,
        outgoing,
        leaf: 0,
    }
}

fn leaf(g: u64, m: u64, saves_cr: u64) -> Request {
    machine_calls::leaf(request(g, m, saves_cr, 0, 0))
}

/// The request that saves and keeps the least.
fn smallest(convention: Convention) -> Request {
    match convention {
        Ppc64 | Aix | Ppc64b => request(32, 32, 0, 0, 0),
        Z => request(14, 16, 0, 0, 0),
    }
}

/// The request that saves the most.
fn all_saved(convention: Convention) -> Request {
    match convention {
        Ppc64 | Ppc64b => request(14, 14, 1, 0, 0),
        Z => request(6, 8, 0, 0, 0),
        Aix => request(13, 14, 1, 0, 0),
    }
}

/// How far below the memory's end a start's stack pointer is.
fn below_end(convention: Convention) -> usize {
    match convention {
        Ppc64 | Ppc64b => 112,
        Z => 160,
        Aix => 64,
    }
}

/// The stack pointer's register.
fn pointer_of(convention: Convention) -> usize {
    match convention {
        Ppc64 | Aix | Ppc64b => 1,
        Z => 15,
    }
}

/// The largest number that a general register holds and that a memory may end at.
fn largest(convention: Convention) -> u64 {
    match convention {
        Ppc64 | Z | Ppc64b => u64::MAX,
        Aix => 0xffff_ffff,
    }
}

/// The least distance of a stack pointer from the base: the floor, on AIX 220 rounded up to a
/// multiple of 16.
fn lowest(convention: Convention) -> u64 {
    match convention {
        Ppc64 | Ppc64b => 288,
        Z => 0,
        Aix => 224,
    }
}

/// The smallest memory: on PPC64 the start's 112 bytes and the floor's 288, on AIX 64 and 220,
/// rounded up.
fn least_memory(convention: Convention) -> usize {
    match convention {
        Ppc64 | Ppc64b => 400,
        Z => 256,
        Aix => 288,
    }
}

#[test]
fn starts_of_every_length_and_base() {
    let mut pair = Pair::new(&mut Random::new(3), 65_600);
    for convention in Convention::ALL {
        let least = least_memory(convention);
        for length in (0..=520).chain(65_500..=65_600) {
            let allowed = length % 16 == 0 && (least..=65_536).contains(&length);
            let number = if allowed { 0 } else { 16 };
            answers_lending(&mut pair, &start(convention, BASE), length, number);
        }
        for low in 0..=64 {
            let number = if low % 16 == 0 { 0 } else { 16 };
            answers_lending(&mut pair, &start(convention, low), least, number);
            let highest = largest(convention) - least as u64;
            let high = highest - 44 + low;
            // 2^64 - 1 less the length is no multiple of 16: the highest base is 15 lower; and so
            // with AIX's 2^32 - 1
            let allowed = high % 16 == 0 && high <= highest;
            let number = if allowed { 0 } else { 16 };
            answers_lending(&mut pair, &start(convention, high), least, number);
        }
        for bit in 32..64 {
            // every base of more than 32 bits
            let number = if convention == Aix { 16 } else { 0 };
            answers_lending(&mut pair, &start(convention, 1 << bit), least, number);
        }
    }
}

/// 02, No. 1: "Start clears the high halves of GPRs and LR", and not of FPRs; a refused one hands
/// all back as they came.
#[test]
fn a_start_on_aix_takes_low_halves() {
    let mut registers = Registers {
        gpr: [0; 32],
        fpr: [u64::MAX; 32],
        lr: 0x1_8000_0001,
        cr: 0x1_8000_0002,
    };
    for n in 0..32 {
        registers.gpr[n] = (n as u64 + 1) << 32 | 0x8000_0000 | n as u64;
    }
    let call = |base| Call::Start {
        convention: Aix,
        registers: Box::new(registers),
        base,
    };
    let mut pair = Pair::new(&mut Random::new(3), 288);
    answers(&mut pair, &call(BASE + 8), 16);
    assert_eq!(pair.state().registers, registers);
    answers(&mut pair, &call(BASE), 0);
    let mut expected = registers;
    for n in 0..32 {
        expected.gpr[n] = 0x8000_0000 | n as u64;
    }
    expected.gpr[1] = BASE + 288 - 64;
    expected.lr = 0x8000_0001;
    expected.cr = 0x8000_0002;
    assert_eq!(pair.state().registers, expected);
    assert_eq!(pair.memory()[288 - 64..][..4], [0; 4]);
}

#[test]
fn the_frame_sizes_of_the_document() {
    let sizes = [
        (Ppc64, request(29, 30, 0, 20, 64), 176),
        (Ppc64, request(14, 14, 0, 0, 0), 400),
        (Z, request(6, 8, 0, 1, 8), 240),
        // 24 + 64 + 20 + 12 + 16 is 136
        (Aix, request(29, 30, 0, 20, 64), 144),
        // 003's own: 24, 32, 19 words and 18 doublewords are 276
        (Aix, request(13, 14, 0, 0, 0), 288),
    ];
    for (convention, request, size) in sizes {
        let mut pair = started(convention, 4096);
        let before = stack_pointer(pair.state());
        answers(&mut pair, &Call::Enter(request), 0);
        assert_eq!(stack_pointer(pair.state()), before - size);
        answers(&mut pair, &Call::Leave, 0);
        assert_eq!(stack_pointer(pair.state()), before);
    }
}

/// The size that document 01 gives, and 02, No. 9, for a leaf, or nothing where 17 refuses the
/// request.
fn stated_size(convention: Convention, of: &Request) -> Option<u64> {
    let (g, m, cr) = (of.first_gpr, of.first_fpr, of.saves_cr);
    if of.leaf > 0 {
        let frame = Request { leaf: 0, ..*of };
        let allowed = convention != Z && (of.leaf, of.locals, of.outgoing) == (1, 0, 0);
        return stated_size(convention, &frame)
            .filter(|_| allowed)
            .map(|_| 0);
    }
    if of.locals > 32_000 || of.outgoing > 32_776 || of.outgoing % 8 != 0 {
        return None;
    }
    match convention {
        Ppc64 | Ppc64b if (14..=32).contains(&g) && (14..=32).contains(&m) && cr <= 1 => {
            let size = 48 + of.outgoing.max(64) + of.locals + 8 * (32 - g) + 8 * (32 - m);
            Some(size.div_ceil(16) * 16)
        }
        Aix if (13..=32).contains(&g) && (14..=32).contains(&m) && cr <= 1 => {
            let size = 24 + of.outgoing.max(32) + of.locals + 4 * (32 - g) + 8 * (32 - m);
            Some(size.div_ceil(16) * 16)
        }
        Z if (6..=14).contains(&g) && (8..=16).contains(&m) && cr == 0 => {
            let size = 160 + of.outgoing + of.locals + 8 * (16 - m);
            Some(size.div_ceil(8) * 8)
        }
        _ => None,
    }
}

#[test]
fn every_first_register_of_a_request() {
    let mut accepted = 0;
    for convention in Convention::ALL {
        let mut pair = started(convention, 2048);
        let before = stack_pointer(pair.state());
        for g in 0..=34 {
            for m in 0..=34 {
                for cr in 0..=2 {
                    let sizes = [(0, 0, 0), (9, 72, 0), (13, 4, 0), (0, 0, 1), (0, 0, 2)];
                    for (locals, outgoing, leaf) in sizes {
                        let request = Request {
                            leaf,
                            ..request(g, m, cr, locals, outgoing)
                        };
                        let size = stated_size(convention, &request);
                        let number = if size.is_some() { 0 } else { 17 };
                        answers(&mut pair, &Call::Enter(request), number);
                        if let Some(size) = size {
                            accepted += 1;
                            assert_eq!(stack_pointer(pair.state()), before - size);
                            answers(&mut pair, &Call::Leave, 0);
                        }
                    }
                }
            }
        }
    }
    assert_eq!(accepted, 2 * 19 * 19 * 2 * 3 + 9 * 9 * 2 + 20 * 19 * 2 * 3);
}

#[test]
fn every_edge_of_locals_and_outgoing_area() {
    let locals = [
        0,
        1,
        7,
        8,
        15,
        16,
        31_999,
        32_000,
        32_001,
        1 << 63,
        u64::MAX,
    ];
    let mut outgoing: Vec<u64> = (0..=80).collect();
    outgoing.extend((16_384..=16_400).chain(32_764..=32_792));
    outgoing.extend([1 << 32, 1 << 63, u64::MAX - 7, u64::MAX]);
    for convention in Convention::ALL {
        let mut pair = started(convention, 65_536);
        let before = stack_pointer(pair.state());
        for &locals in &locals {
            for &outgoing in &outgoing {
                for leaf in [0, 1] {
                    let request = Request {
                        locals,
                        outgoing,
                        leaf,
                        ..all_saved(convention)
                    };
                    let size = stated_size(convention, &request);
                    let number = if size.is_some() { 0 } else { 17 };
                    answers(&mut pair, &Call::Enter(request), number);
                    if let Some(size) = size {
                        assert_eq!(stack_pointer(pair.state()), before - size);
                        answers(&mut pair, &Call::Leave, 0);
                    }
                }
            }
        }
    }
}

#[test]
fn thirty_two_frames_and_a_thirty_third() {
    for convention in Convention::ALL {
        // the most registers saved, each with a value of its own in each frame
        let mut pair = started(convention, 16_384);
        let mut random = Random::new(5);
        let mut found: Vec<Registers> = Vec::new();
        for depth in 0..32 {
            found.push(pair.state().registers);
            answers(&mut pair, &Call::Enter(all_saved(convention)), 0);
            assert_eq!(pair.state().depth, depth + 1);
            for (bank, numbers) in writable(convention, &all_saved(convention)) {
                for number in numbers {
                    let value = match bank {
                        3 => random.number() % 16,
                        1 => random.number(),
                        _ => random.number() & largest(convention),
                    };
                    let call = Call::WriteRegister {
                        bank,
                        number,
                        value,
                    };
                    answers(&mut pair, &call, 0);
                }
            }
        }
        answers(&mut pair, &Call::Enter(all_saved(convention)), 18);
        // 17 comes before 18, and 18 before 19
        answers(&mut pair, &Call::Enter(request(0, 0, 0, 0, 0)), 17);
        let large = Request {
            locals: 32_000,
            ..all_saved(convention)
        };
        answers(&mut pair, &Call::Enter(large), 18);
        for depth in (0..32).rev() {
            answers(&mut pair, &Call::Leave, 0);
            let (old, new) = (&found[depth], pair.state().registers);
            match convention {
                Ppc64 | Aix | Ppc64b => {
                    assert_eq!((old.gpr[1], &old.gpr[13..]), (new.gpr[1], &new.gpr[13..]));
                    assert_eq!((&old.fpr[14..], old.lr), (&new.fpr[14..], new.lr));
                    assert_eq!(old.cr & 0x00ff_f000, new.cr & 0x00ff_f000);
                }
                Z => {
                    assert_eq!(old.gpr[6..], new.gpr[6..]);
                    assert_eq!(old.fpr[8..], new.fpr[8..]);
                }
            }
        }
        answers(&mut pair, &Call::Leave, 22);
        assert_eq!(pair.state().frames, [Request::default(); 32]);
    }
}

#[test]
fn frames_down_to_the_last_free_byte() {
    for convention in Convention::ALL {
        for base in [0, BASE, largest(convention) - 15 - 1024] {
            for all in [false, true] {
                let frame = match all {
                    true => all_saved(convention),
                    false => smallest(convention),
                };
                let mut pair = Pair::new(&mut Random::new(4), 1024);
                answers(&mut pair, &start(convention, base), 0);
                // under the start, and above the floor
                let floor = lowest(convention);
                let room = 1024 - below_end(convention) as u64 - floor;
                let mut full = frame;
                while stated_size(convention, &machine_calls::next(full)) <= Some(room) {
                    full = machine_calls::next(full);
                }
                answers(&mut pair, &Call::Enter(machine_calls::next(full)), 19);
                answers(&mut pair, &Call::Enter(full), 0);
                assert_eq!(stack_pointer(pair.state()), base + floor);
                answers(&mut pair, &Call::Enter(smallest(convention)), 19);
                answers(&mut pair, &Call::Leave, 0);
            }
        }
    }
}

/// 02, No. 8: a start, an enter and a state with 288 bytes under the stack pointer, and with 272,
/// which is one step less; on AIX with 224 and 208, of which 220 are needed. On Z the same is no
/// matter.
#[test]
fn the_floor_and_one_step_less() {
    for convention in Convention::ALL {
        let floor = match convention {
            Ppc64 | Z | Ppc64b => 288,
            Aix => 224,
        };
        let (below_end, pointer) = (below_end(convention), pointer_of(convention));
        for (under, enough) in [
            (floor, true),
            (floor - 16, convention == Z),
            (0, convention == Z),
        ] {
            // a start
            let length = below_end + under;
            let mut pair = Pair::new(&mut Random::new(3), length);
            let allowed = enough && length >= 256;
            answers(
                &mut pair,
                &start(convention, BASE),
                if allowed { 0 } else { 16 },
            );
            // an enter
            let frame = smallest(convention);
            let size = stated_size(convention, &frame).expect("it is allowed") as usize;
            let mut pair = started(convention, below_end + 512);
            let larger = Request {
                locals: 512 - (size + under) as u64,
                ..frame
            };
            answers(&mut pair, &Call::Enter(larger), if enough { 0 } else { 19 });
            // a state, of which each part is as it must be
            let mut pair = started(convention, below_end + 512);
            let mut fault = None;
            pair.change_state(|state| {
                state.depth = 1;
                state.frames[0] = larger;
                state.registers.gpr[pointer] = BASE + under as u64;
                fault = state.possible();
            });
            assert_eq!(fault.is_some(), enough);
            let call = Call::WriteRegister {
                bank: 0,
                number: 0,
                value: 1,
            };
            answers(&mut pair, &call, if enough { 0 } else { 23 });
        }
    }
}

/// 02, No. 9: a leaf above every number of frames. Nothing is entered above it, and what its caller
/// had is there after it.
#[test]
fn a_leaf_at_every_depth() {
    for convention in POWERPC {
        let mut pair = started(convention, 16_384);
        let word = convention.word() as u64;
        let first = all_saved(convention).first_gpr;
        for depth in 0..=31 {
            for frame in [leaf(32, 32, 0), leaf(first, 14, 1), leaf(29, 30, 1)] {
                let before = (pair.state().clone(), pair.memory().to_vec());
                answers(&mut pair, &Call::Enter(frame), 0);
                assert_eq!(pair.state().depth, depth + 1);
                let saved = (32 - frame.first_gpr) * word + (32 - frame.first_fpr) * 8;
                let s = (stack_pointer(pair.state()) - BASE) as usize;
                assert_eq!(stack_pointer(pair.state()), stack_pointer(&before.0));
                // the saves and CR's slot, and nothing else
                let mut memory = pair.memory().to_vec();
                let from = s - saved as usize;
                memory[from..s].copy_from_slice(&before.1[from..s]);
                if frame.saves_cr == 1 {
                    let cr = s + word as usize;
                    memory[cr..cr + 4].copy_from_slice(&before.1[cr..cr + 4]);
                }
                assert_eq!(memory, before.1);
                // 28 after 17, before 18 and 19
                let broken = request(first - 1, 32, 0, 0, 0);
                answers(&mut pair, &Call::Enter(broken), 17);
                answers(&mut pair, &Call::Enter(smallest(convention)), 28);
                answers(&mut pair, &Call::Enter(request(32, 32, 0, 32_000, 0)), 28);
                answers(&mut pair, &Call::Enter(leaf(32, 32, 0)), 28);
                let lr = Call::WriteRegister {
                    bank: 2,
                    number: 0,
                    value: 5,
                };
                answers(&mut pair, &lr, 20);
                answers(&mut pair, &Call::Leave, 0);
                assert_eq!(*pair.state(), before.0);
            }
            answers(&mut pair, &Call::Enter(all_saved(convention)), 0);
        }
        // the 33rd, leaf or not
        answers(&mut pair, &Call::Enter(leaf(32, 32, 0)), 18);
    }
}

/// A leaf in the smallest memory, and above a frame that leaves no more than the floor: all of the
/// floor's bytes are its own, on PPC64 from the memory's first on.
#[test]
fn a_leaf_at_the_last_byte() {
    for convention in POWERPC {
        let least = least_memory(convention);
        let pointer = lowest(convention);
        let (floor, header, outgoing) = match convention {
            Ppc64 | Ppc64b => (288, 48, 64),
            _ => (220, 24, 32),
        };
        let first = all_saved(convention).first_gpr;
        let smallest = smallest(convention);
        let size = stated_size(convention, &smallest).expect("it is allowed");
        for framed in [false, true] {
            for (g, m) in [
                (32, 32),
                (first, 14),
                (first, 32),
                (32, 14),
                (31, 31),
                (first + 1, 14),
            ] {
                let mut pair = started(convention, least + if framed { size as usize } else { 0 });
                if framed {
                    answers(&mut pair, &Call::Enter(smallest), 0);
                }
                answers(&mut pair, &Call::Enter(smallest), 19);
                answers(&mut pair, &Call::Enter(leaf(g, m, 0)), 0);
                assert_eq!(stack_pointer(pair.state()), BASE + pointer);
                let saves = convention.word() as u64 * (32 - g) + 8 * (32 - m);
                let length_of_memory = pair.memory().len() as u64;
                for offset in 0..length_of_memory {
                    for length in [1, 2, 8, 32, 33, 64, 65, 256] {
                        let call = Call::WriteMemory {
                            address: BASE + offset,
                            bytes: vec![offset as u8; length as usize],
                        };
                        let end = offset + length;
                        // below the saves, or in the caller's outgoing area
                        let free = offset >= pointer - floor && end <= pointer - saves;
                        let area = pointer + header;
                        let callers = offset >= area && end <= area + outgoing;
                        answers(&mut pair, &call, if free || callers { 0 } else { 20 });
                    }
                }
                answers(&mut pair, &Call::Leave, 0);
            }
        }
    }
}

/// A leave of a leaf looks at its saves alone, not at the word at the stack pointer.
#[test]
fn a_leaf_left_with_every_byte_of_the_memory_changed() {
    for convention in POWERPC {
        let mut pair = started(convention, 1024);
        answers(&mut pair, &Call::Enter(request(31, 30, 1, 5, 80)), 0);
        answers(&mut pair, &Call::Enter(leaf(29, 31, 1)), 0);
        let entered = pair.state().clone();
        let memory = pair.memory().to_vec();
        let s = (stack_pointer(&entered) - BASE) as usize;
        answers(&mut pair, &Call::Leave, 0);
        let left = pair.state().clone();
        let word = convention.word();
        for (at, byte) in memory.iter().enumerate() {
            pair.change_state(|state| *state = entered.clone());
            pair.change_memory(at, &[byte ^ 0x10]);
            answers(&mut pair, &Call::Leave, 0);
            // f31 and r29 to r31; of CR's word fields 2 to 4, which this bit is of in its middle
            // bytes
            let saves = s - 8 - 3 * word..s;
            let cr = s + word + 1..s + word + 3;
            let matters = saves.contains(&at) || cr.contains(&at);
            assert_eq!(*pair.state() != left, matters, "byte {at}");
            pair.change_memory(at, &[*byte]);
        }
    }
}

/// Every choice of leaves among four entered frames: it can be where the top alone may be one.
#[test]
fn states_with_leaves_anywhere() {
    for (convention, depth) in POWERPC
        .into_iter()
        .flat_map(|of| (0..=4).map(move |d| (of, d)))
    {
        for marks in 0..81_usize {
            let mut pair = started(convention, 1024);
            let size = stated_size(convention, &smallest(convention)).expect("it is allowed");
            let mark = |at: usize| (marks / 3_usize.pow(at as u32) % 3) as u64;
            pair.change_state(|state| {
                state.depth = depth;
                for at in 0..4 {
                    state.frames[at] = Request {
                        leaf: mark(at),
                        ..smallest(convention)
                    };
                    if (at as u64) < depth && mark(at) == 0 {
                        state.registers.gpr[1] -= size;
                    }
                }
            });
            let top = (depth as usize).saturating_sub(1);
            let below = (0..top).all(|at| mark(at) == 0);
            let can_be = below && (depth == 0 || mark(top) < 2);
            let call = Call::WriteRegister {
                bank: 0,
                number: 3,
                value: 3,
            };
            answers(&mut pair, &call, if can_be { 0 } else { 23 });
        }
    }
}

/// The registers that document 01 lets a frame write: their banks and numbers.
fn writable(convention: Convention, top: &Request) -> Vec<(u64, Vec<u64>)> {
    let (g, m) = (top.first_gpr, top.first_fpr);
    match convention {
        Ppc64 | Aix | Ppc64b => vec![
            (0, [0].into_iter().chain(3..=12).chain(g..=31).collect()),
            (1, (0..=13).chain(m..=31).collect()),
            // a leaf does not save LR, and so may not write it
            (2, if top.leaf == 1 { vec![] } else { vec![0] }),
            (
                3,
                match top.saves_cr {
                    1 => (0..=7).collect(),
                    _ => vec![0, 1, 5, 6, 7],
                },
            ),
        ],
        Z => vec![
            (0, (0..=5).chain(g..=13).chain([14]).collect()),
            (1, (0..=7).chain(m..=15).collect()),
        ],
    }
}

/// Writes of every register, whether or not it may be written.
fn every_register(pair: &mut Pair, convention: Convention, top: &Request) {
    let writable = writable(convention, top);
    let may = |bank, number| {
        let mut numbers = writable.iter().filter(|(of, _)| *of == bank);
        numbers.any(|(_, numbers)| match bank {
            2 => !numbers.is_empty(),
            _ => numbers.contains(&number),
        })
    };
    let numbers = (0..=40).chain([63, 64, 256, 1 << 32, (1 << 32) + 3, u64::MAX]);
    for number in numbers {
        for bank in [0, 1, 2, 3, 4, 256, 1 << 32, u64::MAX] {
            for value in [0, 15, 16, 0xffff_ffff, 1 << 32, u64::MAX] {
                let most = match bank {
                    3 => 15,
                    1 => u64::MAX,
                    // 02, No. 1: "a GPR or LR write over 2^32 - 1 gives 20"
                    _ => largest(convention),
                };
                let allowed = may(bank, number) && value <= most;
                let call = Call::WriteRegister {
                    bank,
                    number,
                    value,
                };
                answers(pair, &call, if allowed { 0 } else { 20 });
            }
        }
    }
}

#[test]
fn every_register_of_every_frame() {
    for convention in Convention::ALL {
        let none = match convention {
            Ppc64 | Aix | Ppc64b => request(32, 32, 0, 0, 0),
            // r15 is above all that could be saved and written
            Z => request(16, 16, 0, 0, 0),
        };
        let mut pair = started(convention, 1024);
        every_register(&mut pair, convention, &none);
        let (gprs, fprs, most_cr) = match convention {
            Ppc64 | Ppc64b => (14..=32, 14..=32, 1),
            Z => (6..=14, 8..=16, 0),
            Aix => (13..=32, 14..=32, 1),
        };
        let mut frames = Vec::new();
        for cr in 0..=most_cr {
            frames.extend(gprs.clone().map(|g| request(g, *fprs.end(), cr, 0, 0)));
            frames.extend(fprs.clone().map(|m| request(*gprs.end(), m, cr, 0, 0)));
        }
        if convention != Z {
            let leaves: Vec<Request> = frames.iter().copied().map(machine_calls::leaf).collect();
            frames.extend(leaves);
        }
        for frame in frames {
            answers(&mut pair, &Call::Enter(frame), 0);
            every_register(&mut pair, convention, &frame);
            answers(&mut pair, &Call::Leave, 0);
        }
        // what a caller saved is not the callee's to write
        answers(&mut pair, &Call::Enter(all_saved(convention)), 0);
        answers(&mut pair, &Call::Enter(smallest(convention)), 0);
        every_register(&mut pair, convention, &smallest(convention));
    }
}

#[test]
fn every_value_of_every_field_of_cr() {
    for convention in POWERPC {
        every_value_of_every_field(convention);
    }
}

fn every_value_of_every_field(convention: Convention) {
    let mut pair = started(convention, 1024);
    answers(&mut pair, &Call::Enter(request(32, 32, 1, 0, 0)), 0);
    for number in 0..=8 {
        for value in 0..=17 {
            let before = pair.state().registers.cr;
            let call = Call::WriteRegister {
                bank: 3,
                number,
                value,
            };
            let allowed = number <= 7 && value <= 15;
            answers(&mut pair, &call, if allowed { 0 } else { 20 });
            if allowed {
                let digit = |cr: u64, field: u64| cr >> (28 - 4 * field) & 15;
                let after = pair.state().registers.cr;
                for field in 0..=7 {
                    let expected = if field == number {
                        value
                    } else {
                        digit(before, field)
                    };
                    assert_eq!(digit(after, field), expected);
                }
            }
        }
    }
}

/// Two frames, and the areas that document 01 lets the second write, as offsets in memory.
fn two_frames(convention: Convention) -> (Pair, Vec<(u64, u64)>) {
    let mut pair = started(convention, 2048);
    let (outer, inner) = match convention {
        Ppc64 | Ppc64b => (request(31, 30, 1, 5, 80), request(29, 31, 0, 30, 72)),
        Z => (request(6, 14, 0, 5, 24), request(13, 15, 0, 30, 16)),
        Aix => (request(31, 30, 1, 5, 40), request(29, 31, 0, 30, 48)),
    };
    answers(&mut pair, &Call::Enter(outer), 0);
    let caller = stack_pointer(pair.state()) - BASE;
    answers(&mut pair, &Call::Enter(inner), 0);
    let own = stack_pointer(pair.state()) - BASE;
    let areas = match convention {
        Ppc64 | Ppc64b => vec![
            (own + 48, own + 48 + 72),
            // 48 + 72 + 30 + 24 + 8 is 182, rounded up to 192
            (own + 120, own + 192 - 32),
            (caller + 48, caller + 48 + 80),
        ],
        Aix => vec![
            (own + 24, own + 24 + 48),
            // 24 + 48 + 30 + 12 + 8 is 122, rounded up to 128
            (own + 72, own + 128 - 20),
            (caller + 24, caller + 24 + 40),
        ],
        Z => vec![
            (own + 160, own + 160 + 16),
            // 160 + 16 + 30 + 8 is 214, rounded up to 216
            (own + 176, own + 216 - 8),
            (caller + 160, caller + 160 + 24),
        ],
    };
    (pair, areas)
}

#[test]
fn memory_writes_at_every_address() {
    for convention in Convention::ALL {
        let (mut pair, areas) = two_frames(convention);
        let mut random = Random::new(6);
        for offset in 0..2048 + 8 {
            for length in [1, 2, 3, 8, 16, 24, 25, 32, 33, 40, 41, 72, 73, 80, 81] {
                let inside = areas
                    .iter()
                    .any(|&(start, end)| start <= offset && offset + length <= end);
                let call = Call::WriteMemory {
                    address: BASE + offset,
                    bytes: compare::machines::random_bytes(&mut random, length as usize),
                };
                answers(&mut pair, &call, if inside { 0 } else { 20 });
            }
        }
        for address in [0, BASE - 1, u64::MAX - 80, u64::MAX - 7, u64::MAX] {
            for length in [1, 8, 9, 81, 82] {
                let bytes = vec![1; length];
                answers(&mut pair, &Call::WriteMemory { address, bytes }, 20);
            }
        }
        answers(&mut pair, &Call::Leave, 0);
        answers(&mut pair, &Call::Leave, 0);
    }
}

#[test]
fn the_start_writes_its_own_outgoing_area() {
    for convention in Convention::ALL {
        let size = least_memory(convention) as u64;
        let mut pair = started(convention, size as usize);
        for offset in 0..size + 44 {
            for length in [1, 31, 32, 33, 63, 64, 65] {
                let call = Call::WriteMemory {
                    address: BASE + offset,
                    bytes: vec![offset as u8; length as usize],
                };
                // 64 bytes on PPC64, which are the memory's last; 32 on AIX, 8 bytes below its end;
                // none on Z
                let area = match convention {
                    Ppc64 | Ppc64b => size - 64..size,
                    Aix => size - 40..size - 8,
                    Z => 0..0,
                };
                let inside = offset >= area.start && offset + length <= area.end;
                answers(&mut pair, &call, if inside { 0 } else { 20 });
            }
        }
    }
}

/// The largest outgoing area, and one step more. Its own function and the one that it calls may write
/// its first and its last bytes, and none that reach over its ends.
#[test]
fn an_outgoing_area_of_32776_bytes_and_of_32784() {
    // 48, 160 and 24 bytes of header; the sum is a multiple of 8, on AIX of 16, and on PPC64 8 more
    // make one
    for (convention, header, size) in [(Ppc64, 48, 32_832), (Z, 160, 32_936), (Aix, 24, 32_800)] {
        let of = |outgoing| Request {
            outgoing,
            ..smallest(convention)
        };
        let mut pair = started(convention, 65_536);
        let before = stack_pointer(pair.state());
        for outgoing in [32_775, 32_777, 32_784] {
            answers(&mut pair, &Call::Enter(of(outgoing)), 17);
        }
        answers(&mut pair, &Call::Enter(of(32_776)), 0);
        assert_eq!(stack_pointer(pair.state()), before - size);
        let area = before - size + header;
        for called in [false, true] {
            if called {
                answers(&mut pair, &Call::Enter(of(0)), 0);
            }
            for (address, number) in [
                (area - 1, 20),
                (area, 0),
                (area + 32_776 - 256, 0),
                (area + 32_776 - 255, 20),
            ] {
                let bytes = vec![0x5a; 256];
                answers(&mut pair, &Call::WriteMemory { address, bytes }, number);
            }
        }
        answers(&mut pair, &Call::Leave, 0);
        answers(&mut pair, &Call::Leave, 0);
        assert_eq!(stack_pointer(pair.state()), before);
    }
}

#[test]
fn memory_writes_of_every_length() {
    for convention in Convention::ALL {
        let mut pair = started(convention, 2048);
        let frame = Request {
            locals: 600,
            ..smallest(convention)
        };
        answers(&mut pair, &Call::Enter(frame), 0);
        let header_and_outgoing = match convention {
            Ppc64 | Ppc64b => 112,
            Z => 160,
            Aix => 56,
        };
        let address = stack_pointer(pair.state()) + header_and_outgoing;
        for length in (0..=300).chain([511, 512, 513, 599, 600]) {
            let number = if (1..=256).contains(&length) { 0 } else { 20 };
            let bytes = vec![length as u8; length];
            answers(&mut pair, &Call::WriteMemory { address, bytes }, number);
        }
    }
}

#[test]
fn a_leave_with_every_byte_of_the_memory_changed() {
    for convention in Convention::ALL {
        let (mut pair, _) = two_frames(convention);
        let entered = pair.state().clone();
        let memory = pair.memory().to_vec();
        let own = (stack_pointer(&entered) - BASE) as usize;
        let caller = match convention {
            Ppc64 | Ppc64b => own + 192,
            Z => own + 216,
            Aix => own + 128,
        };
        let chain = match convention {
            Ppc64 | Ppc64b => own..own + 8,
            Z => caller + 120..caller + 128,
            Aix => own..own + 4,
        };
        // r29 to r31, f31 and LR; r13, r14 and f15
        let slots = match convention {
            Ppc64 | Ppc64b => vec![caller - 32..caller, caller + 16..caller + 24],
            Z => vec![caller + 104..caller + 120, caller - 8..caller],
            Aix => vec![caller - 20..caller, caller + 8..caller + 12],
        };
        answers(&mut pair, &Call::Leave, 0);
        let left = pair.state().clone();
        for (at, byte) in memory.iter().enumerate() {
            pair.change_state(|state| *state = entered.clone());
            pair.change_memory(at, &[byte ^ 0x10]);
            let number = if chain.contains(&at) { 21 } else { 0 };
            answers(&mut pair, &Call::Leave, number);
            let matters = slots.iter().any(|slot| slot.contains(&at));
            assert_eq!(*pair.state() != left, matters || number == 21, "byte {at}");
            pair.change_memory(at, &[*byte]);
        }
    }
}

#[test]
fn a_leave_with_no_frame_looks_at_no_memory() {
    for convention in Convention::ALL {
        let mut pair = started(convention, 400);
        pair.change_memory(0, &[0xff; 400]);
        answers(&mut pair, &Call::Leave, 22);
    }
}

#[test]
fn cr_is_restored_in_fields_2_to_4_alone() {
    for (convention, saves_cr) in [(Ppc64, 0), (Ppc64, 1), (Aix, 0), (Aix, 1)] {
        let mut pair = started(convention, 1024);
        pair.change_state(|state| state.registers.cr = 0x1234_5678);
        answers(&mut pair, &Call::Enter(request(32, 32, saves_cr, 0, 0)), 0);
        pair.change_state(|state| state.registers.cr = 0xabcd_ef98);
        answers(&mut pair, &Call::Leave, 0);
        let expected = [0xabcd_ef98, 0xab34_5f98][saves_cr as usize];
        assert_eq!(pair.state().registers.cr, expected);
    }
}

/// Every call with every kind of memory, in a state that cannot be.
fn refuses_all(pair: &mut Pair, change: impl FnOnce(&mut Machine)) {
    let before = pair.state().clone();
    pair.change_state(change);
    let length = pair.memory().len();
    for lent in [length, length - 16, 0, 7] {
        // what else is wrong with them is tested later
        answers_lending(pair, &Call::Enter(Request::default()), lent, 23);
        let call = Call::WriteRegister {
            bank: 9,
            number: 9,
            value: 9,
        };
        answers_lending(pair, &call, lent, 23);
        let call = Call::WriteMemory {
            address: 0,
            bytes: Vec::new(),
        };
        answers_lending(pair, &call, lent, 23);
        answers_lending(pair, &Call::Leave, lent, 23);
    }
    pair.change_state(|state| *state = before);
}

#[test]
fn states_that_cannot_be() {
    for convention in Convention::ALL {
        let (mut pair, _) = two_frames(convention);
        let pointer = pointer_of(convention);
        let step = match convention {
            Ppc64 | Aix | Ppc64b => 16,
            Z => 8,
        };
        for code in [0, 5, 256, 257, 1 << 32, (1 << 32) + 1, u64::MAX] {
            refuses_all(&mut pair, |state| state.convention = code);
        }
        // another convention has another stack pointer, other frames or shorter registers, but for
        // codes 1 and 4, which have the same frames
        let has_other_frames = |other: &Convention| {
            *other != convention
                && !matches!((convention, other), (Ppc64, Ppc64b) | (Ppc64b, Ppc64))
        };
        for other in Convention::ALL.into_iter().filter(has_other_frames) {
            refuses_all(&mut pair, |state| state.convention = other.code().into());
        }
        // 02, No. 1: a state holding a GPR or LR over 2^32 - 1
        for bit in 32..64 {
            for n in (0..=32).filter(|_| convention == Aix) {
                refuses_all(&mut pair, |state| match n {
                    32 => state.registers.lr |= 1 << bit,
                    _ => state.registers.gpr[n] |= 1 << bit,
                });
            }
        }
        for depth in [0, 1, 3, 32, 33, 34, 1 << 32, (1 << 32) + 2, u64::MAX] {
            refuses_all(&mut pair, |state| state.depth = depth);
        }
        for base in [0, BASE - 16, BASE + 1, BASE + 8, BASE + 16, u64::MAX - 15] {
            refuses_all(&mut pair, |state| state.base = base);
        }
        for size in [0, 16, 240, 2032, 2056, 2064, 65_536, 65_552, u64::MAX - 15] {
            refuses_all(&mut pair, |state| state.size = size);
        }
        for by in [1, 8, 16, step, 0u64.wrapping_sub(step), 1 << 63] {
            refuses_all(&mut pair, |state| {
                let moved = state.registers.gpr[pointer].wrapping_add(by);
                state.registers.gpr[pointer] = moved;
            });
        }
        for bit in 32..64 {
            refuses_all(&mut pair, |state| state.registers.cr |= 1 << bit);
        }
        for frame in [0, 1] {
            refuses_all(&mut pair, |state| state.frames[frame] = Request::default());
            refuses_all(&mut pair, |state| state.frames[frame].first_gpr = 5);
            refuses_all(&mut pair, |state| state.frames[frame].first_fpr = 33);
            refuses_all(&mut pair, |state| state.frames[frame].saves_cr = 2);
            refuses_all(&mut pair, |state| state.frames[frame].locals += 16);
            refuses_all(&mut pair, |state| state.frames[frame].locals = u64::MAX);
            refuses_all(&mut pair, |state| state.frames[frame].outgoing += 16);
            refuses_all(&mut pair, |state| state.frames[frame].outgoing += 1);
        }
        // records in another order make the same sum, so this one can be
        pair.change_state(|state| state.frames.swap(0, 1));
        assert!(pair.state().possible().is_some());
        answers(&mut pair, &Call::Enter(smallest(convention)), 0);
    }
}

#[test]
fn stack_pointers_below_the_floor() {
    for convention in Convention::ALL {
        for base in [0, 16, 4096, BASE] {
            let mut pair = Pair::new(&mut Random::new(8), 1024);
            answers(&mut pair, &start(convention, base), 0);
            let floor = match convention {
                Ppc64 | Ppc64b => 288,
                Z => 0,
                Aix => 220,
            };
            let mut below = false;
            // each frame is one that could be, but not all of them in this memory
            for depth in 1..=32 {
                pair.change_state(|state| {
                    let frame = smallest(convention);
                    let size = stated_size(convention, &frame).expect("it is allowed");
                    state.depth = depth;
                    state.frames[depth as usize - 1] = frame;
                    let pointer = &mut state.registers.gpr[pointer_of(convention)];
                    below |= *pointer - base < size + floor;
                    // below address 0 it is a number near 2^64
                    *pointer = pointer.wrapping_sub(size);
                });
                if below {
                    refuses_all(&mut pair, |_| {});
                    break;
                }
                let call = Call::WriteRegister {
                    bank: 0,
                    number: 0,
                    value: depth,
                };
                answers(&mut pair, &call, 0);
            }
            assert!(below);
        }
    }
}

#[test]
fn records_above_the_depth_are_not_looked_at() {
    for convention in Convention::ALL {
        let (mut pair, _) = two_frames(convention);
        let noise = request(99, 98, 97, u64::MAX, 95);
        pair.change_state(|state| state.frames[2..].fill(noise));
        answers(&mut pair, &Call::Leave, 0);
        answers(&mut pair, &Call::Enter(smallest(convention)), 0);
        answers(&mut pair, &Call::Enter(smallest(convention)), 0);
        assert_eq!(pair.state().frames[2], smallest(convention));
        assert_eq!(pair.state().frames[3], noise);
    }
}

#[test]
fn memories_of_another_length() {
    for convention in Convention::ALL {
        let (mut pair, _) = two_frames(convention);
        for lent in [0, 1, 16, 2032, 2047, 2049, 2064, 2112] {
            answers_lending(&mut pair, &Call::Enter(Request::default()), lent, 16);
            answers_lending(&mut pair, &Call::Leave, lent, 16);
        }
    }
}
