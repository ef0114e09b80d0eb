//! Frames of real prologues: gcc and clang save registers where the rule says (`data/frames.txt`).
//! First the second program is held to them, then the library, through what an enter writes.

use compare::machines::{stack_pointer, Call, Pair};
use compare::random::Random;
use reference::machine::{frame_size, save_slots, Registers, Request, Saved};
use reference::Convention;
use std::collections::BTreeMap;

const FRAMES: &str = include_str!("../data/frames.txt");
const BASE: u64 = 0x10_0000;

struct Frame {
    line: String,
    convention: Convention,
    request: Request,
    size: u64,
    rule: u64,
    /// Offsets from the caller's stack pointer, by the register's name.
    slots: BTreeMap<String, i64>,
}

fn frames() -> Vec<Frame> {
    let lines = FRAMES.lines().filter(|line| !line.starts_with('#'));
    lines.map(frame).collect()
}

fn frame(line: &str) -> Frame {
    let (request, slots) = line.split_once(" : ").expect("a colon");
    let (convention, request) = request.split_once(' ').expect("a convention");
    let values = |text: &str| -> BTreeMap<String, i64> {
        text.split(' ')
            .map(|word| {
                let (name, value) = word.split_once('=').expect("a name and a number");
                (name.to_string(), value.parse().expect("a number"))
            })
            .collect()
    };
    let request = values(request);
    let number = |name: &str| request[name] as u64;
    Frame {
        line: line.to_string(),
        convention: match convention {
            "ppc64" => Convention::Ppc64,
            "z" => Convention::Z,
            "aix" => Convention::Aix,
            _ => panic!("{convention:?} is no convention"),
        },
        request: Request {
            first_gpr: number("g"),
            first_fpr: number("m"),
            saves_cr: number("cr"),
            locals: number("locals"),
            outgoing: number("out"),
            leaf: 0,
        },
        size: number("size"),
        rule: number("rule"),
        slots: values(slots),
    }
}

fn name(of: Saved) -> String {
    match of {
        Saved::Gpr(n) => format!("r{n}"),
        Saved::Fpr(n) => format!("f{n}"),
        Saved::Cr => "CR".to_string(),
        Saved::Lr => "LR".to_string(),
    }
}

#[test]
fn the_file_has_frames_of_all_conventions() {
    let count = |convention| {
        frames()
            .iter()
            .filter(|frame| frame.convention == convention)
            .count()
    };
    assert_eq!(Convention::ALL.map(count), [30, 18, 30, 0]);
    let slots: usize = frames().iter().map(|frame| frame.slots.len()).sum();
    assert!(slots > 400, "{slots} slots");
}

#[test]
fn the_second_program_saves_where_compilers_do() {
    for frame in frames() {
        let caller = 1 << 20;
        let size = frame_size(frame.convention, &frame.request);
        assert_eq!(size, frame.rule, "{}", frame.line);
        let mut rule: BTreeMap<String, i64> = BTreeMap::new();
        for (saved, at) in save_slots(frame.convention, &frame.request, caller) {
            rule.insert(name(saved), at as i64 - caller as i64);
        }
        match frame.convention {
            // all that is saved, each at its place; the back chain is at the new stack pointer,
            // which is the rule's where the sizes are the same
            Convention::Ppc64 | Convention::Aix | Convention::Ppc64b => {
                let mut slots = frame.slots.clone();
                assert_eq!(slots.remove("chain"), Some(-(frame.size as i64)));
                assert_eq!(slots, rule, "{}", frame.line);
            }
            // the first of the general registers, which are stored by one instruction; the floating
            // ones fill the same bytes in another order
            Convention::Z => {
                assert_eq!(frame.size, frame.rule, "{}", frame.line);
                let first = format!("r{}", frame.request.first_gpr);
                assert_eq!(frame.slots[&first], rule[&first], "{}", frame.line);
                assert_eq!(floating(&frame.slots), floating(&rule), "{}", frame.line);
            }
        }
    }
}

/// The slots of the floating registers, whichever is where.
fn floating(slots: &BTreeMap<String, i64>) -> Vec<i64> {
    let floating = slots.iter().filter(|(name, _)| name.starts_with('f'));
    let mut offsets: Vec<i64> = floating.map(|(_, &offset)| offset).collect();
    offsets.sort_unstable();
    offsets
}

/// Registers of which no two hold the same, nor the same as any address here, and neither do their
/// low halves.
fn registers() -> Registers {
    let mut registers = Registers {
        gpr: [0; 32],
        fpr: [0; 32],
        lr: 0xaaaa_aaaa_aaaa_0001,
        cr: 0xbbbb_bbbb,
    };
    for n in 0..32 {
        registers.gpr[n] = 0xcccc_cccc_cccc_0000 + n as u64;
        registers.fpr[n] = 0xdddd_dddd_0000_0000 + n as u64;
    }
    registers
}

/// A number as a general register's slot has it: on AIX its low half.
fn word(convention: Convention, number: u64) -> Vec<u8> {
    number.to_be_bytes()[8 - convention.word()..].to_vec()
}

/// What the register of this name holds, as the bytes of its slot.
fn held(convention: Convention, registers: &Registers, name: &str) -> Vec<u8> {
    let number = || name[1..].parse::<usize>().expect("a register's number");
    match name.as_bytes()[0] {
        b'r' => word(convention, registers.gpr[number()]),
        b'f' => registers.fpr[number()].to_be_bytes().to_vec(),
        b'L' => word(convention, registers.lr),
        b'C' => (registers.cr as u32).to_be_bytes().to_vec(),
        _ => panic!("{name:?} is no register"),
    }
}

#[test]
fn an_enter_of_the_library_saves_where_compilers_do() {
    for frame in frames() {
        let mut pair = Pair::new(&mut Random::new(2), 8192);
        let call = |pair: &mut Pair, call: Call| match pair.call(&call) {
            Ok(number) => assert_eq!(number, 0, "{}", frame.line),
            Err(difference) => panic!("{}: {difference}", frame.line),
        };
        let start = Call::Start {
            convention: frame.convention,
            registers: Box::new(registers()),
            base: BASE,
        };
        call(&mut pair, start);
        // the frame of a caller that has one itself
        call(&mut pair, Call::Enter(frame.request));
        let caller = stack_pointer(pair.state());
        let registers = pair.state().registers;
        call(&mut pair, Call::Enter(frame.request));
        let pointer = stack_pointer(pair.state());
        assert_eq!(caller - pointer, frame.rule, "{}", frame.line);

        let at = |offset: i64, length: usize| {
            let from = (caller as i64 + offset - BASE as i64) as usize;
            pair.memory()[from..from + length].to_vec()
        };
        for (name, &offset) in &frame.slots {
            let held = match name.as_str() {
                "chain" if frame.size == frame.rule => word(frame.convention, caller),
                // the compiler's frame is larger than the rule's
                "chain" => continue,
                // on Z the order of the floating registers is the rule's own
                _ if frame.convention == Convention::Z && name.starts_with('f') => continue,
                name => held(frame.convention, &registers, name),
            };
            assert_eq!(at(offset, held.len()), held, "{name} of {}", frame.line);
        }
    }
}
