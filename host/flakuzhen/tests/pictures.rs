//! What the command draws, held to what the library does: the marks of a call's tables to what filling
//! writes, the parts of a dump's frames to what the frame machine writes.

mod support;

use flakuzhen::machine::{Frame, Machine, Registers};
use flakuzhen::{fill, plan, Convention, Plan, Register};
use support::{command, run};

/// Any address that copies may have.
const COPY_BASE: u64 = 0x1000;

/// Image, area and copies of the call, filled with values whose bytes are all `value`, on buffers whose
/// bytes are all `ground`.
fn filled(signature: &[u8], plan: &Plan, value: u8, ground: u8) -> [Vec<u8>; 3] {
    let mut image = vec![ground; 512];
    let mut area = vec![ground; plan.sizes.area as usize];
    let mut copies = vec![ground; plan.sizes.copies as usize];
    let values = vec![value; plan.sizes.values as usize];
    fill(
        signature,
        &values,
        &mut image,
        &mut area,
        &mut copies,
        COPY_BASE,
        0,
    )
    .expect("an accepted call");
    [image, area, copies]
}

/// The mark that a byte has by what filling does: one that follows the values is a value's, one that
/// is written and does not follow them fills up.
fn expected(argument: &str, filled: [u8; 3]) -> String {
    let [zeros, values, ground] = filled;
    match (zeros == values, zeros == ground) {
        (false, _) => argument.to_string(),
        (true, true) => ".".to_string(),
        (true, false) => String::new(),
    }
}

/// A signature of one type, in a struct or not, once and after enough others to be in memory.
fn signatures() -> Vec<Vec<u8>> {
    let scalars = (0..9u8)
        .map(|code| vec![0x10, 0, 1, code])
        .chain((0..3u8).map(|code| vec![0x11, 0, 1, code]));
    let mut types: Vec<Vec<u8>> = scalars.collect();
    for fields in [1, 2, 3, 4, 5, 6, 7, 8, 9, 12, 17] {
        let body = [0x10, 0, 1, 1].repeat(fields);
        types.push([&[0x12, 0, body.len() as u8][..], &body].concat());
    }
    for field in [[0x11, 0, 1, 0], [0x11, 0, 1, 1]] {
        types.push([&[0x12, 0, 4][..], &field].concat());
    }
    let mut all = Vec::new();
    // AIX has no long double, and no double in a struct
    let on_aix = |of: &Vec<u8>| of[..] != [0x11, 0, 1, 2] && !of.ends_with(&[4, 0x11, 0, 1, 1]);
    let kinds = [1, 2, 3, 4]
        .into_iter()
        .flat_map(|code| [(code, false), (code, true)]);
    for (convention, ellipsis) in kinds {
        let types = types.iter().filter(|of| convention != 3 || on_aix(of));
        for (of, before) in types.flat_map(|of| [(of, 0), (of, 3), (of, 7), (of, 20)]) {
            let mut arguments = [0x10, 0, 1, 4].repeat(before);
            arguments.extend([0x11, 0, 1, 1].repeat(before));
            arguments.extend_from_slice(of);
            let [high, low] = (arguments.len() as u16).to_be_bytes();
            let head = [1, 0, 1, convention, 2, 0, 0];
            let between: &[u8] = if ellipsis { &[4, 0, 0] } else { &[] };
            all.push([&head[..], between, &[3, high, low], &arguments].concat());
        }
    }
    all
}

/// The marks of a row of the picture, which has 4 columns for each; a row's end may be missing.
fn marks(picture: &str, table: &str, label: &str, count: usize) -> Vec<String> {
    let mut lines = picture.lines();
    lines
        .find(|line| line.starts_with(table))
        .expect("the table");
    let row = lines
        .take_while(|line| !line.is_empty())
        .find(|line| line.split(' ').next() == Some(label))
        .expect("the row");
    let mark = |at: usize| row.get(10 + 4 * at..14 + 4 * at).unwrap_or("");
    (0..count).map(|at| mark(at).trim().to_string()).collect()
}

#[test]
fn the_marks_are_what_filling_writes() {
    let (mut own, mut filling) = (0, 0);
    for signature in signatures() {
        let plan = plan(&signature).expect("an accepted signature");
        let [zeros, values, ground] = [(0, 0), (0x7f, 0), (0, 0xff)]
            .map(|(value, ground)| filled(&signature, &plan, value, ground));
        let output = run(command(), &["list", "--picture"], &signature);
        let picture = String::from_utf8(output.stdout).expect("a text");
        let (word, start) = match plan.convention {
            Convention::Aix => (4, 0),
            Convention::Z => (8, 160),
            _ => (8, 0),
        };
        for (number, argument) in plan.arguments.iter().enumerate() {
            if argument.by_reference() {
                continue;
            }
            let in_image = argument.registers().map(|register| {
                let place = match register {
                    Register::General(number) => 8 * usize::from(number),
                    Register::Floating(number) => 256 + 8 * usize::from(number),
                };
                let row = marks(&picture, "registers", &register.to_string(), 8);
                (0, place, row)
            });
            let in_area = argument.memory.clone().step_by(word).map(|place| {
                let label = format!("@{}", start + place);
                (1, place, marks(&picture, "area", &label, word))
            });
            for (buffer, place, row) in in_image.chain(in_area) {
                for (byte, mark) in row.iter().enumerate() {
                    let at = place + byte;
                    let filled = [&zeros, &values, &ground].map(|of| of[buffer][at]);
                    assert_eq!(mark, &expected(&number.to_string(), filled), "{picture}");
                    match mark.as_str() {
                        "." => filling += 1,
                        _ => own += 1,
                    }
                }
            }
        }
    }
    assert!(own > 10_000 && filling > 1_000, "{own} and {filling}");
}

const CONVENTIONS: [(Convention, &str, &str); 4] = [
    (Convention::Ppc64, "ppc64", "lr"),
    (Convention::Z, "z", "r14"),
    (Convention::Aix, "aix", "lr"),
    (Convention::Ppc64b, "ppc64b", "lr"),
];

const BASE: u64 = 0x1000;
const LINK: u64 = 0x1122_3344;

/// A machine with two frames.
fn entered(convention: Convention) -> Machine {
    let mut registers = Registers {
        lr: LINK,
        ..Registers::default()
    };
    registers.gpr[14] = LINK;
    let mut machine = Machine::start(convention, &registers, BASE, vec![0; 1024]).expect("a start");
    let (first_gpr, first_fpr) = match convention {
        Convention::Z => (14, 16),
        _ => (32, 32),
    };
    let frame = Frame {
        first_gpr,
        first_fpr,
        outgoing: 64,
        ..Frame::default()
    };
    machine.enter(&frame).expect("an enter");
    machine.enter(&frame).expect("an enter");
    machine
}

fn dump(convention: &str, pointer: u64, memory: &[u8], words: &[&str]) -> (String, Option<i32>) {
    let (base, pointer) = (BASE.to_string(), pointer.to_string());
    let words = [&["dump", convention, &base, &pointer, "-"], words].concat();
    let output = run(command(), &words, memory);
    let text = String::from_utf8(output.stdout).expect("a text");
    (text, output.status.code())
}

/// An enter stores the return address and the back chain, and the outgoing area begins where the header
/// ends: there the command's numbers must be the library's.
#[test]
fn the_headers_are_the_librarys() {
    for (convention, name, register) in CONVENTIONS {
        let machine = entered(convention);
        let pointer = machine.stack_pointer();
        let (text, status) = dump(name, pointer, machine.memory(), &[]);
        assert_eq!(status, Some(0));
        let saved = format!(", saved {register} {LINK:#x}\n");
        // both frames were entered from a function with this return address
        assert_eq!(text.matches(&saved).count(), 2, "{text}");
        let (picture, _) = dump(name, pointer, machine.memory(), &["--picture"]);
        // the row above the frame's header begins where the outgoing area does
        let area = picture
            .lines()
            .rfind(|line| line.ends_with("outgoing area, locals and saves"))
            .and_then(|line| line.split_whitespace().next())
            .and_then(|word| u64::from_str_radix(word.strip_prefix("0x")?, 16).ok())
            .expect("the latest frame's row");
        assert!(machine.clone().write_memory(area, &[1]).is_ok());
        assert!(machine.clone().write_memory(area - 1, &[1]).is_err());
    }
}

#[test]
fn a_broken_chain_is_shown_up_to_its_fault() {
    for (convention, name, _) in CONVENTIONS {
        let machine = entered(convention);
        let pointer = machine.stack_pointer();
        let frames = flakuzhen::walk_dump(convention, machine.memory(), BASE, pointer)
            .expect("three frames");
        assert_eq!(frames.len(), 3);
        let word = if convention == Convention::Aix { 4 } else { 8 };
        // a last chain that is no address, one to itself, and one back to the first
        for chain in [BASE + 1, frames[2], frames[0]] {
            let mut memory = machine.memory().to_vec();
            let at = (frames[2] - BASE) as usize;
            memory[at..at + word].copy_from_slice(&chain.to_be_bytes()[8 - word..]);
            let (text, status) = dump(name, pointer, &memory, &[]);
            assert_eq!(status, Some(1));
            let shown: Vec<&str> = text.lines().collect();
            assert_eq!(shown.len(), 4, "{text}");
            for (line, frame) in shown.iter().zip(&frames) {
                assert!(line.contains(&format!(" {frame:#x}: ")), "{line}");
            }
            assert_eq!(shown[3], format!("refused 30 at {chain:#x}"));
        }
        for pointer in [pointer + 1, u64::MAX] {
            let (text, status) = dump(name, pointer, machine.memory(), &[]);
            assert_eq!(
                (text, status),
                (format!("refused 30 at {pointer:#x}\n"), Some(1))
            );
        }
    }
}
