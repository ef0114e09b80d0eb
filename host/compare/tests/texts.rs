//! Signatures as text: what `command/signature_text.c` and the Rust library's `parse` make of them, held
//! to each other and to the bytes of generated signatures; whole texts, other ways to write them, and
//! damaged ones.

use compare::random::Random;
use compare::{encode, generate, seed};
use flakuzhen::Signature;
use std::collections::BTreeMap;
use std::io::Write;
use std::path::{Path, PathBuf};
use std::process::{Command, Stdio};
use std::sync::OnceLock;

const SIGNATURES: usize = 100_000;
const DAMAGED: usize = 100_000;
const MADE_UP: usize = 30_000;

fn root() -> PathBuf {
    Path::new(env!("CARGO_MANIFEST_DIR")).join("../..")
}

/// The program in C, under sanitizers.
fn program() -> &'static Path {
    static PROGRAM: OnceLock<PathBuf> = OnceLock::new();
    PROGRAM.get_or_init(|| {
        let program = Path::new(env!("CARGO_TARGET_TMPDIR")).join("texts");
        let status = Command::new("gcc")
            .args([
                "-std=c99",
                "-O2",
                "-pedantic",
                "-Wall",
                "-Wextra",
                "-Werror",
            ])
            .args(["-fsanitize=address,undefined", "-fno-sanitize-recover=all"])
            .arg("-I")
            .arg(root().join("include"))
            .arg("-o")
            .arg(&program)
            .arg(root().join("host/compare/tests/texts.c"))
            .arg(root().join("command/signature_text.c"))
            .arg(root().join("build/libflakuzhen.a"))
            .status();
        assert!(status.expect("gcc starts").success());
        program
    })
}

/// What the C functions say of each text.
fn in_c(texts: &[String]) -> Vec<String> {
    let mut child = Command::new(program())
        .stdin(Stdio::piped())
        .stdout(Stdio::piped())
        .spawn()
        .expect("the program starts");
    let mut input = child.stdin.take().expect("it has a standard input");
    let sent: Vec<u8> = texts
        .iter()
        .flat_map(|text| [&(text.len() as u32).to_be_bytes(), text.as_bytes()].concat())
        .collect();
    let writer = std::thread::spawn(move || input.write_all(&sent).expect("it reads"));
    let output = child.wait_with_output().expect("it ends");
    writer.join().expect("it reads all");
    let said = String::from_utf8(output.stdout).expect("a text");
    assert!(
        output.status.success(),
        "{}",
        said.lines().last().unwrap_or("")
    );
    said.lines().map(str::to_string).collect()
}

/// What the Rust library says of a text, in the same words.
fn in_rust(text: &str) -> String {
    match text.parse::<Signature>() {
        Ok(signature) => {
            let text = signature.to_string();
            // the text is the one of the signature
            assert_eq!(text.parse().as_ref(), Ok(&signature));
            let bytes: String = signature.iter().map(|byte| format!("{byte:02x}")).collect();
            format!("accepted {bytes} {text}")
        }
        Err(fault) => {
            let at = format!("{}:{}", fault.line, fault.column);
            match (fault.expected(), fault.refusal()) {
                (Some(what), _) => format!("expected {what} at {at}"),
                (_, Some(refusal)) => format!(
                    "refused {} at {} after {} at {at}",
                    refusal.number, refusal.place, refusal.items
                ),
                _ => unreachable!("a fault is one of the two"),
            }
        }
    }
}

fn compared(texts: &[String]) -> Vec<String> {
    let said = in_c(texts);
    assert_eq!(said.len(), texts.len());
    for (text, c) in texts.iter().zip(&said) {
        assert_eq!(c, &in_rust(text), "of {text:?}");
    }
    said
}

/// The same tokens with other white space and comments between them.
fn respaced(text: &str, random: &mut Random) -> String {
    let spaces = [
        "",
        " ",
        "\t",
        "\n",
        " \r\n ",
        "# a, (comment) ...\n",
        "\x0c",
    ];
    let mut other = String::new();
    let mut word = false;
    for mark in text.chars() {
        let in_word = mark.is_ascii_alphanumeric();
        match mark {
            ' ' if word => other += " ",
            ' ' => {}
            // a word and an ellipsis have no white space in them
            _ if (word && in_word) || mark == '.' => other.push(mark),
            _ => {
                other += random.pick(&spaces);
                other.push(mark);
            }
        }
        word = in_word;
    }
    other + random.pick(&spaces)
}

#[test]
fn the_text_of_every_signature_is_its_own() {
    let mut random = Random::new(seed());
    let mut texts = Vec::new();
    let mut bytes = Vec::new();
    for _ in 0..SIGNATURES {
        let signature = encode::signature(&generate::valid(&mut random));
        let accepted = Signature::from_bytes(&signature).expect("a valid signature");
        texts.push(accepted.to_string());
        bytes.push(signature);
    }
    let said = compared(&texts);
    for ((text, bytes), said) in texts.iter().zip(&bytes).zip(&said) {
        let bytes: String = bytes.iter().map(|byte| format!("{byte:02x}")).collect();
        assert_eq!(said, &format!("accepted {bytes} {text}"));
    }
    // written in another way it is the same signature
    let others: Vec<String> = texts
        .iter()
        .take(SIGNATURES / 10)
        .map(|text| respaced(text, &mut random))
        .collect();
    assert_eq!(compared(&others)[..], said[..others.len()]);
}

const PIECES: [&str; 36] = [
    "ppc64",
    "z",
    "aix",
    "ppc64b",
    "void",
    "i8",
    "u8",
    "i16",
    "u16",
    "i32",
    "u32",
    "i64",
    "u64",
    "pointer",
    "single",
    "double",
    "longdouble",
    "{",
    "}",
    "(",
    ")",
    ",",
    "...",
    " ",
    "\n",
    "#",
    "int",
    "I32",
    "..",
    ".",
    "\u{e9}",
    "\0",
    "_",
    "-",
    "{}",
    "{double}",
];

/// A text with some of its bytes or tokens changed, left out or put in twice.
fn damaged(text: &str, random: &mut Random) -> String {
    let mut marks: Vec<char> = text.chars().collect();
    for _ in 0..=random.below(3) {
        let at = random.below(marks.len() + 1);
        let piece = random.pick(&PIECES).chars();
        match random.below(5) {
            0 => marks.truncate(at),
            1 if at < marks.len() => drop(marks.remove(at)),
            2 if at < marks.len() => {
                marks.splice(at..at + 1, piece);
            }
            3 => {
                let end = marks.len().min(at + random.below(8));
                let twice: Vec<char> = marks[at..end].to_vec();
                marks.splice(at..at, twice);
            }
            _ => {
                marks.splice(at..at, piece);
            }
        }
    }
    marks.into_iter().collect()
}

#[test]
fn damaged_texts() {
    let mut random = Random::new(seed() ^ 1);
    let mut texts = Vec::new();
    while texts.len() < DAMAGED {
        let signature = encode::signature(&generate::valid(&mut random));
        // long ones are read in the other tests
        if signature.len() < 600 {
            let text = Signature::from_bytes(&signature).expect("a valid signature");
            texts.push(damaged(&text.to_string(), &mut random));
        }
    }
    let said = compared(&texts);
    let mut faults: BTreeMap<&str, usize> = BTreeMap::new();
    for line in &said {
        let kind = line.split(" at ").next().expect("a line");
        let kind = if kind.starts_with("accepted") {
            "accepted"
        } else {
            kind
        };
        *faults.entry(kind).or_default() += 1;
    }
    println!("{faults:?}");
    for kind in [
        "accepted",
        "expected a convention: ppc64, z, aix or ppc64b",
        "expected the result's type, or 'void'",
        "expected '('",
        "expected a type, '...' or ')'",
        "expected a type, or '...'",
        "expected a type",
        "expected a type, or '}'",
        "expected ',' or ')'",
        "expected ',' or '}'",
        "expected ')': nothing comes after '...'",
        "expected nothing more",
    ] {
        assert!(
            faults.get(kind).copied().unwrap_or(0) >= 100,
            "{kind}: {faults:?}"
        );
    }
}

/// A type by the grammar, however deep and of whatever fields.
fn any_type(random: &mut Random, depth: usize) -> String {
    match random.below(12) {
        0..=2 if depth < 10 => {
            let count = match random.below(20) {
                0 => 0,
                1 => random.below(60),
                _ => 1 + random.below(3),
            };
            let fields: Vec<String> = (0..count).map(|_| any_type(random, depth + 1)).collect();
            format!("{{{}}}", fields.join(", "))
        }
        3 if depth < 3 && random.once_in(4) => format!("{}u8{}", "{".repeat(9), "}".repeat(9)),
        4 if depth == 0 => format!("{{{}}}", vec!["i64"; 30 + random.below(6)].join(", ")),
        _ => PIECES[5 + random.below(12)].to_string(),
    }
}

/// Texts that follow the grammar: what is refused the library says, at the token that it was made of.
#[test]
fn texts_that_the_library_refuses() {
    let mut random = Random::new(seed() ^ 2);
    let mut texts: Vec<String> = (0..MADE_UP)
        .map(|_| {
            let count = match random.below(50) {
                0 => 127 + random.below(4),
                1 => 4000 + random.below(2000),
                _ => random.below(6),
            };
            let simple = count > 100;
            let arguments = (0..count).map(|_| match simple {
                true => "double".to_string(),
                false => any_type(&mut random, 0),
            });
            let mut arguments: Vec<String> = arguments.collect();
            if random.once_in(4) {
                arguments.push("...".to_string());
            }
            let result = match random.once_in(2) {
                true => "void".to_string(),
                false => any_type(&mut random, 0),
            };
            let convention = PIECES[random.below(4)];
            format!("{convention} {result}({})", arguments.join(",\n"))
        })
        .collect();
    // one item longer than a length can say, and structs as deep as a text can have them
    texts.push(format!(
        "z void({})",
        vec!["{u8, u8, u8}"; 10_000].join(", ")
    ));
    texts.push(format!("z void({{{}}})", vec!["i64"; 20_000].join(", ")));
    texts.push(format!(
        "aix {}u8{}()",
        "{".repeat(100_000),
        "}".repeat(100_000)
    ));
    texts.push(format!("aix void({}", "{".repeat(300_000)));
    let said = compared(&texts);
    let mut numbers: BTreeMap<u64, usize> = BTreeMap::new();
    for line in &said {
        if let Some(rest) = line.strip_prefix("refused ") {
            let number = rest.split(' ').next().and_then(|word| word.parse().ok());
            *numbers.entry(number.expect("a number")).or_default() += 1;
        }
    }
    println!("{numbers:?}");
    for number in [1, 4, 5, 6, 7, 8, 25] {
        assert!(
            numbers.get(&number).copied().unwrap_or(0) >= 100,
            "{numbers:?}"
        );
    }
}
