//! `flakuzhen store` and `flakuzhen check`: plans in files, written whole or not at all, and what they
//! are stale in.

mod support;

use std::ffi::{OsStr, OsString};
use std::fs;
use std::os::unix::fs::{symlink, PermissionsExt};
use std::path::Path;
use std::process::{Command, Output};
use support::{command, complains, prints, Apart};

/// PPC64, no result, arguments i32 and double.
const EXAMPLE: [u8; 18] = [1, 0, 1, 1, 2, 0, 0, 3, 0, 8, 0x10, 0, 1, 4, 0x11, 0, 1, 1];

/// Its plan.
const PLAN: [u8; 40] = [
    0x20, 0, 18, 1, 0, 1, 1, 2, 0, 0, 3, 0, 8, 0x10, 0, 1, 4, 0x11, 0, 1, 1, // the signature
    0x21, 0, 5, 0, 0, 3, 0, 0, // r3
    0x21, 0, 5, 0, 1, 1, 0, 8, // f1
    0x22, 0, 0,
];

fn run<S: AsRef<OsStr>>(words: &[S], input: &[u8]) -> Output {
    support::run(command(), words, input)
}

/// An empty folder of a test's own.
fn folder(name: &str) -> Apart {
    Apart::new(&format!("store-{name}"))
}

/// The names of what a folder has.
fn names(folder: &Path) -> Vec<OsString> {
    let entries = fs::read_dir(folder).expect("the folder");
    let mut names: Vec<OsString> = entries
        .map(|entry| entry.expect("an entry").file_name())
        .collect();
    names.sort();
    names
}

/// Stores the example's plan in a file.
fn store(out: &Path) -> Output {
    let words = [
        OsStr::new("store"),
        OsStr::new("-"),
        OsStr::new("-o"),
        out.as_os_str(),
    ];
    run(&words, &EXAMPLE)
}

#[test]
fn a_plan_there_and_back() {
    let folder = folder("there-and-back");
    let (plan, signature) = (folder.join("plan"), folder.join("signature"));
    fs::write(&signature, EXAMPLE).expect("the signature");
    prints(&store(&plan), 0, "stored 40 bytes\n");
    assert_eq!(fs::read(&plan).expect("the plan"), PLAN);
    assert_eq!(names(&folder), ["plan", "signature"]);
    let [plan, signature] = [&plan, &signature].map(|file| file.as_os_str());
    let check = OsStr::new("check");
    let dash = OsStr::new("-");
    prints(&run(&[check, plan, signature], b""), 0, "fresh\n");
    prints(&run(&[check, plan, dash], &EXAMPLE), 0, "fresh\n");
    prints(&run(&[check, dash, signature], &PLAN), 0, "fresh\n");
    // the words of `store` in another order, and a file that begins like an option
    let words = ["store", "-o"].map(OsStr::new);
    let words = [&words[..], &[plan, OsStr::new("--"), signature]].concat();
    prints(&run(&words, b""), 0, "stored 40 bytes\n");
    let hex = b"01 0001 01 020000 03 0008 10 0001 04 11 0001 01 # PPC64";
    let words = [check, OsStr::new("--hex"), plan, dash];
    prints(&run(&words, hex), 0, "fresh\n");
    // what was there is replaced
    let other = [1, 0, 1, 2, 2, 0, 0, 3, 0, 0];
    let words = [OsStr::new("store"), dash, OsStr::new("-o"), plan];
    prints(&run(&words, &other), 0, "stored 16 bytes\n");
    prints(&run(&[check, plan, dash], &other), 0, "fresh\n");
    assert_eq!(names(&folder), ["plan", "signature"]);
}

/// What a check says of these stored bytes.
fn checked(stored: &[u8]) -> Output {
    let folder = Path::new(env!("CARGO_TARGET_TMPDIR"));
    let file = folder.join("store-checked");
    fs::write(&file, EXAMPLE).expect("the signature");
    run(
        &[OsStr::new("check"), OsStr::new("-"), file.as_os_str()],
        stored,
    )
}

#[test]
fn what_a_stored_plan_is_stale_in() {
    let changed = |at: usize, value: u8| {
        let mut plan = PLAN;
        plan[at] = value;
        checked(&plan)
    };
    let stale = |output: &Output, text: &str| prints(output, 1, &format!("stale at {text}\n"));
    stale(
        &changed(0, 0x21),
        "0, in the signature: 21 stored, 20 today",
    );
    stale(&changed(16, 6), "16, in the signature: 06 stored, 04 today");
    stale(&changed(26, 4), "26, in argument 0: 04 stored, 03 today");
    stale(&changed(29, 0), "29, in argument 1: 00 stored, 21 today");
    stale(&changed(36, 16), "36, in argument 1: 10 stored, 08 today");
    stale(&changed(39, 5), "39, in the result: 05 stored, 00 today");
    stale(
        &checked(b""),
        "0, in the signature: the stored plan ends there",
    );
    stale(
        &checked(&PLAN[..30]),
        "30, in argument 1: the stored plan ends there",
    );
    stale(
        &checked(&PLAN[..39]),
        "39, in the result: the stored plan ends there",
    );
    stale(
        &checked(&[&PLAN[..], &[0]].concat()),
        "40, after the result: the stored plan goes on",
    );
}

#[test]
fn a_refused_signature() {
    let folder = folder("refused");
    let plan = folder.join("plan");
    fs::write(&plan, b"as it was").expect("a file");
    let plan = plan.as_os_str();
    let words = [OsStr::new("store"), OsStr::new("-"), OsStr::new("-o"), plan];
    prints(&run(&words, &EXAMPLE[..17]), 1, "refused 2 at 7 after 2\n");
    assert_eq!(fs::read(plan).expect("the file"), b"as it was");
    let new = folder.join("new");
    let words = [
        OsStr::new("store"),
        OsStr::new("-"),
        OsStr::new("-o"),
        new.as_os_str(),
    ];
    prints(&run(&words, &EXAMPLE[..17]), 1, "refused 2 at 7 after 2\n");
    assert_eq!(names(&folder), ["plan"]);
    // a check has no answer then
    let words = [OsStr::new("check"), plan, OsStr::new("-")];
    complains(
        &run(&words, &EXAMPLE[..17]),
        "standard input: refused 2 at 7 after 2",
    );
    // by the later edition, twelve doubles before a long double
    let mut unclear = vec![1, 0, 1, 4, 2, 0, 0, 3, 0, 52];
    unclear.extend([0x11, 0, 1, 1].repeat(12));
    unclear.extend([0x11, 0, 1, 2]);
    complains(&run(&words, &unclear), "refused 29 at 58 after 0");
}

#[test]
fn nothing_is_left_behind_where_writing_fails() {
    let folder = folder("failing");
    complains(&store(&folder), "not a regular file");
    complains(&store(&folder.join("none/plan")), "plan\": No such file");
    complains(&store(&folder.join("..")), "not a regular file");
    complains(&store(Path::new("/dev/null")), "not a regular file");
    let nowhere = folder.join("nowhere");
    symlink("none", &nowhere).expect("a link");
    complains(&store(&nowhere), "a link that leads nowhere");
    assert_eq!(names(&folder), ["nowhere"]);
    // a file system without room: no file may have a byte
    let plan = folder.join("plan");
    fs::write(&plan, b"as it was").expect("a file");
    for out in [&plan, &folder.join("new")] {
        let script = "trap '' XFSZ; ulimit -f 0; exec \"$@\"";
        let signature = Path::new(env!("CARGO_TARGET_TMPDIR")).join("store-failing-signature");
        fs::write(&signature, EXAMPLE).expect("the signature");
        let output = Command::new("bash")
            .args(["-c", script, "bash"])
            .arg(command())
            .arg("store")
            .arg(signature)
            .arg("-o")
            .arg(out)
            .output();
        complains(&output.expect("bash starts"), "File too large");
    }
    assert_eq!(names(&folder), ["nowhere", "plan"]);
    assert_eq!(fs::read(&plan).expect("the file"), b"as it was");
}

#[test]
fn a_link_and_permissions_stay() {
    let folder = folder("link");
    let (plan, link) = (folder.join("plan"), folder.join("link"));
    fs::write(&plan, b"as it was").expect("a file");
    fs::set_permissions(&plan, fs::Permissions::from_mode(0o640)).expect("its permissions");
    symlink("plan", &link).expect("a link");
    prints(&store(&link), 0, "stored 40 bytes\n");
    assert_eq!(fs::read_link(&link).expect("a link"), Path::new("plan"));
    assert_eq!(fs::read(&plan).expect("the plan"), PLAN);
    let mode = fs::metadata(&plan).expect("a file").permissions().mode();
    assert_eq!(mode & 0o777, 0o640);
    assert_eq!(names(&folder), ["link", "plan"]);
}

#[test]
fn a_file_without_a_folder_is_in_the_folder_at_hand() {
    let folder = folder("at-hand");
    let signature = folder.join("signature");
    fs::write(&signature, EXAMPLE).expect("the signature");
    let output = Command::new(command())
        .args(["store", "signature", "-o", "plan"])
        .current_dir(&*folder)
        .output();
    prints(&output.expect("the command starts"), 0, "stored 40 bytes\n");
    assert_eq!(fs::read(folder.join("plan")).expect("the plan"), PLAN);
    assert_eq!(names(&folder), ["plan", "signature"]);
}

#[test]
fn words_that_are_wrong() {
    let takes = "store takes one FILE ('-' is standard input) and -o OUT";
    for words in [
        &["store"][..],
        &["store", "-"],
        &["store", "-o", "out"],
        &["store", "-", "-", "-o", "out"],
        &["store", "--", "-", "-o", "out"],
    ] {
        complains(&run(words, &EXAMPLE), takes);
    }
    complains(
        &run(&["store", "-", "-o"], &EXAMPLE),
        "nothing after \"-o\"",
    );
    let twice = ["store", "-", "-o", "a", "-o", "b"];
    complains(&run(&twice, &EXAMPLE), "\"-o\" twice");
    let dash = ["store", "-", "-o", "-"];
    complains(&run(&dash, &EXAMPLE), "-o takes the name of a file");
    let picture = ["store", "--picture", "-", "-o", "out"];
    complains(&run(&picture, &EXAMPLE), "unknown option \"--picture\"");
    let takes = "check takes STORED SIGNATURE ('-' is standard input)";
    for words in [&["check"][..], &["check", "-"], &["check", "-", "-", "-"]] {
        complains(&run(words, &EXAMPLE), takes);
    }
    let both = "standard input can't be both STORED and SIGNATURE";
    complains(&run(&["check", "-", "-"], &EXAMPLE), both);
    complains(
        &run(&["check", "-", "not-there"], &PLAN),
        "\"not-there\": No such file",
    );
    complains(
        &run(&["list", "-o", "out", "-"], &EXAMPLE),
        "unknown option \"-o\"",
    );
}

/// The examples: each has its plan, the same in hexadecimal, whose first line is the command, and what
/// the command prints.
#[test]
fn the_examples() {
    let root = Path::new(env!("CARGO_MANIFEST_DIR")).join("../..");
    let examples = root.join("examples/stored");
    let mut outputs = Vec::new();
    for name in names(&examples) {
        let file = examples.join(&name);
        if file.extension() != Some(OsStr::new("hex")) {
            continue;
        }
        let text = fs::read_to_string(&file).expect("an example");
        let line = text.lines().next().expect("a first line");
        let words = line.strip_prefix("# flakuzhen ").expect("the command");
        let words: Vec<&str> = words.split(' ').collect();
        let [check, hex, plan, signature] = words[..] else {
            panic!("{line}");
        };
        assert_eq!((check, hex), ("check", "--hex"));
        assert_eq!(Path::new(plan), Path::new(&name).with_extension("plan"));
        let stored = fs::read(examples.join(plan)).expect("the plan");
        assert_eq!(decoded(&text), stored, "{name:?}");
        let output = Command::new(command())
            .args(&words)
            .current_dir(&examples)
            .output()
            .expect("the command starts");
        let expected = fs::read_to_string(file.with_extension("out")).expect("its output");
        let fresh = expected == "fresh\n";
        prints(&output, i32::from(!fresh), &expected);
        if fresh {
            let out = Path::new(env!("CARGO_TARGET_TMPDIR")).join("store-example");
            let output = Command::new(command())
                .args(["store", "--hex", signature, "-o"])
                .arg(&out)
                .current_dir(&examples)
                .output()
                .expect("the command starts");
            prints(&output, 0, &format!("stored {} bytes\n", stored.len()));
            assert_eq!(fs::read(out).expect("the plan"), stored);
        }
        outputs.push(expected);
    }
    assert_eq!(names(&examples).len(), 3 * outputs.len());
    let stale = outputs.iter().filter(|text| text.starts_with("stale"));
    assert_eq!((outputs.len(), stale.count()), (7, 4));
}

/// The bytes that hexadecimal text says.
fn decoded(text: &str) -> Vec<u8> {
    let code = text
        .lines()
        .map(|line| line.split('#').next().unwrap_or(""));
    let digits: Vec<u8> = code
        .flat_map(|code| code.bytes())
        .filter(|byte| !byte.is_ascii_whitespace())
        .collect();
    let byte = |pair: &[u8]| {
        let pair = std::str::from_utf8(pair).expect("digits");
        u8::from_str_radix(pair, 16).expect("two digits")
    };
    digits.chunks(2).map(byte).collect()
}
