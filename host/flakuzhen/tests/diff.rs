//! `flakuzhen diff`: two signatures of one function, told argument by argument.

mod support;

use std::path::{Path, PathBuf};
use std::process::Output;
use support::{complains, file, prints};

fn diff(words: &[&str], input: &[u8]) -> Output {
    let words = [&["diff"], words].concat();
    support::run(support::command(), &words, input)
}

fn examples(folder: &str) -> PathBuf {
    let root = Path::new(env!("CARGO_MANIFEST_DIR")).join("../..");
    root.join("examples").join(folder)
}

fn example(name: &str) -> String {
    let path = examples("diffs").join(name);
    path.to_str()
        .expect("a path that can be printed")
        .to_string()
}

/// The examples, and what each of them comes to.
const EXAMPLES: [(&str, i32, &str); 5] = [
    ("aix-put-in-front", 1, "something moved\n"),
    ("ppc64-grown", 0, "only appends\n"),
    ("ppc64-variable", 1, "something moved\n"),
    ("ppc64b-unsigned", 0, "nothing moved\n"),
    ("z-larger-result", 1, "something moved\n"),
];

#[test]
fn the_examples() {
    for (name, status, verdict) in EXAMPLES {
        let [old, new] = ["old", "new"].map(|which| example(&format!("{name}.{which}.hex")));
        let stored = std::fs::read_to_string(example(&format!("{name}.out"))).expect("its output");
        assert!(stored.ends_with(verdict), "{name}");
        prints(&diff(&["--hex", &old, &new], b""), status, &stored);
    }
    let files = std::fs::read_dir(examples("diffs")).expect("the folder of examples");
    assert_eq!(files.count(), 3 * EXAMPLES.len());
}

/// PPC64, no result, these arguments.
fn signature(arguments: &[u8]) -> Vec<u8> {
    let head = [1, 0, 1, 1, 2, 0, 0, 3, 0, arguments.len() as u8];
    [&head, arguments].concat()
}

const I32: [u8; 4] = [0x10, 0, 1, 4];
const DOUBLE: [u8; 4] = [0x11, 0, 1, 1];

#[test]
fn arguments_that_come_and_go() {
    let none = file("diff-none", &signature(&[]));
    let both = signature(&[I32, DOUBLE].concat());
    let output = diff(&[&none, "-"], &both);
    let text = "\
0 new r3 @0 value 0..4
1 new f1 @8 value 4..12
result kept none
area 64
values 0 to 12
copies 0
only appends
";
    prints(&output, 0, text);
    let output = diff(&["-", &none], &both);
    let text = "\
0 gone r3 @0 value 0..4
1 gone f1 @8 value 4..12
result kept none
area 64
values 12 to 0
copies 0
something moved
";
    prints(&output, 1, text);
    let text = "\
result kept none
area 64
values 0
copies 0
the same signature
";
    prints(&diff(&[&none, "-"], &signature(&[])), 0, text);
}

#[test]
fn arguments_in_another_order() {
    let old = file("diff-order", &signature(&[I32, DOUBLE].concat()));
    let text = "\
0 moved r3 @0 value 0..4 to f1 @0 value 0..8
1 moved f1 @8 value 4..12 to r4 @8 value 8..12
result kept none
area 64
values 12
copies 0
something moved
";
    prints(
        &diff(&[&old, "-"], &signature(&[DOUBLE, I32].concat())),
        1,
        text,
    );
}

/// The same names in another convention are no places kept.
#[test]
fn another_convention() {
    let old = file("diff-convention", &signature(&I32));
    let mut new = signature(&I32);
    new[3] = 3;
    let text = "\
call PPC64 to AIX
0 kept r3 @0 value 0..4
result kept none
area 64 to 32
values 4
copies 0
something moved
";
    prints(&diff(&[&old, "-"], &new), 1, text);
}

#[test]
fn what_is_no_input() {
    let good = file("diff-good", &signature(&I32));
    for words in [&[][..], &["-"], &[&good, &good, &good]] {
        complains(&diff(words, b""), "diff takes OLD NEW");
    }
    complains(&diff(&["-", "-"], b""), "standard input can't be both");
    complains(&diff(&["--picture", &good, "-"], b""), "\"--picture\"");
    complains(&diff(&[&good, "not-there"], b""), "\"not-there\"");
    let cut = &signature(&I32)[..13];
    complains(
        &diff(&[&good, "-"], cut),
        "standard input: refused 2 at 7 after 2",
    );
    // in text and hexadecimal it is told where
    let deep = "z void(u8,\n {longdouble})";
    complains(
        &diff(&["--text", "-", "not-there"], deep.as_bytes()),
        "\"not-there\"",
    );
    let text = file("diff-deep.sig", deep.as_bytes());
    complains(
        &diff(&[&text, &good], b""),
        "line 2, column 3: \"longdouble\": refused 5 at 17 after 5: FZ_LONG_DOUBLE_IN_STRUCT (5)",
    );
    complains(
        &diff(&["--hex", &text, "-"], b"01\n 0001 01"),
        "line 2, column 3: \"longdouble\": refused 5",
    );
    complains(
        &diff(&["--hex", "-", &text], b"01 0001 01\n 05 0000"),
        "standard input: line 2, column 2: refused 3 at 4 after 1: FZ_UNEXPECTED_TAG (3)",
    );
    let cut = file("diff-cut", cut);
    complains(
        &diff(&[&cut, &good], b""),
        "diff-cut\": refused 2 at 7 after 2",
    );
}
