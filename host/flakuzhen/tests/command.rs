//! The command: what it prints, where, and with which exit status.

mod support;

use std::ffi::OsStr;
use std::path::{Path, PathBuf};
use std::process::Output;
use support::complains;

const EXAMPLE: [u8; 18] = [1, 0, 1, 1, 2, 0, 0, 3, 0, 8, 0x10, 0, 1, 4, 0x11, 0, 1, 1];

/// Runs the command on these words, with these bytes as its standard input.
fn run<S: AsRef<OsStr>>(words: &[S], input: &[u8]) -> Output {
    support::run(support::command(), words, input)
}

/// As [`support::prints`], and where something is refused standard error says it in words.
fn prints(output: &Output, status: i32, text: &str) {
    support::prints(output, status, text);
    assert_eq!(status == 0, output.stderr.is_empty());
}

fn examples() -> PathBuf {
    Path::new(env!("CARGO_MANIFEST_DIR")).join("../../examples/signatures")
}

fn example(name: &str) -> String {
    let path = examples().join(name);
    path.to_str()
        .expect("a path that can be printed")
        .to_string()
}

#[test]
fn reads_the_examples() {
    let readings = [
        ("aix-lseek64.hex", 0, "items 7\n"),
        ("aix-moofunc.hex", 0, "items 12\n"),
        ("aix-printf.hex", 0, "items 12\n"),
        ("aix-straddling-struct.hex", 0, "items 21\n"),
        ("limit-128-arguments.hex", 0, "items 131\n"),
        ("limit-129-arguments.hex", 1, "refused 7 at 522 after 131\n"),
        ("limit-depth-8.hex", 0, "items 12\n"),
        ("limit-depth-9.hex", 1, "refused 6 at 34 after 11\n"),
        ("limit-struct-of-256-bytes.hex", 0, "items 36\n"),
        (
            "limit-struct-of-264-bytes.hex",
            1,
            "refused 8 at 10 after 36\n",
        ),
        ("ppc64-dgemm.hex", 0, "items 17\n"),
        ("ppc64-figure-3-18-var.hex", 0, "items 18\n"),
        ("ppc64-figure-3-18.hex", 0, "items 17\n"),
        ("ppc64-ldiv.hex", 0, "items 8\n"),
        ("ppc64-small-structs.hex", 0, "items 36\n"),
        ("ppc64-straddling-struct.hex", 0, "items 16\n"),
        ("ppc64-two-arguments.hex", 0, "items 5\n"),
        ("ppc64b-figure-3-18.hex", 0, "items 17\n"),
        ("ppc64b-printf.hex", 0, "items 12\n"),
        (
            "refused-aix-double-field.hex",
            1,
            "refused 25 at 17 after 5\n",
        ),
        ("refused-ellipsis-last.hex", 1, "refused 9 at 18 after 5\n"),
        (
            "refused-long-double-field.hex",
            1,
            "refused 5 at 17 after 5\n",
        ),
        ("refused-unclear-long-double.hex", 0, "items 10\n"),
        ("z-powl.hex", 0, "items 6\n"),
        ("z-printf.hex", 0, "items 10\n"),
        ("z-small-structs.hex", 0, "items 27\n"),
        ("z-table-10.hex", 0, "items 13\n"),
    ];
    for (name, status, text) in readings {
        prints(&run(&["read", "--hex", &example(name)], b""), status, text);
    }
    let names: Vec<&str> = readings.iter().map(|reading| reading.0).collect();
    assert_eq!(all_examples(), names);
}

/// The names of all signatures among the examples, in their order.
fn all_examples() -> Vec<String> {
    let folder = std::fs::read_dir(examples()).expect("the folder of examples");
    let names = folder.map(|entry| entry.expect("an example").file_name().into_string());
    let mut names: Vec<String> = names
        .map(|name| name.expect("a name that can be printed"))
        .filter(|name| name.ends_with(".hex"))
        .collect();
    names.sort();
    names
}

/// What stands next to the example's signature.
fn stored_listing(name: &str) -> String {
    stored(&examples().join(name), "listing")
}

fn stored_picture(name: &str) -> String {
    stored(&examples().join(name), "picture")
}

/// The text with this ending next to a file.
fn stored(file: &Path, ending: &str) -> String {
    let path = file.with_extension(ending);
    std::fs::read_to_string(&path).unwrap_or_else(|fault| panic!("{path:?}: {fault}"))
}

/// As document 004's figure 5 has it: "i1 is passed in GPR3", "f1 [..] in FPR1", "d1 [..] into FPR2",
/// "s1 [..] GPR7", "d2 [..] FPR3", "c1 [..] GPR10", "s2 is then passed in the parameter area", "f2 [..]
/// in FPR4", and "i2 is passed on the stack".
const MOO_FUNC: &str = "\
AIX args 9 area 44
0 r3 @0
1 f1 @4
2 f2 @8
3 r7 @16
4 f3 @20
5 r10 @28
6 mem @32
7 f4 @36
8 mem @40
result none
";

const FIGURE_3_18: &str = "\
PPC64 args 9 area 96
0 r3 @0
1 f1 @8
2 r5 @16
3 r6 r7 @24
4 r8 r9 @40
5 f2 @56
6 mem @64
7 mem @80
8 f3 @88
result r3
";

#[test]
fn lists_the_examples() {
    for name in all_examples() {
        let listing = stored_listing(&name);
        let status = i32::from(listing.starts_with("refused "));
        let output = run(&["list", "--hex", &example(&name)], b"");
        prints(&output, status, &listing);
    }
    // as document 01 has it
    assert_eq!(stored_listing("ppc64-figure-3-18.hex"), FIGURE_3_18);
    assert_eq!(stored_listing("aix-moofunc.hex"), MOO_FUNC);
}

#[test]
fn draws_the_examples() {
    for name in all_examples() {
        let picture = stored_picture(&name);
        let status = i32::from(picture.starts_with("refused "));
        let output = run(&["list", "--picture", "--hex", &example(&name)], b"");
        prints(&output, status, &picture);
    }
}

#[test]
fn draws_several_files_in_their_order() {
    let names = ["z-powl.hex", "refused-long-double-field.hex"];
    let [first, second] = names.map(example);
    let output = run(&["list", &first, "--hex", &second, "--picture"], b"");
    let [first_picture, second_picture] = names.map(stored_picture);
    let text = format!("{first}:\n{first_picture}\n{second}:\n{second_picture}");
    prints(&output, 1, &text);
    complains(&run(&["read", "--picture"], &EXAMPLE), "\"--picture\"");
}

#[test]
fn draws_a_call_without_arguments() {
    let z = [1, 0, 1, 2, 2, 0, 0, 3, 0, 0];
    let picture = "Z args 0 area 0\n\nresult none\n";
    prints(&run(&["list", "--picture"], &z), 0, picture);
    // its result is a struct of an i8
    let ppc64 = [1, 0, 1, 1, 2, 0, 7, 0x12, 0, 4, 0x10, 0, 1, 0, 3, 0, 0];
    let picture = "\
PPC64 args 0 area 64

registers    0   1   2   3   4   5   6   7
r3           h   h   h   h   h   h   h   h

area         0   1   2   3   4   5   6   7
@0                                          h is in r3
@8
@16
@24
@32
@40
@48
@56

result hidden r3
  h   the address for the result
";
    prints(&run(&["list", "--picture"], &ppc64), 0, picture);
    let mut aix = ppc64;
    aix[3] = 3;
    let picture = "\
AIX args 0 area 32

registers    0   1   2   3   4   5   6   7
r3           .   .   .   .   h   h   h   h

area         0   1   2   3
@0                          h is in r3
@4
@8
@12
@16
@20
@24
@28

result hidden r3
  .   fills up: zeros, or an integer's sign
  h   the address for the result
";
    prints(&run(&["list", "--picture"], &aix), 0, picture);
}

#[test]
fn lists_several_files_in_their_order() {
    let names = ["z-table-10.hex", "refused-long-double-field.hex"];
    let [first, second] = names.map(example);
    let output = run(&["list", &first, "--hex", &second, "-"], b"01 00");
    let [first_listing, second_listing] = names.map(stored_listing);
    let text = format!(
        "{first}:\n{first_listing}\n{second}:\n{second_listing}\n\
         standard input:\nrefused 2 at 0 after 0\n"
    );
    prints(&output, 1, &text);
}

#[test]
fn lists_bytes_from_standard_input() {
    let listing = "PPC64 args 2 area 64\n0 r3 @0\n1 f1 @8\nresult none\n";
    prints(&run(&["list"], &EXAMPLE), 0, listing);
    prints(&run(&["list", "-"], &EXAMPLE), 0, listing);
    prints(&run(&["list"], b""), 1, "refused 2 at 0 after 0\n");
    prints(&run(&["list"], &[0; 16_385]), 1, "refused 1 at 0 after 0\n");
}

#[test]
fn reads_several_files_in_their_order() {
    let first = example("z-table-10.hex");
    let second = example("refused-long-double-field.hex");
    let output = run(&["read", &first, "--hex", &second, "-"], b"01 00");
    let text = format!(
        "{first}: items 13\n{second}: refused 5 at 17 after 5\n\
         standard input: refused 2 at 0 after 0\n"
    );
    prints(&output, 1, &text);
}

#[test]
fn reads_bytes_from_standard_input() {
    prints(&run(&["read"], &EXAMPLE), 0, "items 5\n");
    prints(&run(&["read", "-"], &EXAMPLE), 0, "items 5\n");
    prints(&run(&["read"], b""), 1, "refused 2 at 0 after 0\n");
    prints(&run(&["read"], &[0; 16_385]), 1, "refused 1 at 0 after 0\n");
}

#[test]
fn unknown_words() {
    complains(&run::<&str>(&[], b""), "no command");
    complains(&run(&["reed"], b""), "\"reed\"");
    complains(&run(&["--hex"], b""), "\"--hex\"");
    complains(&run(&["two\nlines"], b""), "two\\nlines");
    for command in ["list", "read"] {
        complains(&run(&[command, "--hax"], &EXAMPLE), "\"--hax\"");
        complains(&run(&[command, "--", "--hex"], &EXAMPLE), "\"--hex\"");
    }
}

#[test]
fn files_that_are_not_there_print_nothing_of_the_others() {
    let there = example("z-table-10.hex");
    for command in ["list", "read"] {
        complains(
            &run(&[command, "--hex", &there, "not-there"], b""),
            "\"not-there\"",
        );
        complains(
            &run(&[command, env!("CARGO_MANIFEST_DIR")], b""),
            "directory",
        );
    }
}

#[test]
fn oversized_input() {
    for command in ["list", "read"] {
        complains(
            &run(&[command], &vec![0; (1 << 20) + 1]),
            "over 1048576 bytes",
        );
        prints(
            &run(&[command], &vec![0; 1 << 20]),
            1,
            "refused 1 at 0 after 0\n",
        );
    }
}

#[test]
fn text_that_is_no_hexadecimal() {
    for command in ["list", "read"] {
        complains(
            &run(&[command, "--hex"], b"01 0001\n0x"),
            "standard input: line 2, column 2: 'x'",
        );
        complains(
            &run(&[command, "--hex"], b"010"),
            "line 1, column 1: half a byte",
        );
    }
}

fn replays() -> PathBuf {
    Path::new(env!("CARGO_MANIFEST_DIR")).join("../../examples/replays")
}

#[test]
fn replays_the_examples() {
    let mut replayed = 0;
    for entry in std::fs::read_dir(replays()).expect("the folder of lists of calls") {
        let list = entry.expect("an entry").path();
        if list.extension() != Some(OsStr::new("calls")) {
            continue;
        }
        // each example shows a refusal
        let words = [OsStr::new("replay"), list.as_os_str()];
        prints(&run(&words, b""), 1, &stored(&list, "out"));
        let words = [&words[..], &[OsStr::new("--picture")]].concat();
        prints(&run(&words, b""), 1, &stored(&list, "picture"));
        let text = std::fs::read(&list).expect("the list");
        prints(&run(&["replay", "-"], &text), 1, &stored(&list, "out"));
        replayed += 1;
    }
    assert_eq!(replayed, 7);
}

#[test]
fn replays_each_call_and_says_the_stack_pointer_where_it_moves() {
    let list = b"\n# a comment\n  start ppc64 4096 0x10000 # and one more\r\n\
        \tenter g=29 m=30 cr=1 locals=20 out=64\nwrite r29 0x1234\nwrite f30 1\nwrite lr 2\n\
        write cr2 7\nwrite mem 0x10f10 0011 2233\nleave";
    let said = "3 start: accepted, stack pointer 0x10f90\n\
        4 enter: accepted, stack pointer 0x10ee0\n\
        5 write r29: accepted\n6 write f30: accepted\n7 write lr: accepted\n\
        8 write cr2: accepted\n9 write mem: accepted\n\
        10 leave: accepted, stack pointer 0x10f90\n";
    prints(&run(&["replay", "-"], list), 0, said);
    prints(&run(&["replay", "-"], b"# nothing\n\n"), 0, "");
    let list =
        b"start aix 288 0\nenter leaf g=13 m=14\nwrite r13 4294967295\nwrite r13 4294967296\n";
    let said = "1 start: accepted, stack pointer 0xe0\n2 enter: accepted, stack pointer 0xe0\n\
        3 write r13: accepted\n4 write r13: refused 20 at 0\n";
    prints(&run(&["replay", "-"], list), 1, said);
    let said = "1 start: refused 16 at 0\n2 leave: refused 23 at 0\n";
    prints(
        &run(&["replay", "-"], b"start z 1048576 0\nleave\n"),
        1,
        said,
    );
}

#[test]
fn a_bad_line_is_told_with_its_number_and_no_call_is_made() {
    let faults: [(&[u8], &str); 28] = [
        (b"jump", "\"jump\" is no call"),
        (b"Leave", "\"Leave\" is no call"),
        (b"leave now", "a leave has no words"),
        (b"start", "a start is 'start CONVENTION SIZE BASE'"),
        (b"start ppc64 4096", "a start is"),
        (b"start ppc64 4096 0 0", "a start is"),
        (
            b"start ppc32 4096 0",
            "\"ppc32\" is no convention: ppc64, z, aix or ppc64b",
        ),
        (b"start z 1048577 0", "a memory of over 1048576 bytes"),
        (b"start z -16 0", "\"-16\" is no number"),
        (b"enter m=30", "an enter without g="),
        (b"enter g=29", "an enter without m="),
        (b"enter g=29 m=30 g=29", "\"g\" twice"),
        (b"enter leaf g=29 m=30 leaf", "\"leaf\" twice"),
        (b"enter g=29 m=30 x=1", "\"x=1\" in an enter"),
        (b"enter g=29 m=30 cr", "\"cr\" in an enter"),
        (b"enter g= m=30", "\"\" is no number"),
        (b"enter g=0x m=30", "\"0x\" is no number"),
        (b"enter g=+29 m=30", "\"+29\" is no number"),
        (b"write", "a write is"),
        (b"write r29", "a write is"),
        (b"write r29 1 2", "a write is"),
        (b"write x1 1", "\"x1\" is nothing to write"),
        (b"write r 1", "\"r\" is nothing to write"),
        (b"write r+1 1", "\"r+1\" is nothing to write"),
        (
            b"write r1 18446744073709551616",
            "\"18446744073709551616\" is over 64 bits",
        ),
        (b"write mem 0", "a write of no bytes"),
        (b"write mem 0 0g", "'g' is no hexadecimal digit"),
        (b"write \xff 1", "this is no text"),
    ];
    for (line, fault) in faults {
        let list = [b"start z 4096 0\n\n", line, b"\nleave\nand another\n"].concat();
        complains(
            &run(&["replay", "-"], &list),
            &format!("standard input: line 3: {fault}"),
        );
    }
    complains(
        &run(&["replay", "-"], b"\nleave"),
        "line 2: \"leave\" before the first start",
    );
    let odd = b"start z 4096 0\nwrite mem 0 123";
    complains(&run(&["replay", "-"], odd), "line 2: half a byte");
}

#[test]
fn replay_takes_one_file() {
    complains(&run(&["replay"], b""), "replay takes one FILE");
    complains(&run(&["replay", "-", "-"], b""), "replay takes one FILE");
    complains(&run(&["replay", "--hex"], b""), "\"--hex\"");
    complains(&run(&["replay", "not-there"], b""), "\"not-there\"");
    complains(
        &run(&["replay", "-"], &vec![b'\n'; (1 << 20) + 1]),
        "over 1048576 bytes",
    );
}

/// Runs the dump of an example, with the words that its first line has.
fn run_dump(dump: &Path, more: &[&str]) -> Output {
    let text = std::fs::read_to_string(dump).expect("the dump");
    let line = text.lines().next().expect("its first line");
    let line = line.strip_prefix("# flakuzhen ").expect("a command");
    let (words, name) = line.rsplit_once(' ').expect("its file");
    assert_eq!(Some(OsStr::new(name)), dump.file_name());
    let words = words.split(' ').chain(more.iter().copied());
    let words: Vec<&OsStr> = words.map(OsStr::new).chain([dump.as_os_str()]).collect();
    run(&words, b"")
}

#[test]
fn walks_the_examples() {
    let folder = Path::new(env!("CARGO_MANIFEST_DIR")).join("../../examples/dumps");
    let mut walked = 0;
    for entry in std::fs::read_dir(folder).expect("the folder of dumps") {
        let dump = entry.expect("an entry").path();
        if dump.extension() != Some(OsStr::new("hex")) {
            continue;
        }
        let text = stored(&dump, "out");
        let status = i32::from(text.contains("\nrefused "));
        prints(&run_dump(&dump, &[]), status, &text);
        let picture = stored(&dump, "picture");
        prints(&run_dump(&dump, &["--picture"]), status, &picture);
        walked += 1;
    }
    assert_eq!(walked, 3);
}

#[test]
fn walks_bytes_from_standard_input() {
    let one = "1 0x0: back chain 0x0, saved lr 0x0\naccepted, 1 frame\n";
    prints(&run(&["dump", "ppc64", "0", "0", "-"], &[0; 48]), 0, one);
    let short = "refused 30 at 0x0\n";
    prints(
        &run(&["dump", "ppc64", "0", "0x0", "-"], &[0; 47]),
        1,
        short,
    );
    prints(
        &run(&["dump", "--picture", "z", "0", "0", "-"], b""),
        1,
        short,
    );
    let end = "refused 30 at 0xffffffffffffffff\n";
    let top = "18446744073709551615";
    prints(&run(&["dump", "aix", top, "0", "-"], b"0"), 1, end);
    prints(
        &run(&["dump", "--hex", "aix", top, top, "-"], b"00 # one"),
        1,
        end,
    );
    // 4,097 frames of 16 bytes: those before the last are shown
    let chain = (1..=4097u64).flat_map(|n| [16 * n % (16 * 4097), 0]);
    let memory: Vec<u8> = chain.flat_map(u64::to_be_bytes).chain([0; 32]).collect();
    let output = run(&["dump", "ppc64", "0", "0", "-"], &memory);
    let text = String::from_utf8_lossy(&output.stdout);
    assert!(text.ends_with("\n4096 0xfff0: back chain 0x10000, saved lr 0x0\nrefused 31 at 0x0\n"));
    assert_eq!(output.status.code(), Some(1));
    let output = run(&["dump", "ppc64", "0", "16", "-"], &memory);
    assert!(output.stdout.ends_with(b"\naccepted, 4096 frames\n"));
}

#[test]
fn dump_takes_four_words() {
    let memory = [0; 160];
    let takes = "dump takes CONVENTION BASE POINTER FILE";
    complains(&run(&["dump"], &memory), takes);
    complains(&run(&["dump", "z", "0", "0"], &memory), takes);
    complains(&run(&["dump", "z", "0", "0", "-", "-"], &memory), takes);
    let none = "\"Z\" is no convention: ppc64, z, aix or ppc64b";
    complains(&run(&["dump", "Z", "0", "0", "-"], &memory), none);
    complains(
        &run(&["dump", "z", "x", "0", "-"], &memory),
        "\"x\" is no number",
    );
    complains(
        &run(&["dump", "z", "0", "0x", "-"], &memory),
        "\"0x\" is no number",
    );
    complains(
        &run(&["dump", "z", "0", "0", "not-there"], b""),
        "\"not-there\"",
    );
    complains(
        &run(&["dump", "--hax", "z", "0", "0", "-"], b""),
        "\"--hax\"",
    );
    complains(
        &run(&["dump", "--hex", "z", "0", "0", "-"], b"0"),
        "half a byte",
    );
}
