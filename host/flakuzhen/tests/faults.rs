//! Inputs of all kinds, whole, damaged and wrong: whatever they are, the command ends with status 0, 1
//! or 2, says what it says in whole lines, and prints nothing where the status is 2.

mod support;

use std::path::{Path, PathBuf};
use support::{command, root, run};

/// Runs the command, and gives its exit status.
fn ends(words: &[&str], input: &[u8]) -> i32 {
    let output = run(command(), words, input);
    let status = output.status.code().expect("an exit status");
    let told = format!("{words:?}, {}: {output:?}", input.escape_ascii());
    support::says_only_in_whole_lines(&output);
    match status {
        0 => assert!(output.stderr.is_empty(), "{told}"),
        1 => assert!(!output.stderr.is_empty(), "{told}"),
        2 => {
            assert!(output.stdout.is_empty(), "{told}");
            assert_eq!(
                output.stderr.iter().filter(|&&byte| byte == b'\n').count(),
                1,
                "{told}"
            );
        }
        _ => panic!("{told}"),
    }
    assert!(
        output.stdout.is_empty() || output.stdout.ends_with(b"\n"),
        "{told}"
    );
    status
}

/// The examples in a folder whose names end so.
fn examples(folder: &str, ending: &str) -> Vec<PathBuf> {
    let folder = root().join("examples").join(folder);
    let entries = std::fs::read_dir(folder).expect("the folder of examples");
    let paths = entries.map(|entry| entry.expect("an example").path());
    let mut paths: Vec<PathBuf> = paths
        .filter(|path| path.extension().is_some_and(|its| its == ending))
        .collect();
    paths.sort();
    assert!(!paths.is_empty());
    paths
}

/// The signatures of the examples, as they are stored.
fn signatures() -> Vec<PathBuf> {
    examples("signatures", "hex")
}

/// The lists of calls.
fn replays() -> Vec<PathBuf> {
    examples("replays", "calls")
}

/// The path as a word of a command.
fn word(path: &Path) -> &str {
    path.to_str().expect("a path that can be printed")
}

const COMMANDS: [&str; 2] = ["list", "read"];

#[test]
fn the_examples() {
    let paths = signatures();
    let names: Vec<&str> = paths.iter().map(|path| word(path)).collect();
    for command in COMMANDS {
        for name in &names {
            ends(&[command, "--hex", name], b"");
            // comments and digits are bytes too
            ends(&[command, name], b"");
        }
        let all = [&[command, "--hex", "-"], &names[..]].concat();
        assert_eq!(ends(&all, b"01 00"), 1);
        assert_eq!(ends(&[command, "-", names[0]], b""), 1);
    }
}

#[test]
fn damaged_text() {
    for path in signatures() {
        let text = std::fs::read(&path).expect("an example");
        // every beginning, and at some places a byte that does not belong there
        for length in 0..text.len() {
            if length % 5 == 0 {
                ends(&["list", "--hex"], &text[..length]);
            }
            if length % 7 == 0 {
                let mut other = text.clone();
                other[length] = b"0f1#g \n\r\t\x0c\x0b\\'\"\x00\x7f\xc3"[length / 7 % 17];
                ends(&["read", "--hex"], &other);
            }
        }
    }
}

#[test]
fn bytes_of_all_kinds() {
    for command in COMMANDS {
        let hidden = [
            1, 0, 1, 2, 2, 0, 7, 0x12, 0, 4, 0x10, 0, 1, 6, 3, 0, 4, 0x11, 0, 1, 0,
        ];
        assert_eq!(ends(&[command], &hidden), 0);
        assert_eq!(ends(&[command, "-", "-"], &hidden), 1);
        for at in 0..hidden.len() {
            ends(&[command], &hidden[..at]);
            let mut other = hidden;
            other[at] ^= 3;
            ends(&[command, "--"], &other);
        }
        for length in [
            0,
            16_383,
            16_384,
            16_385,
            (1 << 20) - 1,
            1 << 20,
            (1 << 20) + 1,
        ] {
            ends(&[command], &vec![0; length]);
            ends(&[command, "--hex"], &vec![b' '; length]);
        }
    }
}

#[test]
fn words_that_are_wrong() {
    assert_eq!(ends(&[], b""), 2);
    for word in [
        "reed",
        "--hex",
        "",
        "two\nlines",
        "a \"quote\" \\ '\t\r\x1b",
        "Z\u{e9}ro",
    ] {
        assert_eq!(ends(&[word], b""), 2);
        for command in ["list", "read", "replay"] {
            assert_eq!(ends(&[command, word, "not-there"], b""), 2);
            assert_eq!(ends(&[command, "--", word], b""), 2);
            let option = format!("--{word}!");
            assert_eq!(ends(&[command, &option, "--"], b""), 2);
        }
    }
    for command in COMMANDS {
        ends(&[command, env!("CARGO_MANIFEST_DIR")], b"");
        ends(&[command, "--hex", "--hex", "--", "-"], b"01");
    }
    assert_eq!(ends(&["read", "--picture"], b""), 2);
    for words in [
        &["replay"][..],
        &["replay", "--"],
        &["replay", "-", "-"],
        &["replay", "--hex", "-"],
        &["replay", "-", "--hex"],
        &["replay", "-x"],
        &["replay", env!("CARGO_MANIFEST_DIR")],
    ] {
        assert_eq!(ends(words, b"start z 4096 0"), 2);
    }
    assert_eq!(ends(&["replay", "--", "-"], b"start z 4096 0"), 0);
}

#[test]
fn the_examples_replayed() {
    for path in replays() {
        let text = std::fs::read(&path).expect("an example");
        let refused = std::fs::read_to_string(path.with_extension("out")).expect("its output");
        let refused: Vec<usize> = refused
            .lines()
            .filter(|line| line.contains(": refused "))
            .filter_map(|line| line.split(' ').next()?.parse().ok())
            .collect();
        let status = i32::from(!refused.is_empty());
        assert_eq!(ends(&["replay", word(&path)], b""), status);
        assert_eq!(ends(&["replay", "-"], &text), status);
        // without what is refused: the numbers of the lines show which those are
        let lines = text.split(|&byte| byte == b'\n').enumerate();
        let accepted: Vec<&[u8]> = lines
            .filter(|(index, _)| !refused.contains(&(index + 1)))
            .map(|(_, line)| line)
            .collect();
        assert_eq!(ends(&["replay", "-"], &accepted.join(&b'\n')), 0);
    }
}

#[test]
fn damaged_lists_of_calls() {
    let marks = b"09axg=#. \n\r\t\x0c\x0b\\'\"\x00\x7f\xc3";
    for path in replays() {
        let text = std::fs::read(&path).expect("an example");
        for length in 0..text.len() {
            if length % 5 == 0 {
                ends(&["replay", "-"], &text[..length]);
            }
            if length % 3 == 0 {
                let mut other = text.clone();
                other[length] = marks[length / 3 % marks.len()];
                ends(&["replay", "-"], &other);
            }
        }
    }
}

/// A line between a start and a leave.
fn ends_of_line(line: &[u8]) -> i32 {
    let list = [b"start ppc64 4096 0x10000\n#\n", line, b"\nleave\n"].concat();
    ends(&["replay", "-"], &list)
}

#[test]
fn calls_of_all_kinds() {
    let lines = [
        "enter g=32 m=32",
        "enter leaf g=32 m=32",
        "enter cr=1 g=14 leaf m=14",
        "\tenter  out=0x10 locals=0x7D0 m=14 cr=1 g=14 \r",
        "enter g=00000000000000000000000000029 m=0x0000000000000000000000000000001e",
        "start z 0x1000 0",
        "start z 256 18446744073709551344",
        "start aix 288 4294966992",
        "write r0 0xffffffffffffffff",
        "write r012 18446744073709551615",
        "write f13 1",
        "write lr 0",
        "write cr0 15",
        "write mem 0x10fc0 00 11 aAbBcC",
        "write mem 0x10fc0 00#11",
    ];
    for line in lines {
        let list = ["start ppc64 4096 0x10000", line].join("\n");
        assert_eq!(ends(&["replay", "-"], list.as_bytes()), 0, "{line}");
    }
    let refused = [
        "start ppc64 0 0",
        "start z 255 0",
        "start z 1048576 0",
        "start z 65552 0",
        "start z 256 18446744073709551600",
        "start ppc64 256 8",
        "enter g=0 m=0",
        "enter leaf g=32 m=32 locals=1",
        "start z 4096 0\nenter leaf g=14 m=16",
        "start aix 272 0",
        "start aix 288 4294967008",
        "start aix 4096 0\nenter g=12 m=32",
        "start aix 4096 0\nwrite r3 0x100000000",
        "enter leaf g=32 m=32\nenter g=32 m=32",
        "enter g=32 m=32 cr=2",
        "enter g=32 m=32 locals=18446744073709551615 out=0xffffffffffffffff",
        "write r32 1",
        "write f18446744073709551615 1",
        "write r1 1",
        "write cr8 1",
        "write mem 0xffffffffffffffff 00",
        "leave",
    ];
    for line in refused {
        assert_eq!(ends_of_line(line.as_bytes()), 1, "{line}");
        // and whatever is called after it
        for next in ["enter g=32 m=32", "write r3 1", "write mem 0x10fc0 00"] {
            ends_of_line([line, next].join("\n").as_bytes());
        }
    }
    // frames to the most, and one more; bytes of a write to the most, and one more
    let enters = "enter g=32 m=32\n".repeat(33);
    let leaves = "leave\n".repeat(33);
    let list = format!("start ppc64 65536 0x10000\n{enters}{leaves}");
    assert_eq!(ends(&["replay", "-"], list.as_bytes()), 1);
    for count in [256, 257] {
        let list = format!(
            "start ppc64 4096 0\nenter g=32 m=32 out=512\nwrite mem 3552 {}\n",
            "5a".repeat(count)
        );
        assert_eq!(
            ends(&["replay", "-"], list.as_bytes()),
            i32::from(count > 256)
        );
    }
}

#[test]
fn lines_that_are_wrong() {
    let lines: [&[u8]; 62] = [
        b"jump",
        b"Leave",
        b"leaves",
        b"leave now",
        b"start",
        b"start z",
        b"start ppc64 4096",
        b"start ppc64 4096 0 0",
        b"start aix 4096",
        b"start aix64 4096 0",
        b"start ppc32 4096 0",
        b"start Z 1048577 x",
        b"start z 1048577 x",
        b"start z 18446744073709551616 0",
        b"start z -16 0",
        b"start z 4096 x",
        b"enter",
        b"enter m=30",
        b"enter g=29",
        b"enter g=29 m=30 g=x",
        b"enter g=29 m=30 x=1",
        b"enter g=29 m=30 =1",
        b"enter g=29 m=30 locals",
        b"enter g=29 m=30 locals=1=2",
        b"enter g=29 m=30 out=8 cr",
        b"enter g=29 m=30 =",
        b"enter g= m=30",
        b"enter g=0x m=30",
        b"enter g=0X1 m=30",
        b"enter g=0x1g m=30",
        b"enter g=1f m=30",
        b"enter g=+29 m=30",
        b"enter g=0x10000000000000000 m=30",
        b"enter g=18446744073709551616x m=30",
        b"enter g=99999999999999999999999999999999999999999 m=30",
        b"enter g=29 m=30 m=30",
        b"write",
        b"write r29",
        b"write mem",
        b"write r29 1 2",
        b"write x1 1",
        b"write x y",
        b"write r 1",
        b"write 5 1",
        b"write r+1 1",
        b"write r0x1 1",
        b"write lr0 1",
        b"write cr 1",
        b"write mem1 1",
        b"write r18446744073709551616 x",
        b"write r1 18446744073709551616",
        b"write r1 one",
        b"write mem 0",
        b"write mem x 0",
        b"write mem 0 0g",
        b"write mem 0 1",
        b"write mem 0 00 123",
        b"write mem 0 00 12'",
        b"write mem 0 0\x00",
        b"write mem 0 \xc3\xa9",
        b"\x00\x01\x0b\x1f\x7f\"\\'\xc3\xa9\xe2\x82\xac\xf0\x9f\x98\x80",
        b"write r1\x0b 1",
    ];
    for line in lines {
        assert_eq!(ends_of_line(line), 2, "{}", line.escape_ascii());
        // the same as the first line of all
        ends(&["replay", "-"], line);
    }
    for first in ["leave", "enter g=32 m=32", "write r3 1", "write mem 0 00"] {
        assert_eq!(ends(&["replay", "-"], first.as_bytes()), 2);
        let later = format!("# a comment\n\n {first}\nstart z 4096 0\n");
        assert_eq!(ends(&["replay", "-"], later.as_bytes()), 2);
    }
}

#[test]
fn lines_that_are_no_text() {
    let texts: [(&[u8], bool); 19] = [
        (b"\x7f", true),
        (b"\x80", false),
        (b"\xbf", false),
        (b"\xc1\xbf", false),
        (b"\xc2", false),
        (b"\xc2\x41", false),
        (b"\xc3\xa9", true),
        (b"\xe0\x9f\xbf", false),
        (b"\xe0\xa4\x84", true),
        (b"\xe2\x82", false),
        (b"\xed\x9e\xa3", true),
        (b"\xed\xa0\x80", false),
        (b"\xef\xbf\xbd", true),
        (b"\xf0\x8f\xbf\xbf", false),
        (b"\xf0\x90\x80\x80", true),
        (b"\xf4\x8f\xbf", false),
        (b"\xf4\x90\x80\x80", false),
        (b"\xf8\x90\x80\x80", false),
        (b"\xf8\x88\x80\x80\x80", false),
    ];
    for (text, is_text) in texts {
        assert_eq!(std::str::from_utf8(text).is_ok(), is_text);
        // a word of the line, and the line's end
        assert_eq!(ends_of_line(&[b"leave ", text, b" 1"].concat()), 2);
        assert_eq!(ends_of_line(&[b"jump", text].concat()), 2);
        // and a comment, which may be any bytes
        assert_eq!(ends_of_line(&[b"leave #", text].concat()), 1);
    }
}

#[test]
fn lists_of_all_sizes() {
    for length in [0, 1, (1 << 20) - 1, 1 << 20, (1 << 20) + 1] {
        ends(&["replay", "-"], &vec![b'\n'; length]);
        ends(&["replay", "-"], &vec![b'x'; length]);
        let digits = [b"start z 4096 ", &vec![b'0'; length][..]].concat();
        ends(&["replay", "-"], &digits);
    }
    let calls = [b"start z 256 0\n", &b"leave\n".repeat(170_000)[..]].concat();
    assert_eq!(ends(&["replay", "-"], &calls), 1);
}
