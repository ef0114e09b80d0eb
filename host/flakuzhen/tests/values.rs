//! `flakuzhen values` and `flakuzhen fill`: a call's arguments with their places and values, held to what
//! the library fills and reads.

mod support;

use flakuzhen::Signature;
use std::path::Path;
use std::process::Output;
use support::{complains, file, prints, root, temporary};

fn run(words: &[&str], input: &[u8]) -> Output {
    support::run(support::command(), words, input)
}

/// A signature's file.
fn sig(name: &str, text: &str) -> String {
    file(&format!("{name}.sig"), text.as_bytes())
}

const PPC64: &str = "ppc64 i32(u32, single, {u8, u16, {double}}, pointer)";

#[test]
fn fills_and_prints_what_it_filled() {
    let sig = sig("filled", PPC64);
    let text = "\
PPC64 args 4 area 64
0 r3 @0 u32 = 7
    r3    0000000000000007
1 f1 @8 single = 1.5
    f1    3ff8000000000000
2 r5 r6 @16 {u8, u16, {double}} = {1, 2, {0.1}}
    r5    0100000200000000
    r6    3fb999999999999a
3 r7 @32 pointer = 0x1000
    r7    0000000000001000
result r3
";
    for values in [
        "7, 1.5, {1, 2, {0.1}}, 0x1000",
        "7 1.5 {1 2 {0.1}} 4096 # all",
        "# each on its line\n0x7\n1.5\n{ 1, 2, { 1e-1, }, },\n0x1000,\n",
    ] {
        prints(&run(&["fill", &sig, "-"], values.as_bytes()), 0, text);
    }
}

/// Files that fill has written, as bytes and in hexadecimal, give the same values again.
#[test]
fn values_reads_what_fill_wrote() {
    let calls = [
        (PPC64, "7 1.5 {1 2 {0.1}} 0x1000"),
        (
            "z longdouble({i64, i64, i64}, longdouble, single, i8, double, double, double, double)",
            "{-1 2 -9223372036854775808} 0.1 -0 -128 1 2 3 4",
        ),
        (
            "aix {u8}(u8, i8, u16, i16, u64, i64, pointer, single, double, ...)",
            "255 -128 65535 -32768 18446744073709551615 -1 0xffffffff inf -inf",
        ),
        (
            "ppc64b void(longdouble, longdouble, {{single}}, longdouble)",
            "bits:3ff00000000000003c00000000000000 2.5 {{nan:7f800001}} nan:7ff80000000000000000000000000001",
        ),
    ];
    for (number, (text, values)) in calls.iter().enumerate() {
        let sig = sig(&format!("written-{number}"), text);
        let [image, area, copies] =
            ["image", "area", "copies"].map(|what| temporary(&format!("{what}-{number}")));
        let [image, area, copies] =
            [&image, &area, &copies].map(|path| path.to_str().expect("a path that can be printed"));
        let files = [
            "--image", image, "--area", area, "--copies", copies, "--base", "0x10000",
        ];
        for form in [&[][..], &["--hex"]] {
            let words = [&["fill", &sig, "-", "--hidden", "99"], form, &files].concat();
            let filled = run(&words, values.as_bytes());
            assert_eq!(filled.status.code(), Some(0), "{filled:?}");
            let words = [&["values", &sig], form, &files].concat();
            assert_eq!(run(&words, b""), filled);
        }
        // what is printed is what was given: the values are told as they are read
        let said = run(&[&["values", "--hex", &sig], &files[..]].concat(), b"").stdout;
        let said = String::from_utf8(said).expect("a text");
        let back: Vec<&str> = said
            .lines()
            .filter_map(|line| line.split(" = ").nth(1))
            .collect();
        let words = [
            "fill", "--hex", &sig, "-", "--base", "0x10000", "--hidden", "99",
        ];
        prints(&run(&words, back.join("\n").as_bytes()), 0, &said);
    }
}

/// An image of zeros with these registers.
fn image(registers: &[(usize, u64)]) -> Vec<u8> {
    let mut image = vec![0; 512];
    for &(at, value) in registers {
        image[8 * at..8 * at + 8].copy_from_slice(&value.to_be_bytes());
    }
    image
}

/// The number of a floating register in the image.
const F: usize = 32;

#[test]
fn an_argument_that_cannot_be_read_is_told_and_the_others_follow() {
    let sig = sig(
        "unreadable",
        "ppc64 void(single, i32, double, i64, i64, i64, i64, i64, i64, ...)",
    );
    // f1 is no widened single, r5 is not what f2 is; the area ends before the last argument
    let half = 0x3ff0_0000_1000_0000;
    let image = image(&[(F + 1, half), (4, 5), (F + 2, 7), (5, 8), (6, 6)]);
    let image = file("unreadable.image", &image);
    let area = file("unreadable.area", &[0; 64]);
    let text = "\
PPC64 args 9 area 72 var
0 f1 r3 @0 single refused 14: the bits of a double that is no widened single
    f1    3ff0000010000000
    r3    0000000000000000
1 r4 @8 i32 = 5
    r4    0000000000000005
2 f2 r5 @16 double refused 26: a float's general registers hold other bytes than its floating register
    f2    0000000000000007
    r5    0000000000000008
3 r6 @24 i64 = 6
    r6    0000000000000006
4 r7 @32 i64 = 0
    r7    0000000000000000
5 r8 @40 i64 = 0
    r8    0000000000000000
6 r9 @48 i64 = 0
    r9    0000000000000000
7 r10 @56 i64 = 0
    r10   0000000000000000
8 mem @64 i64 refused 11: the buffer of parameters is shorter than the area
    @64   not given
result none
";
    let output = run(&["values", &sig, "--image", &image, "--area", &area], b"");
    prints(&output, 1, text);
}

#[test]
fn copies_are_looked_for_where_their_addresses_point() {
    let sig = sig("copies", "z void({i64, i64}, longdouble, i32)");
    let image = file(
        "copies.image",
        &image(&[(2, 0x10008), (3, 0x1_0011), (4, 9)]),
    );
    let copies: Vec<u8> = (0..32).collect();
    let copies = file("copies.copies", &copies);
    let text = "\
Z args 3 area 0
0 r2 ref {i64, i64} = {579005069656919567, 1157726452361532951}
    r2    0000000000010008
    0x10008 08090a0b0c0d0e0f1011121314151617
1 r3 ref longdouble refused 13: an address that does not lie in the copy buffer with all that it points at
    r3    0000000000010011
    0x10011 not given
2 r4 i32 = 9
    r4    0000000000000009
result none
";
    let words = [
        "values", &sig, "--image", &image, "--copies", &copies, "--base", "65536",
    ];
    prints(&run(&words, b""), 1, text);
}

#[test]
fn what_stands_where_no_argument_is_is_told() {
    let sig = sig("elsewhere", "ppc64 void(double, i32)");
    // the i32 was put in r3, as if the double took no general register; r14 passes no argument
    let image = file(
        "elsewhere.image",
        &image(&[(F + 1, 0), (3, 42), (14, 1), (F + 2, 2)]),
    );
    let mut area = [0; 64];
    area[8] = 1;
    let area = file("elsewhere.area", &area);
    let text = "\
PPC64 args 2 area 64
0 f1 @0 double = 0
    f1    0000000000000000
1 r4 @8 i32 = 0
    r4    0000000000000000
result none
not looked at
    r3    000000000000002a
    f2    0000000000000002
    @8    0100000000000000
";
    let output = run(&["values", &sig, "--image", &image, "--area", &area], b"");
    prints(&output, 0, text);
}

#[test]
fn the_same_for_programs() {
    let sig = sig("json", "ppc64 {u8}(single, {i64, {u8}}, double)");
    let image = image(&[
        (3, 0x77),
        (F + 1, 1),
        (5, u64::MAX),
        (6, 5 << 56),
        (F + 2, 0),
    ]);
    let image = file("json.image", &image);
    let text = r#"{"convention": "PPC64", "ellipsis": false, "area": 64, "copies": 0,
 "arguments": [
  {"number": 0, "type": "single", "places": [{"place": "f1", "bytes": "0000000000000001"}], "refused": {"number": 14, "name": "FZ_NOT_WIDENED", "meaning": "the bits of a double that is no widened single"}},
  {"number": 1, "type": "{i64, {u8}}", "places": [{"place": "r5", "bytes": "ffffffffffffffff"}, {"place": "r6", "bytes": "0500000000000000"}], "value": ["-1", ["5"]]},
  {"number": 2, "type": "double", "places": [{"place": "f2", "bytes": "0000000000000000"}], "value": "0"}],
 "result": {"place": "hidden r3", "hidden": {"place": "r3", "bytes": "0000000000000077"}},
 "not_looked_at": []}
"#;
    prints(
        &run(&["values", "--json", &sig, "--image", &image], b""),
        1,
        text,
    );
    // the same of what fill has made
    let made = temporary("json.made");
    let made = made.to_str().expect("a path that can be printed");
    let words = ["fill", "--json", &sig, "-", "--image", made];
    let filled = run(&words, b"1.5 {-1 {5}} 0");
    let read = run(&["values", "--json", &sig, "--image", made], b"");
    assert_eq!((filled.status.code(), &filled), (Some(0), &read));
}

#[test]
fn a_signature_or_a_filling_that_is_refused() {
    let image = file("refused.image", &[0; 512]);
    let bad = sig("refused", "aix void({double})");
    let output = run(&["values", &bad, "--image", &image], b"");
    prints(&output, 1, "refused 25 at 13 after 4\n");
    let said = String::from_utf8_lossy(&output.stderr);
    assert!(
        said.contains("line 1, column 11: \"double\": FZ_FLOAT_NOT_CARRIED (25)"),
        "{said}"
    );
    let output = run(&["fill", &bad, "-"], b"{1}");
    prints(&output, 1, "refused 25 at 13 after 4\n");
    // nothing is written where filling is refused
    let good = sig("filled-not", "aix {u8}()");
    let out = temporary("filled-not.image");
    let _ = std::fs::remove_file(&out);
    let out = out.to_str().expect("a path that can be printed");
    let words = [
        "fill",
        &good,
        "-",
        "--hidden",
        "0x100000000",
        "--image",
        out,
    ];
    let output = run(&words, b"");
    prints(&output, 1, "refused 12 at 0 after 0\n");
    assert!(String::from_utf8_lossy(&output.stderr).contains("FZ_BAD_COPIES (12)"));
    assert!(!Path::new(out).exists());
}

#[test]
fn values_that_are_wrong() {
    let cases = [
        ("i8", "128", "expected an i8: -128 to 127, found \"128\""),
        ("i8", "-129", "expected an i8"),
        ("u8", "-1", "expected a u8: 0 to 255"),
        ("u16", "65536", "expected a u16"),
        ("i64", "9223372036854775808", "expected an i64"),
        ("u64", "18446744073709551616", "expected a u64"),
        (
            "pointer",
            "0x",
            "expected a pointer: 0 to 0xffffffffffffffff",
        ),
        ("single", "1.5x", "expected a single"),
        ("single", "nan", "expected a single"),
        ("single", "nan:7f800000", "expected a single"),
        ("single", "bits:7f80000", "expected a single"),
        ("double", "bits:7f800000", "expected a double"),
        (
            "longdouble",
            "nan:00000000000000000000000000000000",
            "expected a long double",
        ),
        ("{u8}", "1", "expected a struct: '{' and its fields"),
        (
            "{u8}",
            "{1, 2}",
            "expected '}': the struct has no more fields, found \"2\"",
        ),
        (
            "{u8, u8}",
            "{1",
            "expected a u8: 0 to 255, and the text ends",
        ),
        (
            "u8",
            ",1",
            "line 1, column 1: expected a u8: 0 to 255, found \",\"",
        ),
        (
            "u8",
            "1\n# more\n 2",
            "line 3, column 2: expected nothing more",
        ),
        ("u8", "", "and the text ends"),
        ("i32", "1e3", "expected an i32"),
    ];
    for (number, (of, values, said)) in cases.into_iter().enumerate() {
        let sig = sig(&format!("wrong-{number}"), &format!("z void({of})"));
        complains(&run(&["fill", &sig, "-"], values.as_bytes()), said);
    }
    let aix = sig("wrong-aix", "aix void(pointer)");
    complains(
        &run(&["fill", &aix, "-"], b"0x100000000"),
        "a pointer of AIX: 0 to 0xffffffff",
    );
}

#[test]
fn words_that_are_wrong() {
    let sig = sig("words", "z void()");
    let image = file("words.image", &[0; 512]);
    let short = file("words.short", &[0; 511]);
    let takes = "values takes SIG --image FILE";
    complains(&run(&["values"], b""), takes);
    complains(&run(&["values", &sig], b""), takes);
    complains(&run(&["values", "--image", &image], b""), takes);
    complains(
        &run(&["values", &sig, "--image"], b""),
        "nothing after \"--image\"",
    );
    complains(
        &run(&["values", &sig, "--image", &image, "--image", &image], b""),
        "\"--image\" twice",
    );
    complains(
        &run(&["values", &sig, "--image", &image, "--base", "8"], b""),
        "--copies and --base belong together",
    );
    complains(
        &run(&["values", &sig, "--image", "-", "--area", "-"], b""),
        "standard input can't be two of the files",
    );
    complains(
        &run(&["values", &sig, "--image", &short], b""),
        "FZ_IMAGE_SIZE (15): the image of the registers is not 512 bytes, but 511",
    );
    complains(
        &run(
            &[
                "values", &sig, "--image", &image, "--copies", &image, "--base", "x",
            ],
            b"",
        ),
        "\"x\" is no number",
    );
    complains(
        &run(&["values", "--hex", "--text", &sig, "--image", &image], b""),
        "--hex and --text",
    );
    complains(
        &run(&["values", &sig, "--image", &image, "--hidden", "1"], b""),
        "\"--hidden\"",
    );
    complains(&run(&["fill", &sig], b""), "fill takes SIG VALUES");
    complains(
        &run(&["fill", "-", "-"], b""),
        "standard input can't be two",
    );
    complains(
        &run(&["fill", &sig, "-", "--image", "/not-there/image"], b""),
        "\"/not-there/image\": No such file or directory",
    );
    prints(
        &run(&["values", &sig, "--image", &image], b""),
        0,
        "Z args 0 area 0\nresult none\n",
    );
}

/// The failure that started the project, in examples/lost-value: the two commands of its first lines.
#[test]
fn the_value_where_the_driver_never_looked() {
    let folder = root().join("examples/lost-value");
    let told = std::fs::read_to_string(folder.join("README.md")).expect("the example");
    let mut commands = 0;
    for line in told
        .lines()
        .filter_map(|line| line.strip_prefix("    $ flakuzhen "))
    {
        let (words, stored) = line.split_once(" # ").expect("where the output is stored");
        let words: Vec<&str> = words.split_whitespace().collect();
        let output = std::process::Command::new(support::command())
            .args(&words)
            .current_dir(&folder)
            .output()
            .expect("the command starts");
        let text = std::fs::read_to_string(folder.join(stored)).expect("its output");
        prints(&output, 0, &text);
        commands += 1;
    }
    assert_eq!(commands, 2);
}

/// A struct's fields are found where the library's sizes have them: all values of many types, which
/// filling places and a walk reads.
#[test]
fn fields_of_many_types() {
    let fields = ["u8", "i16", "u32", "i64", "pointer", "single"];
    let mut types = Vec::new();
    for one in fields {
        for other in fields {
            for third in fields {
                types.push(format!("{{{one}, {{{other}, u8}}, {third}}}"));
            }
        }
    }
    for convention in ["ppc64", "z", "aix", "ppc64b"] {
        for (number, some) in types.chunks(100).enumerate() {
            let text = format!("{convention} void({})", some.join(", "));
            let signature: Signature = text.parse().expect("an accepted signature");
            let sig = sig(
                &format!("fields-{convention}-{number}"),
                &signature.to_string(),
            );
            let mut count = 0u32;
            let mut next = || {
                count = (count + 1) % 100;
                count
            };
            let values: Vec<String> = some
                .iter()
                .map(|_| format!("{{{}, {{{}, {}}}, {}}}", next(), next(), next(), next()))
                .collect();
            let output = run(
                &["fill", &sig, "-", "--base", "8"],
                values.join("\n").as_bytes(),
            );
            assert_eq!(output.status.code(), Some(0), "{output:?}");
            let said = String::from_utf8(output.stdout).expect("a text");
            let back = said.lines().filter_map(|line| line.split(" = ").nth(1));
            // pointers are told in hexadecimal
            let back: Vec<String> = back.map(decimal).collect();
            assert_eq!(back, values);
        }
    }
}

/// A text with its hexadecimal numbers as decimal ones.
fn decimal(text: &str) -> String {
    let mut parts = text.split("0x");
    let mut other = parts.next().unwrap_or("").to_string();
    for part in parts {
        let end = part.find([',', '}']).unwrap_or(part.len());
        let number = u64::from_str_radix(&part[..end], 16).expect("digits");
        other += &number.to_string();
        other += &part[end..];
    }
    other
}
