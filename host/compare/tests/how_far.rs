//! How far a refused reading came (document 02, No. 10): signatures with the count of headers that
//! each line's comment tells from the document, asked of every function that reads one. The other
//! refusals have count 0.

use compare::calls::{Call, Operation};
use compare::{marshal, plans, signatures, walks};
use flakuzhen::surface::marshal as surface;
use flakuzhen::surface::stored::Stored;
use flakuzhen::surface::{self as library, Answer};
use reference::walker::Walker;

/// The bytes that hexadecimal text says; spaces count for nothing, and `*` repeats the group before
/// it: `(10 0001 00)*3`.
fn hex(text: &str) -> Vec<u8> {
    let mut bytes = Vec::new();
    let mut rest = text;
    while let Some((before, group)) = rest.split_once('(') {
        digits(before, &mut bytes);
        let (group, after) = group.split_once(")*").expect("a group that is repeated");
        let count = after.split(' ').next().expect("a count");
        for _ in 0..count.parse().expect("a number") {
            digits(group, &mut bytes);
        }
        rest = &after[count.len()..];
    }
    digits(rest, &mut bytes);
    bytes
}

fn digits(text: &str, to: &mut Vec<u8>) {
    let digits: Vec<u8> = text.bytes().filter(|byte| *byte != b' ').collect();
    for pair in digits.chunks(2) {
        let pair = std::str::from_utf8(pair).expect("digits");
        to.push(u8::from_str_radix(pair, 16).expect("two digits"));
    }
}

/// Number, place and count of items. `%` is the code of the convention.
const REFUSED: [(&str, u64, u64, u64); 58] = [
    // 1: "0 for refusal 1", whatever the bytes are
    ("01 0001 % 02 0000 03 3ff7 (00)*16375", 1, 0, 0),
    // 2, no room for a header: what stands before it is counted
    ("", 2, 0, 0),
    ("01 00", 2, 0, 0),
    ("01 0001 %", 2, 4, 1),
    ("01 0001 % 02 00", 2, 4, 1),
    ("01 0001 % 02 0000", 2, 7, 2),
    ("01 0001 % 02 0004 10 0001 00 03", 2, 11, 3),
    ("01 0001 % 02 0000 03 0002 10 00", 2, 10, 3),
    ("01 0001 % 02 0000 03 0005 10 0001 00 10", 2, 14, 4),
    // the third item, the struct and its first field
    (
        "01 0001 % 02 0000 03 0009 12 0006 10 0001 00 10 00",
        2,
        17,
        5,
    ),
    // 2, a length that passes the end: that header has not passed
    ("01 0002 %", 2, 0, 0),
    ("01 0001 % 02 0001", 2, 4, 1),
    ("01 0001 % 02 0000 03 0001", 2, 7, 2),
    ("01 0001 % 02 0003 10 0001 00 03 0000", 2, 7, 2),
    ("01 0001 % 02 0000 03 0007 12 0005 10 0001 00", 2, 10, 3),
    // the field's length passes the struct's end, though not the arguments'
    ("01 0001 % 02 0000 03 0008 12 0003 10 0001 00 00", 2, 13, 4),
    // 3: that header has not passed
    ("02 0000", 3, 0, 0),
    ("01 0001 % 03 0000", 3, 4, 1),
    ("01 0001 % 02 0000 02 0000", 3, 7, 2),
    ("01 0001 % 02 0003 13 0000 03 0000", 3, 7, 2),
    ("01 0001 % 02 0000 03 0007 10 0001 00 02 0000", 3, 14, 4),
    ("01 0001 % 02 0007 12 0004 01 0001 % 03 0000", 3, 10, 3),
    // 4 at an item: its own header has passed, and "isn't counted"
    ("01 0000 02 0000 03 0000", 4, 0, 0),
    ("01 0001 00 02 0000 03 0000", 4, 0, 0),
    ("01 0001 % 02 0004 10 0001 09 03 0000", 4, 7, 2),
    ("01 0001 % 02 0003 12 0000 03 0000", 4, 7, 2),
    ("01 0001 % 02 0000 03 0008 10 0001 00 11 0001 03", 4, 14, 4),
    // in a struct within a struct: the three items, both structs and the field before it
    (
        "01 0001 % 02 0000 03 000e 12 000b 12 0008 10 0001 00 10 0001 09",
        4,
        20,
        6,
    ),
    // 4 at bytes left over, which "are no item": the result's own headers are all counted
    ("01 0001 % 02 0005 10 0001 00 ff 03 0000", 4, 11, 3),
    ("01 0001 % 02 0008 10 0001 00 10 0001 00 03 0000", 4, 11, 3),
    (
        "01 0001 % 02 000c 12 0008 10 0001 00 10 0001 00 00 03 0000",
        4,
        18,
        5,
    ),
    // 5: the long double's header is not counted, the struct around it is
    ("01 0001 % 02 0007 12 0004 11 0001 02 03 0000", 5, 10, 3),
    (
        "01 0001 % 02 0000 03 000f 10 0001 00 12 0008 10 0001 06 11 0001 02",
        5,
        21,
        6,
    ),
    // 6: the eight structs around it are counted, its own header is not, nor what is in it
    (
        "01 0001 % 02 001f 12 001c 12 0019 12 0016 12 0013 12 0010 12 000d 12 000a 12 0007 \
         12 0004 10 0001 00 03 0000",
        6,
        31,
        10,
    ),
    (
        "01 0001 % 02 0000 03 0023 10 0001 00 12 001c 12 0019 12 0016 12 0013 12 0010 12 000d \
         12 000a 12 0007 12 0004 10 0001 00",
        6,
        38,
        12,
    ),
    // 7: bytes left over; the three items and 128 arguments
    ("01 0001 % 02 0000 03 0201 (10 0001 00)*128 00", 7, 522, 131),
    (
        "01 0001 % 02 0000 03 0204 (10 0001 00)*128 10 0001 00",
        7,
        522,
        131,
    ),
    // and the result's two: a struct and its field
    (
        "01 0001 % 02 0007 12 0004 10 0001 00 03 0201 (10 0001 00)*128 00",
        7,
        529,
        133,
    ),
    // 8: the struct's own header is not counted, its 33 fields are
    (
        "01 0001 % 02 0087 12 0084 (10 0001 06)*33 03 0000",
        8,
        7,
        35,
    ),
    (
        "01 0001 % 02 0000 03 0087 12 0084 (10 0001 06)*33",
        8,
        10,
        36,
    ),
    // the second field, which is a struct of 33: the one around it and the field before it too
    (
        "01 0001 % 02 0000 03 008e 12 008b 10 0001 00 12 0084 (10 0001 06)*33",
        8,
        17,
        38,
    ),
    // a struct of two, 16 integers and 17, is too large itself: both headers and 33 fields
    (
        "01 0001 % 02 0000 03 008d 12 008a 12 0040 (10 0001 06)*16 12 0044 (10 0001 06)*17",
        8,
        10,
        38,
    ),
    // 9: bytes left over; all items are counted
    ("01 0001 % 02 0000 03 0000 00", 9, 10, 3),
    (
        "01 0001 % 02 0004 10 0001 00 03 0008 10 0001 00 11 0001 01 03 0000",
        9,
        22,
        6,
    ),
    // an ellipsis counts as an item: what is behind it has one header more
    ("01 0001 % 02 0000 04 00", 2, 7, 2),
    ("01 0001 % 02 0000 04 0001", 2, 7, 2),
    ("01 0001 % 02 0000 04 0000", 2, 10, 3),
    ("01 0001 % 02 0000 04 0000 04 0000 03 0000", 3, 10, 3),
    ("01 0001 % 02 0000 04 0001 00 03 0000", 4, 7, 2),
    ("01 0001 % 02 0000 04 0000 03 0004 10 0001 09", 4, 13, 4),
    (
        "01 0001 % 02 0000 04 0000 03 0201 (10 0001 00)*128 00",
        7,
        525,
        132,
    ),
    ("01 0001 % 02 0000 04 0000 03 0000 00", 9, 13, 4),
    ("01 0001 % 02 0000 03 0000 04 0000", 9, 10, 3),
    // 25, of AIX alone: the long double's or double's own header is not counted
    ("01 0001 03 02 0004 11 0001 02 03 0000", 25, 7, 2),
    (
        "01 0001 03 02 0000 03 0008 10 0001 00 11 0001 02",
        25,
        14,
        4,
    ),
    // the structs around it are, and the field before it
    ("01 0001 03 02 0007 12 0004 11 0001 01 03 0000", 25, 10, 3),
    (
        "01 0001 03 02 0000 03 000e 12 000b 12 0008 11 0001 00 11 0001 01",
        25,
        20,
        6,
    ),
    // and not what follows it: this struct would be too large too
    (
        "01 0001 03 02 0000 03 0087 12 0084 (11 0001 01)*33",
        25,
        13,
        4,
    ),
];

/// A call that is refused for its signature alone: its other faults come later.
fn call(signature: &[u8]) -> Call {
    Call {
        stored: vec![],
        signature: signature.to_vec(),
        values: vec![0; 3],
        image: vec![0; 511],
        area: vec![],
        copies: vec![],
        base: 1,
        hidden: 0,
        index: u64::MAX,
    }
}

#[test]
fn every_function_that_reads_a_signature_says_how_far() {
    let mut numbers = std::collections::BTreeSet::new();
    for (text, number, place, items) in REFUSED {
        for code in ["01", "02", "03", "04"] {
            let bytes = hex(&text.replace('%', code));
            let answer = Answer {
                number,
                place,
                items,
            };
            // "still no more than the input length divided by 3"
            assert!(items <= bytes.len() as u64 / 3, "{text}");
            assert_eq!(signatures::expected(&bytes), answer, "{text}");
            assert_eq!(library::read_signature(&bytes), answer, "{text}");

            let sizes = library::plans::measure(&bytes);
            assert_eq!(sizes.answer, answer, "measure: {text}");
            assert_eq!((sizes.values, sizes.area, sizes.copies), (0, 0, 0));
            let line = format!("refused {number} at {place} after {items}\n");
            assert_eq!(flakuzhen::listing(&bytes), line, "{text}");
            assert_eq!(reference::listing(&bytes), line, "{text}");
            let mut seen = plans::Histogram::default();
            if let Err(difference) = plans::compare(&bytes, 1, &mut seen) {
                panic!("{difference}");
            }
            assert_eq!(seen.answers[number as usize], 1);

            for operation in Operation::ALL {
                let call = call(&bytes);
                let (part, after) = match marshal::compare(operation, &call, 0) {
                    Ok(compared) => compared,
                    Err(difference) => panic!("{difference}"),
                };
                assert_eq!(part.answer, answer, "{operation:?}: {text}");
                assert_eq!((part.start, part.length), (0, 0));
                assert!(after == call, "{operation:?} changes bytes: {text}");
            }
            let refused = Stored { answer, length: 0 };
            assert_eq!(library::stored::length(&bytes), refused, "length: {text}");
            let mut stored = [7; 3];
            let given = library::stored::store(&bytes, &mut stored);
            assert_eq!((given, stored), (refused, [7; 3]), "store: {text}");
            let given = library::stored::check(&stored, &bytes);
            assert_eq!(given, answer, "check: {text}");

            let before = Walker::of_words([7; 6]);
            match walks::compare_start(&before, &bytes) {
                Ok(started) => assert_eq!(started, (answer, before), "start: {text}"),
                Err(difference) => panic!("{difference}"),
            }
        }
        numbers.insert(number);
    }
    assert!(numbers.into_iter().eq((1..=9).chain([25])));
}

/// "Counts are 0" stays for the refusals that come after a reading, and for those without one.
#[test]
fn the_other_refusals_have_no_count() {
    let none = |number| Answer {
        number,
        place: 0,
        items: 0,
    };
    let ppc64 = hex("01 0001 01 02 0000 03 0004 11 0001 00");
    let z = hex("01 0001 02 02 0000 03 0004 11 0001 02");
    let (image, area) = (&mut [0; 512], &mut [0; 64]);
    let short = &mut [0; 63];
    let fill = surface::fill(&ppc64, &[0; 5], image, area, &mut [], 0, 0);
    assert_eq!(fill, none(10));
    let fill = surface::fill(&ppc64, &[0; 4], image, short, &mut [], 0, 0);
    assert_eq!(fill, none(11));
    let fill = surface::fill(&z, &[0; 16], image, area, &mut [0; 15], 0, 0);
    assert_eq!(fill, none(12));
    // AIX, a struct of i8 as the result: a hidden address of 33 bits
    let aix = hex("01 0001 03 02 0007 12 0004 10 0001 00 03 0000");
    let fill = surface::fill(&aix, &[], image, area, &mut [], 0, 1 << 32);
    assert_eq!(fill, none(12));
    let read = surface::read(&z, &mut [0; 16], image, area, &[0; 15], 0);
    assert_eq!(read, none(13));
    image[256 + 8 + 7] = 1;
    let read = surface::read(&ppc64, &mut [0; 4], image, area, &[], 0);
    assert_eq!(read, none(14));
    assert_eq!(surface::home(&ppc64, image, area), none(14));
    let variable = hex("01 0001 01 02 0000 04 0000 03 0004 11 0001 01");
    let read = surface::read(&variable, &mut [0; 8], image, area, &[], 0);
    assert_eq!(read, none(26));
    assert_eq!(surface::home(&variable, image, area), none(0));
    assert_eq!(surface::home(&ppc64, &[0; 511], area), none(15));
    assert_eq!(surface::home(&z, image, area), none(24));
    assert_eq!(surface::view(area, &ppc64, 1).answer, none(24));
    assert_eq!(library::stored::store(&z, &mut []).answer, none(33));
    let stale = Answer {
        place: 2,
        ..none(27)
    };
    assert_eq!(library::stored::check(&[0x20, 0], &z), stale);
}
