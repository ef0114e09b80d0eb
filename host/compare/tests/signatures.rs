//! Reading, compared on generated signatures and on all of some small families.

use compare::encode::{item, signature_of, variable_signature_of, ARGUMENTS, ELLIPSIS, STRUCT};
use compare::random::Random;
use compare::signatures::{self, Histogram, ANSWERS};
use reference::Convention;

/// The signatures of the largest test; the others add to them.
const CASES: u64 = 400_000;

fn compare(bytes: &[u8], histogram: &mut Histogram) {
    match signatures::compare(bytes) {
        Ok(answer) => histogram.count(bytes, answer),
        Err(difference) => panic!("{difference}"),
    }
}

#[test]
fn generated_signatures() {
    let seed = compare::seed();
    println!("seed {seed:#x}");
    let histogram = match signatures::run(seed, CASES) {
        Ok(histogram) => histogram,
        Err(difference) => panic!("seed {seed:#x}: {difference}"),
    };
    println!("{histogram}");
    assert!(histogram.total() >= CASES);
    for number in ANSWERS {
        let count = histogram.answers[number];
        assert!(
            count >= 1_000,
            "the answer {number} came only {count} times"
        );
        // each with many counts of items, but for 1, which has none
        let items = &histogram.items[number];
        match number {
            1 => assert_eq!(items.iter().collect::<Vec<_>>(), [&0]),
            _ => assert!(items.len() >= 20, "{number} had only the counts {items:?}"),
        }
    }
    for (case, number) in ELLIPSES {
        let count = histogram.ellipses.get(&(case, number)).copied();
        let count = count.unwrap_or(0);
        assert!(
            count >= 100,
            "an ellipsis {case} gave {number} only {count} times"
        );
    }
}

/// Where a signature has an ellipsis, and what must have been answered to it.
const ELLIPSES: [(&str, u64); 15] = [
    ("first of all", 3),
    ("before the result", 3),
    ("with a body", 4),
    ("twice", 3),
    ("twice, after the arguments", 9),
    ("after the arguments", 9),
    ("last", 2),
    ("at its place", 0),
    ("at its place", 1),
    ("at its place", 4),
    ("at its place", 5),
    ("at its place", 6),
    ("at its place", 7),
    ("at its place", 8),
    ("at its place, with a fault behind it", 2),
];

#[test]
fn every_prefix_of_valid_signatures() {
    let seed = compare::seed();
    println!("seed {seed:#x}");
    let mut random = Random::new(seed);
    let mut histogram = Histogram::default();
    for _ in 0..300 {
        let bytes = match signatures::compare_valid(&mut random) {
            Ok((bytes, _)) => bytes,
            Err(difference) => panic!("seed {seed:#x}: {difference}"),
        };
        for length in 0..bytes.len() {
            compare(&bytes[..length], &mut histogram);
        }
    }
    println!("{histogram}");
    // a part of a signature always ends inside an item or before one
    assert_eq!(histogram.answers[2], histogram.total());
}

#[test]
fn every_change_of_one_byte() {
    let mut histogram = Histogram::default();
    let small = [1, 0, 1, 1, 2, 0, 0, 3, 0, 8, 0x10, 0, 1, 4, 0x11, 0, 1, 1];
    let within = item(STRUCT, &item(STRUCT, &[0x10, 0, 1, 2, 0x11, 0, 1, 0]));
    let arguments = [within.clone(), within.clone()].concat();
    let nested = |convention| signature_of(convention, &within, &arguments);
    let variable = variable_signature_of(Convention::Ppc64, &within, &arguments);
    for bytes in [
        &small[..],
        &nested(Convention::Z),
        &nested(Convention::Aix),
        &variable,
    ] {
        for at in 0..bytes.len() {
            let mut changed = bytes.to_vec();
            for value in 0..=255 {
                changed[at] = value;
                compare(&changed, &mut histogram);
                // with another length, the same change may let the rest be read
                compare(&changed[..changed.len() - 1], &mut histogram);
            }
        }
    }
    println!("{histogram}");
}

/// All strings of up to `longest` of these bytes.
fn all_strings(longest: usize, of: &[u8]) -> Vec<Vec<u8>> {
    let mut all: Vec<Vec<u8>> = vec![Vec::new()];
    let mut from = 0;
    for _ in 0..longest {
        let until = all.len();
        for shorter in from..until {
            for &byte in of {
                let mut longer = all[shorter].clone();
                longer.push(byte);
                all.push(longer);
            }
        }
        from = until;
    }
    all
}

#[test]
fn every_short_body_of_the_bytes_that_matter() {
    let mut histogram = Histogram::default();
    for body in all_strings(6, &[0x00, 0x01, 0x02, 0x04, 0x10, 0x11, 0x12]) {
        let result = signature_of(Convention::Ppc64, &body, &[]);
        compare(&result, &mut histogram);
        let field = signature_of(Convention::Z, &[], &item(STRUCT, &body));
        compare(&field, &mut histogram);
        let on_aix = signature_of(Convention::Aix, &body, &item(STRUCT, &body));
        compare(&on_aix, &mut histogram);
    }
    println!("{histogram}");
}

#[test]
fn every_short_rest_after_the_first_item() {
    let mut histogram = Histogram::default();
    for rest in all_strings(7, &[0x00, 0x01, 0x02, ARGUMENTS]) {
        compare(&[&[1, 0, 1, 1][..], &rest].concat(), &mut histogram);
    }
    for rest in all_strings(7, &[0x00, 0x01, ARGUMENTS, ELLIPSIS]) {
        let before = [1, 0, 1, 1, 2, 0, 0];
        compare(&[&before[..], &rest].concat(), &mut histogram);
        let before = [1, 0, 1, 1, 2, 0, 0, ELLIPSIS, 0, 0];
        compare(&[&before[..], &rest].concat(), &mut histogram);
    }
    for whole in all_strings(2, &(0..=255).collect::<Vec<u8>>()) {
        compare(&whole, &mut histogram);
    }
    println!("{histogram}");
}
