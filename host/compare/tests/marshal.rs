//! Filling, from stored bytes too, reading, home and view, compared on generated calls.

use compare::calls::{Fault, Operation};
use compare::marshal::{self, Histogram};
use compare::met::Least;
use compare::plans::{AIX, PPC64, PPC64B, Z};
use compare::stored::STALE;

/// The calls of each operation.
const CALLS: u64 = 75_000;

const LEAST: Least = Least {
    faults: 1_000,
    orders: 100,
    edges: 200,
};
/// How often each of what accepted calls may be like must have come.
const CASES: u64 = 200;

/// What singles in floating registers of PPC64 and AIX must have been.
const SINGLES: [&str; 3] = [
    "a signaling NaN in a floating register",
    "a subnormal single in a floating register",
    "an infinite single in a floating register",
];

/// The edges of filling, from stored bytes or not.
const FILLED: [&str; 11] = [
    "a hidden address over 32 bits that is not needed",
    "an area that just fits",
    "an area that is too short by one",
    "base 0",
    "copies that are too short by one",
    "copies that just fit",
    "the highest base",
    "the highest hidden address",
    "the lowest base that is too high",
    "the lowest hidden address that is too high",
    "values of one byte too many or too few",
];

/// Runs the comparison and holds what came to what must have come.
fn run(operation: Operation, edges: &[&str], cases: &[&str]) -> Histogram {
    let seed = compare::seed();
    println!("seed {seed:#x}");
    let seen = match marshal::run(operation, seed, CALLS) {
        Ok(seen) => seen,
        Err(difference) => panic!("seed {seed:#x}: {difference}"),
    };
    println!("{seen}");
    assert!(seen.total() >= CALLS);
    assert!(seen.answers[0] >= CALLS / 4);
    for (number, &counted) in seen.counted.iter().enumerate() {
        match number {
            // the reader's refusals, with its counts
            2..=9 | 25 => assert!(counted > 0, "{number} never came with a count of items"),
            _ => assert_eq!(counted, 0, "{number} has no count of items"),
        }
    }
    assert!(seen.answers[1] > 0, "1 never came");
    assert!(seen.answers[29] >= 100, "29 came seldom");
    seen.met.hold(operation.faults(), together, edges, &LEAST);
    for case in cases {
        let count = seen.accepted.case(case);
        assert!(count >= CASES, "'{case}' came only {count} times");
    }
    seen
}

/// Whether one call can have both faults: copies are of Z alone, widened singles not of Z, and 32
/// bits of hidden address of AIX.
fn together(fault: Fault, other: Fault) -> bool {
    let of_z = [
        Fault::ForZ,
        Fault::CopiesTooShort,
        Fault::BaseUnaligned,
        Fault::BaseTooHigh,
        Fault::OutsideCopies,
    ];
    let not_of_z = [
        Fault::DiffersBefore,
        Fault::NotWidened,
        Fault::Differs,
        Fault::HiddenTooHigh,
    ];
    !(of_z.contains(&fault) && not_of_z.contains(&other))
}

#[test]
fn fill() {
    let edges = [&FILLED[..], &SINGLES].concat();
    let seen = run(
        Operation::Fill,
        &edges,
        &[&PPC64[..], &Z, &AIX, &PPC64B].concat(),
    );
    assert_eq!(seen.read_back, seen.answers[0]);
    let viewed =
        ["PPC64 calls", "AIX calls", "PPC64B calls"].map(|calls| seen.accepted.case(calls));
    assert_eq!(seen.viewed_back, viewed.iter().sum::<u64>());
}

#[test]
fn read() {
    let edges = [
        "a copy at the buffer's end",
        "a copy between multiples of 8",
        "a copy that reaches past 2^64",
        "a float in general registers and in memory",
        "a low address",
        "an address anywhere",
        "an address below the copies",
        "an address just below the copies",
        "an address just past the copies",
        "an address one too high",
        "an area that just fits",
        "an area that is too short by one",
        "copies shorter than an argument",
        "other bytes beside what is no widened single",
        "other bytes in a float's second register",
        "other bytes in r10 of a float that goes on in memory",
        "values of one byte too many or too few",
    ];
    let edges = [&edges[..], &SINGLES].concat();
    run(
        Operation::Read,
        &edges,
        &[&PPC64[..], &Z, &AIX, &PPC64B].concat(),
    );
}

#[test]
fn home() {
    let edges = ["an area that just fits", "an area that is too short by one"];
    let edges = [&edges[..], &SINGLES].concat();
    run(
        Operation::Home,
        &edges,
        &[&PPC64[..], &AIX, &PPC64B].concat(),
    );
}

#[test]
fn view() {
    let edges = [
        "an area that just fits",
        "an area that is too short by one",
        "an index of an argument with a bit above",
        "the index after the last argument's",
        "the last argument",
    ];
    run(
        Operation::View,
        &edges,
        &[&PPC64[..], &AIX, &PPC64B].concat(),
    );
}

#[test]
fn fill_stored() {
    let edges = [&FILLED[..], &SINGLES, &STALE].concat();
    let seen = run(
        Operation::FillStored,
        &edges,
        &[&PPC64[..], &Z, &AIX, &PPC64B].concat(),
    );
    assert_eq!(seen.read_back, seen.answers[0]);
    assert!(seen.answers[27] >= 5_000);
}
