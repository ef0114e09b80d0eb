//! Stored plans, compared on generated signatures.

use compare::plans::{AIX, PPC64, PPC64B, Z};
use compare::stored::{self, Histogram, STALE};
use flakuzhen::Refusal;
use reference::Convention;

/// Signatures that plans are stored of.
const STORED: u64 = 75_000;
/// How often each of what accepted calls may be like must have come.
const CASES: u64 = 200;

fn run() -> Histogram {
    let seed = compare::seed();
    println!("seed {seed:#x}");
    match stored::run(seed, STORED) {
        Ok(seen) => seen,
        Err(difference) => panic!("seed {seed:#x}: {difference}"),
    }
}

#[test]
fn lengths_bytes_and_checks() {
    let seen = run();
    println!("{seen}");
    assert!(seen.stored() >= STORED);
    assert!(seen.total() >= STORED + STORED / 3);
    let least = |what: &str, count: u64, least: u64| {
        assert!(count >= least, "{what} came only {count} times");
    };
    // every refusal of a signature, by each of the functions
    for number in (1..=9).chain([25, 29]) {
        let enough = match number {
            1 | 29 => 20,
            _ => 200,
        };
        for answers in [&seen.lengths, &seen.stores, &seen.checks] {
            least(&format!("refusal {number}"), answers[number], enough);
        }
    }
    for number in (0..seen.checks.len()).filter(|number| !matches!(number, 2..=9 | 25)) {
        assert_eq!(seen.counted[number], 0, "{number} has no count of items");
    }
    // of each signature's four buffers two are too short
    assert_eq!(seen.stores[33], 2 * seen.stored());
    assert_eq!(seen.stores[0], 2 * seen.stored());
    assert_eq!(seen.lengths[33] + seen.checks[33], 0);
    assert_eq!(seen.lengths[27] + seen.stores[27], 0);
    least("a fresh plan", seen.checks[0], STORED);
    least("a stale plan", seen.checks[27], 1_000_000);
    for how in STALE {
        let count = seen.stale.get(how).copied().unwrap_or(0);
        least(how, count, 10_000);
    }
    least("a plan checked at every byte", seen.thorough, 2_000);
    least("a plan checked with every value", seen.exhaustive, 20);
    assert!(seen.longest_thorough >= 1_000);
    assert!(seen.longest >= 30_000);
    // short signatures come more than once
    assert!(seen.different() as u64 >= seen.stored() * 4 / 5);
    for case in PPC64.iter().chain(&Z).chain(&AIX).chain(&PPC64B) {
        least(case, seen.accepted.case(case), CASES);
    }
    for convention in Convention::ALL {
        for ellipsis in [false, true] {
            let name = format!("{convention:?} ellipsis {ellipsis}");
            least(&name, seen.place(&name), 5_000);
        }
        for of in [
            "argument general",
            "argument floating",
            "argument memory",
            "result none",
            "result general",
            "result floating",
            "result hidden",
        ] {
            let name = format!("{convention:?} {of}");
            least(&name, seen.place(&name), 1_000);
        }
        let copies = seen.place(&format!("{convention:?} argument copy"));
        match convention {
            Convention::Z => least("a copy", copies, 10_000),
            _ => assert_eq!(copies, 0),
        }
        // no argument is nowhere, and no result in memory
        for of in [
            "argument none",
            "argument hidden",
            "result memory",
            "result copy",
        ] {
            assert_eq!(seen.place(&format!("{convention:?} {of}")), 0);
        }
    }
}

/// The bytes of document 01's example, of a call with a copy and a hidden result, and of an AIX call
/// with an ellipsis, as document 02 says them.
#[test]
fn whole_plans() {
    let stored = |signature: &[u8], places: &[u8]| {
        let length = signature.len() as u8;
        let expected = [&[0x20, 0, length][..], signature, places].concat();
        assert_eq!(flakuzhen::store(signature).as_ref(), Ok(&expected));
        assert_eq!(reference::stored::bytes(signature), Ok(expected));
    };
    stored(
        &[1, 0, 1, 1, 2, 0, 0, 3, 0, 8, 0x10, 0, 1, 4, 0x11, 0, 1, 1],
        &[
            0x21, 0, 5, 0, 0, 3, 0, 0, 0x21, 0, 5, 0, 1, 1, 0, 8, 0x22, 0, 0,
        ],
    );
    // Z, result struct of i64, arguments long double and single
    stored(
        &[
            1, 0, 1, 2, 2, 0, 7, 0x12, 0, 4, 0x10, 0, 1, 6, 3, 0, 8, 0x11, 0, 1, 2, 0x11, 0, 1, 0,
        ],
        &[
            0x21, 0, 10, 0, 0, 3, 0, 0, 2, 0, 0, 0, 0, 0x21, 0, 5, 0, 1, 0, 0, 0, 0x22, 0, 5, 3, 0,
            2, 0, 0,
        ],
    );
    // AIX, result i64, an ellipsis; seven i32 and a double, which is in f1, r10 and memory
    let mut signature = vec![1, 0, 1, 3, 2, 0, 4, 0x10, 0, 1, 6, 4, 0, 0, 3, 0, 32];
    signature.extend([0x10, 0, 1, 4].repeat(7));
    signature.extend([0x11, 0, 1, 1]);
    let mut places = Vec::new();
    for number in 0..7 {
        places.extend([0x21, 0, 5, 0, 0, 3 + number, 0, 4 * number]);
    }
    places.extend([0x21, 0, 15, 0, 1, 1, 0, 28, 0, 0, 10, 0, 28, 1, 0, 0, 0, 32]);
    places.extend([0x22, 0, 10, 0, 0, 3, 0, 0, 0, 0, 4, 0, 0]);
    stored(&signature, &places);
}

/// The longest plans that were found: of AIX, 124 structs of 32 integers of 64 bits, three doubles, each in a
/// floating register and two words, and a struct that takes what is left; and such structs in each
/// convention.
#[test]
fn the_longest_plans() {
    let structure = |fields: usize| {
        let length = 4 * fields as u8;
        [&[0x12, 0, length][..], &[0x10, 0, 1, 6].repeat(fields)].concat()
    };
    let mut arguments = structure(32).repeat(124);
    let structs = [&arguments[..], &structure(31)].concat();
    arguments.extend([0x11, 0, 1, 1].repeat(3));
    arguments.extend(structure(28));
    assert_eq!(whole(3, &arguments), 56_779);
    for convention in 1..=4 {
        let length = whole(convention, &structs);
        println!("convention {convention}: {length} bytes");
    }
}

/// Stores and checks the plan of a call with an ellipsis and these arguments, and gives its length.
fn whole(convention: u8, arguments: &[u8]) -> usize {
    let [high, low] = (arguments.len() as u16).to_be_bytes();
    let mut signature = vec![1, 0, 1, convention, 2, 0, 0, 4, 0, 0, 3, high, low];
    signature.extend(arguments);
    let stored = flakuzhen::store(&signature).expect("an accepted signature");
    assert_eq!(reference::stored::bytes(&signature), Ok(stored.clone()));
    assert_eq!(flakuzhen::check(&stored, &signature), Ok(()));
    let mut room = vec![0; stored.len() - 1];
    let refusal = flakuzhen::store_into(&signature, &mut room).unwrap_err();
    assert_eq!((refusal.number, refusal.place, refusal.items), (33, 0, 0));
    let behind = 3 + signature.len();
    for at in [0, 2, 3, behind - 1, behind, stored.len() - 1] {
        let mut changed = stored.clone();
        changed[at] ^= 0x10;
        let refusal = Refusal {
            number: 27,
            place: at as u64,
            items: 0,
        };
        assert_eq!(flakuzhen::check(&changed, &signature), Err(refusal));
    }
    stored.len()
}
