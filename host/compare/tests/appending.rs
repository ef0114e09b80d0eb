//! Arguments that are appended move nothing: pairs of signatures, in the library and in the second
//! program.

use compare::appending::{self, Cases, Pair};
use compare::encode;
use compare::random::Random;
use reference::{Convention, Float, Integer, Signature, Type};

/// The pairs of the test; both programs are held to each.
const PAIRS: u64 = 100_000;
/// Each case must have come so often in each program.
const OFTEN: u64 = 200;

#[test]
fn generated_pairs() {
    let seed = compare::seed();
    println!("seed {seed:#x}");
    let cases = match appending::run(seed, PAIRS) {
        Ok(cases) => cases,
        Err(difference) => panic!("seed {seed:#x}: {difference}"),
    };
    for (case, count) in &cases {
        println!("{case}: {count}");
    }
    let mut expected = vec![
        "29 of an appended argument".to_string(),
        "29 of an earlier argument".to_string(),
    ];
    for name in CALLS {
        for case in [
            "pairs",
            "nothing before",
            "nothing appended",
            "one argument more",
            "larger area",
            "hidden result",
        ] {
            expected.push(format!("{name} {case}"));
        }
        if name.starts_with('Z') {
            expected.push(format!("{name} more copies"));
        }
    }
    for case in &expected {
        let count = cases.get(case).copied().unwrap_or(0);
        assert!(count >= 2 * OFTEN, "'{case}' came only {count} times");
    }
    for case in cases.keys() {
        assert!(expected.contains(case), "'{case}' is not named");
    }
    let pairs = cases.iter().filter(|(case, _)| case.ends_with(" pairs"));
    let refused = cases.iter().filter(|(case, _)| case.starts_with("29 "));
    let total: u64 = pairs.chain(refused).map(|(_, count)| count).sum();
    assert_eq!(total, 2 * PAIRS);
}

/// The conventions, without an ellipsis and with one.
const CALLS: [&str; 8] = [
    "PPC64",
    "Z",
    "AIX",
    "PPC64B",
    "PPC64 var",
    "Z var",
    "AIX var",
    "PPC64B var",
];

/// Pairs of which the longer signature does not have the shorter one's arguments first, or not its
/// result, are noticed.
#[test]
fn other_pairs() {
    let (double, i32) = (Type::Float(Float::Double), Type::Integer(Integer::I32));
    for convention in Convention::ALL {
        let signature = |result: Option<&Type>, arguments: &[&Type]| Signature {
            convention,
            result: result.cloned(),
            ellipsis: false,
            arguments: arguments.iter().copied().cloned().collect(),
        };
        let longer = signature(None, &[&double, &i32, &double]);
        for shorter in [
            signature(None, &[&i32]),
            signature(None, &[&double, &double]),
            signature(Some(&i32), &[&double, &i32]),
        ] {
            let mut pair = Pair::of(&longer, 2, &mut Random::new(compare::seed()));
            let mut cases = Cases::new();
            assert!(appending::compare(&pair, &mut cases).is_ok());
            pair.shorter = encode::signature(&shorter);
            let difference = appending::compare(&pair, &mut cases);
            let told = difference.expect_err("a pair that appends nothing").0;
            assert!(told.starts_with("the library: plans "), "{told}");
        }
    }
}
