//! The walker, compared on generated steps, walks and starts, and at each edge of its counters.

use compare::calls::Call;
use compare::encode::{self, variable_signature_of};
use compare::met::Least;
use compare::walks::{self, Fault, Step};
use reference::walker::Walker;
use reference::{Convention, Float, Integer, Place, Signature, Type};

/// The generated steps; a sixth as many whole walks come with them.
const STEPS: u64 = 90_000;

const LEAST: Least = Least {
    faults: 1_000,
    orders: 50,
    edges: 100,
};
/// How often each of the item's own refusals must have come.
const ITEMS: u64 = 50;

#[test]
fn generated_steps_and_walks() {
    let seed = compare::seed();
    println!("seed {seed:#x}");
    let seen = match walks::run(seed, STEPS) {
        Ok(seen) => seen,
        Err(difference) => panic!("seed {seed:#x}: {difference}"),
    };
    println!("{seen}");
    assert!(seen.steps() >= 2 * STEPS);
    assert!(seen.walks >= STEPS / 6);
    assert!(seen.declared >= 100_000);
    assert!(seen.past >= 20_000);
    assert!(seen.answers[0] >= STEPS);
    for number in [1, 2, 3, 4, 5, 6, 8, 25] {
        let count = seen.answers[number];
        assert!(count >= ITEMS, "{number} came only {count} times");
    }
    for number in [0, 1, 2, 3, 4, 5, 6, 7, 8, 9, 25] {
        let count = seen.starts[number];
        let least = if number == 0 { 40_000 } else { 100 };
        assert!(count >= least, "a start gave {number} only {count} times");
    }
    for (number, &count) in seen.answers.iter().enumerate() {
        let known = matches!(number, 0..=6 | 8 | 10 | 11 | 13..=15 | 23 | 25 | 26 | 29);
        assert!(known || count == 0, "a step never gives {number}");
        // places and counts are of the item's bytes alone
        let of_the_item = matches!(number, 2..=6 | 8 | 25);
        if !of_the_item {
            assert_eq!((seen.counted[number], seen.placed[number]), (0, 0));
        } else if number != 8 {
            // a struct that is too large may be the item itself, and then has place 0
            assert!(seen.placed[number] > 0, "{number} never had a place");
        }
        if of_the_item {
            assert!(seen.counted[number] > 0, "{number} never had a count");
        }
    }
    seen.met
        .hold(&Fault::ALL, Fault::together, &EDGES_SEEN, &LEAST);
}

const EDGES_SEEN: [&str; 33] = [
    "a convention that is none",
    "a copy at the buffer's end",
    "a copy between multiples of 8",
    "a copy that reaches past 2^64",
    "a float in general registers and in memory",
    "a floating register that is none",
    "a general register that is none",
    "a low address",
    "a mark of a hidden address over 1",
    "a mark of an ellipsis over 1",
    "a signaling NaN in a floating register",
    "a stack of PowerPC",
    "a stack offset that is none",
    "a stack while registers are left",
    "a start on a signature that 29 refuses",
    "a subnormal single in a floating register",
    "an address anywhere",
    "an address below the copies",
    "an address just below the copies",
    "an address just past the copies",
    "an address one too high",
    "an area that is too short by one",
    "an area that just fits",
    "an argument in registers and no area",
    "an infinite single in a floating register",
    "copies shorter than an argument",
    "fewer words than registers need",
    "memory at the highest counters",
    "more than 13 floating registers",
    "other bytes beside what is no widened single",
    "other bytes in a float's second register",
    "other bytes in r10 of a float that goes on in memory",
    "words over 2^32",
];

const I8: Type = Type::Integer(Integer::I8);
const I32: Type = Type::Integer(Integer::I32);
const I64: Type = Type::Integer(Integer::I64);
const SINGLE: Type = Type::Float(Float::Single);
const DOUBLE: Type = Type::Float(Float::Double);
const LONG_DOUBLE: Type = Type::Float(Float::LongDouble);
const HIGHEST: u64 = 1 << 32;

/// What both programs do with a step on registers, area and copies of zeros.
fn stepped(words: [u64; 6], of: &Type, area: usize) -> (u64, [u64; 6]) {
    let convention = Convention::of_code(words[0]).unwrap_or(Convention::Ppc64);
    let step = Step {
        walker: Walker::of_words(words),
        call: Call {
            signature: encode::type_item(of),
            values: vec![0xa7; of.size(convention)],
            image: vec![0; 512],
            area: vec![0; area],
            copies: vec![0; 256],
            ..Call::default()
        },
    };
    match walks::compare(&step, 0) {
        Ok((answer, after)) => (answer.number, after.walker.words()),
        Err(difference) => panic!("{difference}"),
    }
}

/// Which counters of PowerPC there are: "more than 13 FPRs or fewer words than FPRs and the hidden
/// address need" is 23.
#[test]
fn counters_of_powerpc() {
    for code in [1, 3, 4] {
        for hidden in [0, 1] {
            for floating in 0..=15 {
                for general in 0..=17 {
                    let words = [code, 1, hidden, general, floating, 0];
                    let reached = floating <= 13 && general >= floating + hidden;
                    let (number, after) = stepped(words, &I8, 200);
                    let moved = [code, 1, hidden, general + 1, floating, 0];
                    match reached {
                        true => assert_eq!((number, after), (0, moved)),
                        false => assert_eq!((number, after), (23, words)),
                    }
                }
            }
        }
        for (words, number) in [
            ([code, 0, 0, HIGHEST, 0, 0], 11),
            ([code, 0, 0, HIGHEST + 1, 0, 0], 23),
            ([code, 0, 0, u64::MAX, 0, 0], 23),
            ([code, 0, 0, 100, HIGHEST, 0], 23),
            ([code, 0, 0, 100, 1, HIGHEST], 23),
            ([code, 0, 0, 100, 1, 1], 23),
            ([code, 2, 0, 100, 1, 0], 23),
            ([code, 0, 2, 100, 1, 0], 23),
            ([code + 256, 0, 0, 100, 1, 0], 23),
        ] {
            assert_eq!(stepped(words, &I8, 64), (number, words));
        }
        // a float in a register has no memory: the step passes the highest counter, the next is lost
        let words = [code, 0, 0, HIGHEST, 3, 0];
        let (number, past) = stepped(words, &SINGLE, 0);
        assert_eq!((number, past), (0, [code, 0, 0, HIGHEST + 1, 4, 0]));
        assert_eq!(stepped(past, &SINGLE, 0), (23, past));
        // with an ellipsis it has
        let words = [code, 1, 0, HIGHEST, 3, 0];
        assert_eq!(stepped(words, &SINGLE, 64), (11, words));
    }
}

/// Which counters of Z there are.
#[test]
fn counters_of_z() {
    for hidden in [0, 1] {
        for general in 0..=9 {
            for floating in 0..=10 {
                for stack in [0, 152, 159, 160, 161, 164, 168, 176] {
                    let words = [2, 0, hidden, general, floating, stack];
                    let registers =
                        (2 + hidden..=7).contains(&general) && floating % 2 == 0 && floating <= 8;
                    let left = general < 7 && floating < 8;
                    let offset = stack >= 160 && stack % 8 == 0;
                    let reached = registers && offset && !(left && stack > 160);
                    for of in [I8, DOUBLE] {
                        let (number, after) = stepped(words, &of, 64);
                        if !reached {
                            assert_eq!((number, after), (23, words));
                            continue;
                        }
                        let [general, floating, stack] = match of == I8 {
                            true if general < 7 => [general + 1, floating, stack],
                            false if floating < 8 => [general, floating + 2, stack],
                            _ => [general, floating, stack + 8],
                        };
                        let moved = [2, 0, hidden, general, floating, stack];
                        assert_eq!((number, after), (0, moved));
                    }
                }
            }
        }
    }
    let highest = [2, 0, 0, 7, 8, HIGHEST];
    assert_eq!(stepped(highest, &I8, 64), (11, highest));
    let past = [2, 0, 0, 7, 8, HIGHEST + 8];
    assert_eq!(stepped(past, &I8, 64), (23, past));
}

/// "Asked for a type whose places pass the lent area, it gives 11": each type at each count of words
/// and floating registers, with areas of every length.
#[test]
fn areas_of_every_length() {
    let structs = [1, 3, 8, 9, 17].map(|count| Type::Struct(vec![I8; count]));
    for code in [1, 2, 3, 4] {
        let convention = Convention::of_code(code).expect("a code");
        let scalars = [I8, I64, SINGLE, DOUBLE, LONG_DOUBLE];
        let types = scalars.iter().chain(&structs);
        for of in types.filter(|of| code != 3 || **of != LONG_DOUBLE) {
            for walker in walkers(code) {
                let Some(next) = walker.next(of) else {
                    // "a walker stays put on it"
                    let words = walker.words();
                    assert_eq!((code, walker.floating), (4, 12));
                    assert_eq!(stepped(words, of, 200), (29, words));
                    continue;
                };
                let start = if code == 2 { 160 } else { 0 };
                let ends = next.places.iter().map(|place| match place {
                    Place::Memory(offset) => offset + convention.word() - start,
                    _ => 0,
                });
                let end = ends.max().unwrap_or(0);
                for area in [0, end.saturating_sub(1), end, end + 1] {
                    let (number, after) = stepped(walker.words(), of, area);
                    let expected = if area < end { 11 } else { 0 };
                    assert_eq!(number, expected);
                    assert_eq!(after == walker.words(), number != 0);
                }
            }
        }
    }
}

/// Walkers around the last registers, with an ellipsis and without.
fn walkers(code: u64) -> Vec<Walker> {
    let mut walkers = Vec::new();
    for ellipsis in [0, 1] {
        if code == 2 {
            for (general, floating, stack) in [
                (2, 0, 160),
                (6, 6, 160),
                (7, 6, 160),
                (7, 8, 160),
                (6, 8, 168),
                (7, 8, 184),
            ] {
                walkers.push(Walker::of_words([2, ellipsis, 0, general, floating, stack]));
            }
            continue;
        }
        for floating in [0, 1, 11, 12, 13] {
            for general in (floating..floating + 10).chain([20]) {
                walkers.push(Walker::of_words([code, ellipsis, 0, general, floating, 0]));
            }
        }
    }
    walkers
}

/// A walk asks for the types that were passed, of which the signature declares the first alone: all
/// calls at the edges of the registers, by a caller whose signature declares all of them.
#[test]
fn a_walk_past_what_is_declared() {
    let mut walked = 0;
    for convention in Convention::ALL {
        let two_places = match convention {
            Convention::Aix => I64,
            _ => LONG_DOUBLE,
        };
        for integers in 0..=9 {
            for doubles in [0, 1, 4, 5, 10, 13, 14] {
                for last in [I32, SINGLE, DOUBLE, two_places.clone()] {
                    let mut arguments = vec![I32];
                    arguments.extend(vec![I64; integers]);
                    arguments.extend(vec![DOUBLE; doubles]);
                    arguments.push(last);
                    walk_all(convention, &arguments);
                    walked += 1;
                }
            }
        }
    }
    assert_eq!(walked, 4 * 10 * 7 * 4);
}

/// Fills a call of these arguments, and walks it from the start of a signature that declares but the
/// first.
fn walk_all(convention: Convention, arguments: &[Type]) {
    let whole = Signature {
        convention,
        result: None,
        ellipsis: true,
        arguments: arguments.to_vec(),
    };
    let plan = reference::plan(&whole);
    let values: Vec<u8> = (0..plan.values).map(|at| (at * 37 + 11) as u8).collect();
    let mut call = Call {
        signature: encode::signature(&whole),
        image: vec![0xa7; 512],
        area: vec![0xa7; plan.area],
        copies: vec![0xa7; plan.copies],
        base: 0x1000,
        ..Call::default()
    };
    let Call {
        signature,
        image,
        area,
        copies,
        base,
        ..
    } = &mut call;
    reference::marshal::fill(signature, &values, image, area, copies, *base, 0)
        .expect("a call in order");
    let declared = variable_signature_of(convention, &[], &encode::type_item(&arguments[0]));
    let (answer, walker) = walks::compare_start(&Walker::default(), &declared)
        .unwrap_or_else(|difference| panic!("{difference}"));
    assert_eq!(answer.number, 0);
    let mut step = Step { walker, call };
    let mut rest = &values[..];
    for of in arguments {
        let (value, others) = rest.split_at(of.size(convention));
        rest = others;
        step.call.signature = encode::type_item(of);
        step.call.values = vec![0; value.len()];
        let (answer, after) =
            walks::compare(&step, 0).unwrap_or_else(|difference| panic!("{difference}"));
        assert_eq!((answer.number, &after.call.values[..]), (0, value));
        step = after;
    }
}
