//! Planning, compared on generated signatures, on all of a family at the edges of the registers,
//! on the stored examples and on the calls of real compilers.

use compare::encode;
use compare::plans::{self, Histogram, AIX, PPC64, PPC64B, Z};
use compare::signatures::ANSWERS;
use flakuzhen::surface::plans as surface;
use reference::{Convention, Float, Integer, Place, ResultPlan, Signature, Type};
use std::path::{Path, PathBuf};

/// The accepted signatures of the largest test; the others add to them.
const ACCEPTED: u64 = 130_000;

/// What the largest test must have seen, each at least this often.
const OFTEN: u64 = 500;
/// Beside what arguments are like: the conventions and the results.
const RESULTS: [&str; 31] = [
    "AIX calls",
    "AIX no arguments",
    "AIX result 64-bit integer",
    "AIX result float-like struct",
    "AIX result integer",
    "AIX result none",
    "AIX result other struct",
    "AIX result single or double",
    "PPC64 calls",
    "PPC64 no arguments",
    "PPC64 result float-like struct",
    "PPC64 result integer",
    "PPC64 result long double",
    "PPC64 result none",
    "PPC64 result other struct",
    "PPC64 result single or double",
    "PPC64B calls",
    "PPC64B no arguments",
    "PPC64B result float-like struct",
    "PPC64B result integer",
    "PPC64B result long double",
    "PPC64B result none",
    "PPC64B result other struct",
    "PPC64B result single or double",
    "Z calls",
    "Z result float-like struct",
    "Z result integer",
    "Z result long double",
    "Z result none",
    "Z result other struct",
    "Z result single or double",
];

fn compare(bytes: &[u8], seen: &mut Histogram) {
    if let Err(difference) = plans::compare(bytes, 1, seen) {
        panic!("{difference}");
    }
}

#[test]
fn generated_signatures() {
    let seed = compare::seed();
    println!("seed {seed:#x}");
    let seen = match plans::run(seed, ACCEPTED) {
        Ok(seen) => seen,
        Err(difference) => panic!("seed {seed:#x}: {difference}"),
    };
    println!("{seen}");
    assert!(seen.accepted() >= ACCEPTED);
    for number in ANSWERS {
        let count = seen.answers[number];
        assert!(count >= 200, "the answer {number} came only {count} times");
        // `items` is a refused reading's alone
        let counted = seen.counted[number];
        match number {
            0 | 1 => assert_eq!(counted, 0),
            _ => assert!(counted >= 100, "{number} had items only {counted} times"),
        }
    }
    let cases = [&PPC64[..], &Z, &AIX, &PPC64B, &RESULTS].concat();
    for case in &cases {
        let count = seen.case(case);
        assert!(count >= OFTEN, "'{case}' came only {count} times");
    }
    for case in seen.cases.keys() {
        assert!(cases.contains(&case.as_str()), "'{case}' is not named");
    }
}

const I8: Type = Type::Integer(Integer::I8);
const I64: Type = Type::Integer(Integer::I64);
const POINTER: Type = Type::Integer(Integer::Pointer);
const SINGLE: Type = Type::Float(Float::Single);
const DOUBLE: Type = Type::Float(Float::Double);
const LONG_DOUBLE: Type = Type::Float(Float::LongDouble);

/// Every count of pointers and floats around the last registers, and up to two arguments of each
/// kind after them.
#[test]
fn every_call_at_the_edge_of_the_registers() {
    let mut seen = Histogram::default();
    for convention in Convention::ALL {
        at_the_edge_of_the_registers(convention, &mut seen);
    }
    println!("{seen}");
    // by code 4 a long double after twelve singles, or after these and no float
    let unclear = 2 * 3 * 10 * (1 + 8 + 6);
    assert_eq!(seen.answers[29], unclear);
    assert_eq!(seen.accepted(), 4 * 2 * 3 * 10 * 8 * 73 - unclear);
    assert_eq!(seen.total(), seen.accepted() + unclear);
}

fn at_the_edge_of_the_registers(convention: Convention, seen: &mut Histogram) {
    let of = |fields: &[Type]| Type::Struct(fields.to_vec());
    // AIX has no long double, and no double inside a struct
    let (two_places, field) = match convention {
        Convention::Aix => (I64, SINGLE),
        _ => (LONG_DOUBLE, DOUBLE),
    };
    let kinds = [
        I8,
        DOUBLE,
        two_places.clone(),
        of(&[SINGLE]),
        of(&[I8, I8, I8]),
        of(&[I64]),
        of(&[I64, I8]),
        of(&[field, SINGLE, I64, I8]),
    ];
    let mut ends = vec![vec![]];
    for first in &kinds {
        ends.push(vec![first.clone()]);
        ends.extend(
            kinds
                .iter()
                .map(|second| vec![first.clone(), second.clone()]),
        );
    }
    for result in [None, Some(two_places), Some(of(&[SINGLE]))] {
        for integers in 0..=9 {
            for floats in [0, 1, 3, 4, 5, 12, 13, 14] {
                for end in &ends {
                    let start = [vec![POINTER; integers], vec![SINGLE; floats]].concat();
                    for ellipsis in [false, true] {
                        let signature = Signature {
                            convention,
                            result: result.clone(),
                            ellipsis,
                            arguments: [&start[..], end].concat(),
                        };
                        compare(&encode::signature(&signature), seen);
                    }
                }
            }
        }
    }
}

/// The largest numbers that a signature's limits leave: a listing's offsets, sizes and length.
#[test]
fn the_largest_calls() {
    let mut seen = Histogram::default();
    let large = Type::Struct(vec![I64; 32]);
    for convention in Convention::ALL {
        let two_places = match convention {
            // and by code 4 seven long doubles give 29
            Convention::Aix | Convention::Ppc64b => I64,
            _ => LONG_DOUBLE,
        };
        for result in [None, Some(large.clone())] {
            for argument in [I8, DOUBLE, two_places.clone(), large.clone()] {
                // 124 structs of 131 bytes each fit into a signature
                for count in [0, 1, 123, 124, 125, 127, 128] {
                    for ellipsis in [false, true] {
                        let signature = Signature {
                            convention,
                            result: result.clone(),
                            ellipsis,
                            arguments: vec![argument.clone(); count],
                        };
                        compare(&encode::signature(&signature), &mut seen);
                    }
                }
            }
        }
    }
    println!("{seen}");
    // 125 and more large structs, and 124 of them after a large result
    assert_eq!((seen.accepted(), seen.answers[1]), (2 * (224 - 28), 2 * 28));
}

fn folder(path: &str) -> PathBuf {
    Path::new(env!("CARGO_MANIFEST_DIR")).join(path)
}

fn text_of(path: &Path) -> String {
    std::fs::read_to_string(path).unwrap_or_else(|fault| panic!("{path:?}: {fault}"))
}

/// The bytes that hexadecimal digits say.
fn bytes_of(digits: &str) -> Vec<u8> {
    let pairs = digits.as_bytes().chunks(2);
    let pair = |pair: &[u8]| std::str::from_utf8(pair).map(|text| u8::from_str_radix(text, 16));
    pairs.map(|two| pair(two).unwrap().unwrap()).collect()
}

/// The second program is held to the examples' stored listings too; the command's own tests hold
/// the library to them.
#[test]
fn the_stored_listings() {
    let mut listings = 0;
    for entry in std::fs::read_dir(folder("../../examples/signatures")).unwrap() {
        let path = entry.unwrap().path();
        if path.extension().is_some_and(|extension| extension == "hex") {
            let text = text_of(&path);
            let code = text.lines().map(|line| line.split('#').next().unwrap());
            let digits: String = code.flat_map(str::split_whitespace).collect();
            let stored = text_of(&path.with_extension("listing"));
            assert_eq!(reference::listing(&bytes_of(&digits)), stored, "{path:?}");
            listings += 1;
        }
    }
    assert!(listings >= 6);
}

/// A call of `data/plans.txt`.
struct Call<'a> {
    signature: Vec<u8>,
    arguments: Vec<Vec<&'a str>>,
    result: Vec<&'a str>,
    /// Bytes of values, area and copies.
    sizes: Vec<u64>,
    text: &'a str,
}

fn call(line: &str) -> Call<'_> {
    let fields: Vec<&str> = line.split(" | ").collect();
    let [signature, arguments, result, sizes, text] = fields[..] else {
        panic!("five fields in {line}");
    };
    let words = |text| str::split_whitespace(text).collect();
    let arguments = match arguments {
        "-" => Vec::new(),
        _ => arguments.split(" ; ").map(words).collect(),
    };
    Call {
        signature: bytes_of(signature),
        arguments,
        result: words(result),
        sizes: sizes.split(' ').map(|size| size.parse().unwrap()).collect(),
        text,
    }
}

/// A place as the data has it.
fn word(place: &Place) -> String {
    match place {
        Place::General(number) => format!("r{number}"),
        Place::Floating(number) => format!("f{number}"),
        Place::Memory(offset) => format!("mem@{offset}"),
    }
}

fn words(places: &[Place]) -> Vec<String> {
    places.iter().map(word).collect()
}

/// The places that a line of a listing says, as the data has them: as many as `count`, and those in
/// memory of `width` bytes each. What is in general registers and in memory are the words from the
/// offset on, whatever floating registers come before them.
fn places_of_line(line: &str, count: usize, width: usize) -> Vec<String> {
    let words: Vec<&str> = line.split(' ').skip(1).collect();
    let offset = words.iter().find_map(|word| word.strip_prefix('@'));
    let mut places = Vec::new();
    for word in words {
        match word {
            "mem" => {
                let first: usize = offset.unwrap().parse().unwrap();
                let floating = |place: &&String| place.starts_with('f');
                let before = places.iter().filter(floating).count();
                let offsets = (places.len()..count).map(|at| first + width * (at - before));
                places.extend(offsets.map(|offset| format!("mem@{offset}")));
            }
            "ref" => {}
            word if word.starts_with('@') => {}
            register => places.push(register.to_string()),
        }
    }
    places
}

fn library_listing(signature: &[u8]) -> String {
    let mut text = vec![0; 4096];
    let length = surface::listing(signature, &mut text) as usize;
    text.truncate(length);
    String::from_utf8(text).expect("a listing is ASCII")
}

#[test]
fn the_calls_of_compilers() {
    let data = text_of(&folder("data/plans.txt"));
    let mut seen = Histogram::default();
    for line in data.lines().filter(|line| !line.starts_with('#')) {
        let call = call(line);
        compare(&call.signature, &mut seen);

        let signature = reference::read(&call.signature).expect("an accepted signature");
        let plan = reference::plan(&signature);
        let places: Vec<_> = plan
            .arguments
            .iter()
            .map(|one| words(&one.places))
            .collect();
        assert_eq!(places, call.arguments, "second program: {}", call.text);
        let result = match plan.result {
            ResultPlan::None => vec!["none".to_string()],
            ResultPlan::Registers(places) => words(&places),
            ResultPlan::Hidden(place) => vec!["hidden".to_string(), word(&place)],
        };
        assert_eq!(result, call.result, "second program: {}", call.text);

        let listing = library_listing(&call.signature);
        let lines: Vec<&str> = listing.lines().collect();
        assert_eq!(lines[0].ends_with(" var"), signature.ellipsis);
        assert_eq!(lines.len(), call.arguments.len() + 2, "{}", call.text);
        for (line, expected) in lines[1..].iter().zip(&call.arguments) {
            let places = places_of_line(line, expected.len(), signature.convention.word());
            assert_eq!(&places, expected, "library: {}", call.text);
        }
        let result: Vec<&str> = lines[lines.len() - 1].split(' ').skip(1).collect();
        assert_eq!(result, call.result, "library: {}", call.text);
        let sizes = surface::measure(&call.signature);
        let sizes = [sizes.values, sizes.area, sizes.copies];
        assert_eq!(sizes.to_vec(), call.sizes, "library: {}", call.text);
    }
    println!("{seen}");
    assert_eq!(seen.accepted(), 299 + 99);
    // of the prototypes, and of those with an ellipsis or not in scope
    assert_eq!(seen.case("PPC64 calls"), 44 + 19 + 25);
    assert_eq!(seen.case("PPC64 calls with an ellipsis"), 25);
    assert_eq!(seen.case("Z calls with an ellipsis"), 25);
    assert_eq!(seen.case("AIX calls"), 79 + 18);
    assert_eq!(seen.case("AIX calls with an ellipsis"), 18);
    assert_eq!(seen.case("PPC64B calls"), 51 + 22 + 31);
    assert_eq!(seen.case("PPC64B calls with an ellipsis"), 31);
    for case in [
        "AIX double in FPR and GPR",
        "AIX double in FPR and memory",
        "AIX double in FPR, GPR and memory",
        "PPC64 double in FPR and GPR",
        "PPC64 double in FPR and memory",
        "PPC64B long double in FPR and GPR",
        "PPC64B long double in FPR and memory",
        "AIX 64-bit integer straddling",
        "AIX double in FPR past r10",
        "AIX other struct straddling",
        "AIX single in memory",
        "PPC64 other struct straddling",
        "PPC64 single in memory",
        "PPC64 struct of 1 in GPR",
        "PPC64 struct of 2 in memory",
        "PPC64 struct of 7 in GPR",
        "Z other struct by reference in memory",
        "Z long double by reference in GPR",
        "Z float-like struct of 8 in FPR",
        "Z double in memory",
    ] {
        assert!(seen.case(case) > 0, "'{case}' never came");
    }
}
