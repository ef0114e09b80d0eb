//! Planning compared: the sizes, the whole plan word for word, and the listing byte for byte, in
//! tables and buffers of every kind of length.

use crate::encode::{self, INTEGERS};
use crate::generate;
use crate::random::Random;
use crate::second_planner;
use crate::signatures::{hex, refused, ACCEPTED, ANSWERS};
use crate::Difference;
use flakuzhen::surface::plans::{self as surface, Planned, Sizes};
use reference::table::{self, Table, ENTRY};
use reference::{
    float_equivalent, ArgumentPlan, Convention, Float, Integer, Place, Plan, ResultPlan, Signature,
    Type,
};
use std::collections::BTreeMap;
use std::fmt;

/// What accepted calls of PPC64 must have been like, as a histogram has it.
pub const PPC64: [&str; 42] = [
    "PPC64 128 arguments",
    "PPC64 calls with an ellipsis",
    "PPC64 double in FPR",
    "PPC64 double in FPR and GPR",
    "PPC64 double in FPR and memory",
    "PPC64 double in FPR past r10",
    "PPC64 double in memory",
    "PPC64 float-like struct in GPR",
    "PPC64 float-like struct in memory",
    "PPC64 hidden result",
    "PPC64 integer in GPR",
    "PPC64 integer in memory",
    "PPC64 larger area",
    "PPC64 larger struct that ends within a doubleword",
    "PPC64 long double in GPR",
    "PPC64 long double in memory",
    "PPC64 long double straddling",
    "PPC64 other struct in GPR",
    "PPC64 other struct in memory",
    "PPC64 other struct straddling",
    "PPC64 single in FPR",
    "PPC64 single in FPR and GPR",
    "PPC64 single in FPR and memory",
    "PPC64 single in FPR past r10",
    "PPC64 single in memory",
    "PPC64 smallest area",
    "PPC64 struct of 1 in GPR",
    "PPC64 struct of 1 in memory",
    "PPC64 struct of 2 in GPR",
    "PPC64 struct of 2 in memory",
    "PPC64 struct of 3 in GPR",
    "PPC64 struct of 3 in memory",
    "PPC64 struct of 4 in GPR",
    "PPC64 struct of 4 in memory",
    "PPC64 struct of 5 in GPR",
    "PPC64 struct of 5 in memory",
    "PPC64 struct of 6 in GPR",
    "PPC64 struct of 6 in memory",
    "PPC64 struct of 7 in GPR",
    "PPC64 struct of 7 in memory",
    "PPC64 struct of 8 in GPR",
    "PPC64 struct of 8 in memory",
];

/// What accepted calls of Z must have been like.
pub const Z: [&str; 30] = [
    "Z 128 arguments",
    "Z calls with an ellipsis",
    "Z copies end off a multiple of 8",
    "Z double in FPR",
    "Z double in memory",
    "Z float-like struct of 4 in FPR",
    "Z float-like struct of 4 in memory",
    "Z float-like struct of 8 in FPR",
    "Z float-like struct of 8 in memory",
    "Z gap before a copy",
    "Z hidden result",
    "Z integer in GPR",
    "Z integer in memory",
    "Z larger area",
    "Z long double by reference in GPR",
    "Z long double by reference in memory",
    "Z no arguments",
    "Z other struct by reference in GPR",
    "Z other struct by reference in memory",
    "Z other struct of 1 in GPR",
    "Z other struct of 1 in memory",
    "Z other struct of 2 in GPR",
    "Z other struct of 2 in memory",
    "Z other struct of 4 in GPR",
    "Z other struct of 4 in memory",
    "Z other struct of 8 in GPR",
    "Z other struct of 8 in memory",
    "Z single in FPR",
    "Z single in memory",
    "Z smallest area",
];

/// What accepted calls of AIX must have been like.
pub const AIX: [&str; 28] = [
    "AIX 128 arguments",
    "AIX 64-bit integer in GPR",
    "AIX 64-bit integer in memory",
    "AIX 64-bit integer straddling",
    "AIX calls with an ellipsis",
    "AIX double in FPR",
    "AIX double in FPR across r10",
    "AIX double in FPR and GPR",
    "AIX double in FPR and memory",
    "AIX double in FPR past r10",
    "AIX double in FPR, GPR and memory",
    "AIX double in memory",
    "AIX float-like struct in GPR",
    "AIX float-like struct in memory",
    "AIX hidden result",
    "AIX integer in GPR",
    "AIX integer in memory",
    "AIX larger area",
    "AIX other struct in GPR",
    "AIX other struct in memory",
    "AIX other struct straddling",
    "AIX single in FPR",
    "AIX single in FPR and GPR",
    "AIX single in FPR and memory",
    "AIX single in FPR past r10",
    "AIX single in memory",
    "AIX smallest area",
    "AIX struct that ends within a word",
];

/// What accepted calls of code 4 must have been like.
pub const PPC64B: [&str; 30] = [
    "PPC64B 128 arguments",
    "PPC64B calls with an ellipsis",
    "PPC64B double in FPR",
    "PPC64B double in FPR and GPR",
    "PPC64B double in FPR and memory",
    "PPC64B double in FPR past r10",
    "PPC64B double in memory",
    "PPC64B float-like struct in GPR",
    "PPC64B float-like struct in memory",
    "PPC64B hidden result",
    "PPC64B integer in GPR",
    "PPC64B integer in memory",
    "PPC64B larger area",
    "PPC64B long double in FPR",
    "PPC64B long double in FPR and GPR",
    "PPC64B long double in FPR and memory",
    "PPC64B long double in FPR past r10",
    "PPC64B long double in FPR, GPR and memory",
    "PPC64B long double in memory",
    "PPC64B other struct in GPR",
    "PPC64B other struct in memory",
    "PPC64B other struct straddling",
    "PPC64B single in FPR",
    "PPC64B single in FPR and GPR",
    "PPC64B single in FPR and memory",
    "PPC64B single in FPR past r10",
    "PPC64B single in memory",
    "PPC64B smallest area",
    "PPC64B struct at a doubleword's end in GPR",
    "PPC64B struct at a doubleword's end in memory",
];

/// How often each answer was given, and how often each interesting case came.
#[derive(Clone, Default)]
pub struct Histogram {
    /// Yes at 0, each refusal at its number.
    pub answers: [u64; 30],
    /// How many of each had a count of items.
    pub counted: [u64; 30],
    pub cases: BTreeMap<String, u64>,
    /// The bytes of the longest listing.
    pub longest: usize,
}

impl Histogram {
    pub fn total(&self) -> u64 {
        self.answers.iter().sum()
    }

    pub fn accepted(&self) -> u64 {
        self.answers[0]
    }

    /// How often the case of this name came.
    pub fn case(&self, name: &str) -> u64 {
        self.cases.get(name).copied().unwrap_or(0)
    }

    fn count(&mut self, name: &str) {
        match self.cases.get_mut(name) {
            Some(count) => *count += 1,
            None => {
                self.cases.insert(name.to_string(), 1);
            }
        }
    }
}

impl fmt::Display for Histogram {
    fn fmt(&self, to: &mut fmt::Formatter<'_>) -> fmt::Result {
        let (total, accepted) = (self.total(), self.accepted());
        write!(to, "{total} signatures planned: accepted {accepted}")?;
        for &number in &ANSWERS[1..] {
            let (count, counted) = (self.answers[number], self.counted[number]);
            write!(to, ", {number}: {count} ({counted} counted)")?;
        }
        write!(to, "; longest listing {} bytes", self.longest)?;
        for (name, count) in &self.cases {
            write!(to, "\n  {name}: {count}")?;
        }
        Ok(())
    }
}

/// The bytes behind a lent buffer that must stay as they are.
const NOT_LENT: usize = 40;

/// What the second program answers, in the words of the C surface.
pub(crate) fn expected_sizes(plan: &Result<Plan, reference::Refusal>) -> Sizes {
    let sizes = |answer, [values, area, copies]: [usize; 3]| Sizes {
        answer,
        values: values as u64,
        area: area as u64,
        copies: copies as u64,
    };
    match plan {
        Ok(plan) => sizes(ACCEPTED, [plan.values, plan.area, plan.copies]),
        Err(refusal) => sizes(refused(refusal), [0; 3]),
    }
}

pub(crate) fn expected_plan(table: &Result<Table, reference::Refusal>) -> Planned {
    let (answer, head) = match table {
        Ok(table) => (ACCEPTED, table.head),
        Err(refusal) => (refused(refusal), [0; 11]),
    };
    let [convention, ellipsis, arguments, values, area, copies, result, result_gpr, result_gprs, result_fpr, result_fprs] =
        head;
    Planned {
        answer,
        convention,
        ellipsis,
        arguments,
        values,
        area,
        copies,
        result,
        result_gpr,
        result_gprs,
        result_fpr,
        result_fprs,
    }
}

/// What a table holds before: no word of it can be one of an entry.
pub(crate) fn word_before(at: usize) -> u64 {
    !(at as u64)
}

/// What a table of this many words holds after.
pub(crate) fn expected_words(table: &Result<Table, reference::Refusal>, room: usize) -> Vec<u64> {
    let mut words: Vec<u64> = (0..room).map(word_before).collect();
    if let Ok(table) = table {
        let entries = table.entries.concat();
        if let Some(head) = words.get_mut(..entries.len()) {
            head.copy_from_slice(&entries);
        }
    }
    words
}

/// Compares the two on one signature. `longer` is by how much the longest buffer for the listing,
/// and the longest table, is longer than it.
pub fn compare(bytes: &[u8], longer: usize, seen: &mut Histogram) -> Result<(), Difference> {
    let differ = |told: String| {
        Err(Difference(format!(
            "{told}\nfor the signature {}",
            hex(bytes)
        )))
    };
    let call = reference::call(bytes);
    let plan = match &call {
        Ok((_, plan)) => Ok(plan.clone()),
        Err(refusal) => Err(*refusal),
    };

    let expected = expected_sizes(&plan);
    let given = surface::measure(bytes);
    if given != expected {
        return differ(format!(
            "the library answers {given:?}\nthe second program {expected:?}"
        ));
    }
    let compact = compact::plan(bytes).map(Plan::from);
    if compact != plan {
        return differ(format!(
            "the second program's planners differ: {plan:?}\nand the compact one {compact:?}"
        ));
    }
    compare_tables(bytes, longer).or_else(differ)?;
    let listing = match &plan {
        Ok(plan) => reference::listing_of(plan),
        Err(refusal) => reference::refusal_line(refusal),
    };
    compare_listing(bytes, &listing, longer).or_else(differ)?;

    let number = expected.answer.number as usize;
    seen.answers[number] += 1;
    seen.counted[number] += u64::from(expected.answer.items > 0);
    seen.longest = seen.longest.max(listing.len());
    if let Ok((signature, plan)) = &call {
        count_cases(signature, plan, seen);
    }
    Ok(())
}

/// Holds the library to the whole plan in tables without room, with one word too few, with exactly
/// enough and with more; behind each lie words that are not lent. The second program's compact one
/// and the second planner are held to it too.
fn compare_tables(bytes: &[u8], longer: usize) -> Result<(), String> {
    let table = table::table(bytes);
    second_planner::compare(bytes, &table)?;
    let expected = expected_plan(&table);
    let length = ENTRY * expected.arguments as usize;
    for room in [0, length.saturating_sub(1), length, length + longer] {
        let mut after = expected_words(&table, room);
        after.extend((room..room + NOT_LENT).map(word_before));
        let mut words: Vec<u64> = (0..room + NOT_LENT).map(word_before).collect();
        let given = surface::plan(bytes, &mut words[..room]);
        if given != expected {
            return Err(format!(
                "with room for {room} words the library plans {given:?}\nthe second program {expected:?}"
            ));
        }
        if words != after {
            return Err(format!(
                "with room for {room} words the library leaves\n{words:?}\nand not\n{after:?}"
            ));
        }
        let head = table.as_ref().map(|table| table.head).map_err(|&no| no);
        for planner in [compact::table, compact::table_in_two_passes] {
            let mut words: Vec<u64> = (0..room + NOT_LENT).map(word_before).collect();
            let compact = planner(bytes, &mut words[..room]);
            if compact != head || words != after {
                return Err(format!(
                    "with room for {room} words a compact planner gives {compact:?} and\n{words:?}\nand not\n{after:?}"
                ));
            }
        }
    }
    Ok(())
}

/// Holds the library to a listing in buffers without room, with one byte too few, with exactly
/// enough and with more. Behind each lie bytes that are not lent.
fn compare_listing(bytes: &[u8], listing: &str, longer: usize) -> Result<(), String> {
    let length = listing.len();
    for room in [0, length - 1, length, length + longer] {
        let mut text: Vec<u8> = (0..room + NOT_LENT).map(pattern).collect();
        let mut expected = text.clone();
        if length <= room {
            expected[..length].copy_from_slice(listing.as_bytes());
        }
        let given = surface::listing(bytes, &mut text[..room]);
        if given != length as u64 {
            return Err(format!(
                "with room for {room} bytes the library gives length {given} to\n{listing}"
            ));
        }
        if text != expected {
            return Err(format!(
                "with room for {room} bytes the library leaves\n{}\nand not\n{}",
                text.escape_ascii(),
                expected.escape_ascii()
            ));
        }
    }
    Ok(())
}

/// What the buffer holds before: no byte of it can be one of a listing.
fn pattern(at: usize) -> u8 {
    0x80 | (at * 11 + 5) as u8
}

/// Counts which interesting cases a plan has.
pub(crate) fn count_cases(signature: &Signature, plan: &Plan, seen: &mut Histogram) {
    let convention = match plan.convention {
        Convention::Ppc64 => "PPC64",
        Convention::Z => "Z",
        Convention::Aix => "AIX",
        Convention::Ppc64b => "PPC64B",
    };
    let mut count = |case: &str| seen.count(&format!("{convention} {case}"));
    count("calls");
    if plan.ellipsis {
        count("calls with an ellipsis");
    }
    match plan.arguments.len() {
        0 => count("no arguments"),
        generate::MOST_ARGUMENTS => count("128 arguments"),
        _ => {}
    }
    count(match &signature.result {
        None => "result none",
        Some(of) if is_wide(plan.convention, of) => "result 64-bit integer",
        Some(Type::Integer(_)) => "result integer",
        Some(Type::Float(Float::LongDouble)) => "result long double",
        Some(Type::Float(_)) => "result single or double",
        Some(of @ Type::Struct(_)) if float_equivalent(of).is_some() => "result float-like struct",
        Some(Type::Struct(_)) => "result other struct",
    });
    if matches!(plan.result, ResultPlan::Hidden(_)) {
        count("hidden result");
    }
    let least = match plan.convention {
        Convention::Ppc64 | Convention::Ppc64b => 64,
        Convention::Z => 0,
        Convention::Aix => 32,
    };
    count(match plan.area == least {
        true => "smallest area",
        false => "larger area",
    });
    if plan.copies % 8 != 0 {
        count("copies end off a multiple of 8");
    }
    let mut copies_end = 0;
    for (argument, of) in plan.arguments.iter().zip(&signature.arguments) {
        count(&argument_case(plan.convention, argument, of));
        let part_of_a_word = of.size(plan.convention) % plan.convention.word() != 0;
        if plan.convention == Convention::Aix && matches!(of, Type::Struct(_)) && part_of_a_word {
            count("struct that ends within a word");
        }
        if plan.convention == Convention::Ppc64 && matches!(of, Type::Struct(_)) {
            match (of.size(plan.convention), argument.places[0]) {
                (size @ 1..=8, Place::Memory(_)) => count(&format!("struct of {size} in memory")),
                (size @ 1..=8, _) => count(&format!("struct of {size} in GPR")),
                (size, _) if size % 8 != 0 => {
                    count("larger struct that ends within a doubleword");
                }
                _ => {}
            }
        }
        if plan.convention == Convention::Ppc64b && matches!(of, Type::Struct(_)) {
            match (of.size(plan.convention), argument.places[0]) {
                (1..=7, Place::Memory(_)) => count("struct at a doubleword's end in memory"),
                (1..=7, _) => count("struct at a doubleword's end in GPR"),
                _ => {}
            }
        }
        if let Some(start) = argument.copy {
            if start > copies_end {
                count("gap before a copy");
            }
            copies_end = start + of.size(plan.convention);
        }
    }
}

/// Whether a type is an integer of two words.
fn is_wide(convention: Convention, of: &Type) -> bool {
    matches!(of, Type::Integer(_)) && of.size(convention) > convention.word()
}

/// A name for how an argument stands.
fn argument_case(convention: Convention, argument: &ArgumentPlan, of: &Type) -> String {
    let kind = match of {
        Type::Integer(_) if is_wide(convention, of) => "64-bit integer",
        Type::Integer(_) => "integer",
        Type::Float(Float::Single) => "single",
        Type::Float(Float::Double) => "double",
        Type::Float(Float::LongDouble) => "long double",
        Type::Struct(_) if float_equivalent(of).is_some() => "float-like struct",
        Type::Struct(_) => "other struct",
    };
    let first = argument.places[0];
    let last = argument.places[argument.places.len() - 1];
    let holds = |of: fn(&Place) -> bool| argument.places.iter().any(of);
    let general = holds(|place| matches!(place, Place::General(_)));
    let memory = holds(|place| matches!(place, Place::Memory(_)));
    let place = match (first, last) {
        // with an ellipsis
        (Place::Floating(_), _) if general && memory => "in FPR, GPR and memory",
        (Place::Floating(_), _) if general => "in FPR and GPR",
        (Place::Floating(_), _) if memory => "in FPR and memory",
        (Place::Memory(_), _) => "in memory",
        (_, Place::Memory(_)) => "straddling",
        // on PPC64 and AIX a float may have a register although its words are not among the first 8
        (Place::Floating(_), _) if argument.offset >= Some(8 * convention.word()) => {
            "in FPR past r10"
        }
        (Place::Floating(_), _)
            if convention == Convention::Aix
                && argument.offset == Some(28)
                && *of == Type::Float(Float::Double) =>
        {
            "in FPR across r10"
        }
        (Place::Floating(_), _) => "in FPR",
        (Place::General(_), _) => "in GPR",
    };
    let how = match (convention, argument.by_reference()) {
        (Convention::Z, true) => " by reference".to_string(),
        (Convention::Z, false) if matches!(of, Type::Struct(_)) => {
            format!(" of {}", of.size(convention))
        }
        _ => String::new(),
    };
    format!("{kind}{how} {place}")
}

/// A kind of argument that a call is mostly made of.
#[derive(Clone, Copy)]
enum Mostly {
    Anything,
    Integers,
    Floats,
    /// On AIX 64-bit integers, which take two places there too.
    LongDoubles,
    /// Of 1 to 12 bytes.
    SmallStructs,
    FloatLikeStructs,
    /// Of 1 to 10 doublewords.
    MiddlingStructs,
    /// Of 256 bytes, or a few less.
    LargeStructs,
}

/// Large structs make long signatures and show little: they come once in 13.
const MIXES: [Mostly; 13] = [
    Mostly::Anything,
    Mostly::Anything,
    Mostly::Integers,
    Mostly::Integers,
    Mostly::Floats,
    Mostly::Floats,
    Mostly::LongDoubles,
    Mostly::LongDoubles,
    Mostly::SmallStructs,
    Mostly::SmallStructs,
    Mostly::FloatLikeStructs,
    Mostly::MiddlingStructs,
    Mostly::LargeStructs,
];

/// A signature within all limits whose call is of interest: mostly one or two kinds of argument,
/// in any number.
pub fn interesting(random: &mut Random) -> Signature {
    let convention = random.pick(&Convention::ALL);
    interesting_for(random, convention)
}

/// The same of this convention.
pub fn interesting_for(random: &mut Random, convention: Convention) -> Signature {
    let mixes = [random.pick(&MIXES), random.pick(&MIXES), Mostly::Anything];
    let result = random.once_in(2).then(|| {
        let mix = random.pick(&mixes);
        argument(random, convention, mix)
    });
    let ellipsis = generate::any_ellipsis(random);
    let count = match random.below(8) {
        0 => generate::MOST_ARGUMENTS,
        1..=2 => random.below(generate::MOST_ARGUMENTS + 1),
        3..=5 => random.below(25),
        _ => random.below(9),
    };
    // now and then a float of two words has one of them in the last register, the other in memory
    let hidden = matches!(result, Some(Type::Struct(_)));
    let often = if ellipsis { 3 } else { 10 };
    let straddling = random.once_in(often).then_some(7 - usize::from(hidden));
    let count = count.max(straddling.map_or(0, |before| before + 1));
    let arguments = (0..count).map(|number| {
        match straddling {
            Some(before) if number < before => return Type::Integer(Integer::I32),
            Some(before) if number == before => return Type::Float(widest(convention)),
            _ => {}
        }
        // the last of the three comes seldom
        let mix = mixes[random.below(9) / 4];
        argument(random, convention, mix)
    });
    generate::fitting(convention, result, ellipsis, arguments)
}

/// The largest float that an argument may be.
fn widest(convention: Convention) -> Float {
    match convention {
        Convention::Aix => Float::Double,
        _ => Float::LongDouble,
    }
}

/// An argument of one of the kinds.
pub fn any_argument(random: &mut Random, convention: Convention) -> Type {
    let mix = random.pick(&MIXES);
    argument(random, convention, mix)
}

fn argument(random: &mut Random, convention: Convention, mix: Mostly) -> Type {
    match mix {
        Mostly::Anything => generate::valid_type(random, convention),
        Mostly::Integers => Type::Integer(random.pick(&INTEGERS)),
        Mostly::Floats => Type::Float(random.pick(&[Float::Single, Float::Double])),
        Mostly::LongDoubles if convention == Convention::Aix => {
            Type::Integer(random.pick(&[Integer::I64, Integer::U64]))
        }
        Mostly::LongDoubles => Type::Float(Float::LongDouble),
        Mostly::SmallStructs => small_struct(random),
        Mostly::FloatLikeStructs => {
            let levels = 1 + random.below(8);
            let float = Type::Float(random.pick(generate::field_floats(convention)));
            (0..levels).fold(float, |inner, _| Type::Struct(vec![inner]))
        }
        Mostly::MiddlingStructs => {
            let count = 1 + random.below(10);
            struct_of_doublewords(random, count)
        }
        Mostly::LargeStructs => {
            let count = 31 + random.below(2);
            struct_of_doublewords(random, count)
        }
    }
}

/// A struct of 1 to 12 bytes.
fn small_struct(random: &mut Random) -> Type {
    // of every size up to one byte more than a doubleword
    if !random.once_in(4) {
        return Type::Struct(vec![Type::Integer(Integer::U8); 1 + random.below(9)]);
    }
    let field = |random: &mut Random| match random.below(4) {
        0 => Type::Float(Float::Single),
        1 => Type::Integer(Integer::I32),
        2 => Type::Integer(Integer::U16),
        _ => Type::Integer(Integer::I8),
    };
    Type::Struct((0..1 + random.below(3)).map(|_| field(random)).collect())
}

/// A struct of this many doublewords, the last of which may be a part of one.
fn struct_of_doublewords(random: &mut Random, count: usize) -> Type {
    let narrow = random.once_in(2);
    let mut fields = Vec::new();
    for _ in 1..count {
        match narrow {
            // with these the struct's size is no multiple of 8
            true => fields.extend([Type::Integer(Integer::U32), Type::Float(Float::Single)]),
            false => fields.push(Type::Integer(
                random.pick(&[Integer::I64, Integer::Pointer]),
            )),
        }
    }
    let last = random.pick(&[Integer::I8, Integer::U16, Integer::I32]);
    fields.push(Type::Integer(last));
    Type::Struct(fields)
}

/// Compares the two on at least this many accepted signatures and on as many of every other sort.
pub fn run(seed: u64, accepted: u64) -> Result<Histogram, Difference> {
    let mut random = Random::new(seed);
    let mut seen = Histogram::default();
    while seen.accepted() < accepted {
        let valid = encode::signature(&generate::valid(&mut random));
        let chosen = encode::signature(&interesting(&mut random));
        let also_chosen = encode::signature(&interesting(&mut random));
        let damaged = generate::damaged(&mut random, &chosen);
        let faulty = generate::faulty(&mut random);
        let noise = generate::noise(&mut random);
        for bytes in [valid, chosen, also_chosen, damaged, faulty, noise] {
            compare(&bytes, 1 + random.below(100), &mut seen)?;
        }
    }
    Ok(seen)
}
