//! Arguments that are appended to a signature: what document 02's No. 3 says of the shorter and the
//! longer one, held against each of the two programs.

use crate::encode;
use crate::generate;
use crate::random::Random;
use crate::signatures::hex;
use crate::Difference;
use flakuzhen::surface::plans::{self as surface, PLACE_WORDS};
use reference::table::{self, Table, ENTRY};
use reference::{first_unclear, marshal, Convention, Float, Integer, Signature, Type};
use std::collections::BTreeMap;

/// Number, place and count of a refusal.
type Refusal = [u64; 3];

/// One of the two programs.
trait Program {
    const NAME: &'static str;
    fn table(signature: &[u8]) -> Result<Table, Refusal>;
    fn listing(signature: &[u8]) -> String;
    fn fill(signature: &[u8], values: &[u8], to: &mut Buffers) -> Result<(), Refusal>;
    fn read(signature: &[u8], values: &mut [u8], from: &Buffers) -> Result<(), Refusal>;
}

struct Library;

impl Program for Library {
    const NAME: &'static str = "the library";

    fn table(signature: &[u8]) -> Result<Table, Refusal> {
        let mut words = vec![0; PLACE_WORDS * generate::MOST_ARGUMENTS];
        let planned = surface::plan(signature, &mut words);
        let answer = planned.answer;
        if answer.number != 0 {
            return Err([answer.number, answer.place, answer.items]);
        }
        let entries = words.chunks_exact(PLACE_WORDS);
        let entry = |words: &[u64]| <[u64; ENTRY]>::try_from(words).expect("the words of an entry");
        Ok(Table {
            head: [
                planned.convention,
                planned.ellipsis,
                planned.arguments,
                planned.values,
                planned.area,
                planned.copies,
                planned.result,
                planned.result_gpr,
                planned.result_gprs,
                planned.result_fpr,
                planned.result_fprs,
            ],
            entries: entries
                .take(planned.arguments as usize)
                .map(entry)
                .collect(),
        })
    }

    fn listing(signature: &[u8]) -> String {
        flakuzhen::listing(signature)
    }

    fn fill(signature: &[u8], values: &[u8], to: &mut Buffers) -> Result<(), Refusal> {
        let (base, hidden) = (to.copy_base, to.hidden);
        let (image, area, copies) = (&mut to.image, &mut to.area, &mut to.copies);
        let answer = flakuzhen::fill(signature, values, image, area, copies, base, hidden);
        answer.map_err(library_refusal)
    }

    fn read(signature: &[u8], values: &mut [u8], from: &Buffers) -> Result<(), Refusal> {
        let (image, area, copies) = (&from.image, &from.area, &from.copies);
        let answer = flakuzhen::read(signature, values, image, area, copies, from.copy_base);
        answer.map_err(library_refusal)
    }
}

fn library_refusal(refusal: flakuzhen::Refusal) -> Refusal {
    [refusal.number, refusal.place, refusal.items]
}

struct Second;

impl Program for Second {
    const NAME: &'static str = "the second program";

    fn table(signature: &[u8]) -> Result<Table, Refusal> {
        table::table(signature).map_err(second_refusal)
    }

    fn listing(signature: &[u8]) -> String {
        reference::listing(signature)
    }

    fn fill(signature: &[u8], values: &[u8], to: &mut Buffers) -> Result<(), Refusal> {
        let (base, hidden) = (to.copy_base, to.hidden);
        let (image, area, copies) = (&mut to.image, &mut to.area, &mut to.copies);
        let answer = marshal::fill(signature, values, image, area, copies, base, hidden);
        answer.map_err(second_refusal)
    }

    fn read(signature: &[u8], values: &mut [u8], from: &Buffers) -> Result<(), Refusal> {
        let (image, area, copies) = (&from.image, &from.area, &from.copies);
        let answer = marshal::read(signature, values, image, area, copies, from.copy_base);
        answer.map_err(second_refusal)
    }
}

fn second_refusal(refusal: reference::Refusal) -> Refusal {
    [refusal.number, refusal.place as u64, refusal.items as u64]
}

/// What a call's values are put in.
#[derive(Clone)]
struct Buffers {
    image: Vec<u8>,
    area: Vec<u8>,
    copies: Vec<u8>,
    copy_base: u64,
    hidden: u64,
}

impl Buffers {
    /// Large enough for a plan with this head, all bytes the same.
    fn of(byte: u8, head: &[u64; 11], copy_base: u64, hidden: u64) -> Buffers {
        Buffers {
            image: vec![byte; 512],
            area: vec![byte; head[4] as usize],
            copies: vec![byte; head[5] as usize],
            copy_base,
            hidden,
        }
    }

    fn bytes(&self) -> impl Iterator<Item = u8> + '_ {
        let rest = self.area.iter().chain(&self.copies);
        self.image.iter().chain(rest).copied()
    }
}

/// How often each case came, by the convention's name, with ` var` after it for an ellipsis.
pub type Cases = BTreeMap<String, u64>;

/// Two signatures' bytes, of which the second has arguments after those of the first.
pub struct Pair {
    pub shorter: Vec<u8>,
    pub longer: Vec<u8>,
    /// The values of the longer call, if it is one, and what else filling takes.
    values: Vec<u8>,
    copy_base: u64,
    hidden: u64,
}

impl Pair {
    /// The signature, and as many of its arguments as `kept` says.
    pub fn of(longer: &Signature, kept: usize, random: &mut Random) -> Pair {
        let shorter = Signature {
            arguments: longer.arguments[..kept].to_vec(),
            ..longer.clone()
        };
        let sizes = longer.arguments.iter();
        let values: usize = sizes.map(|of| of.size(longer.convention)).sum();
        Pair {
            shorter: encode::signature(&shorter),
            longer: encode::signature(longer),
            values: (0..values).map(|_| random.byte()).collect(),
            copy_base: random.number() >> 32 << 3,
            hidden: random.number() >> 32,
        }
    }
}

/// Any pair: mostly of an accepted signature, once in 20 times of one that refusal 29 is for.
fn any_pair(random: &mut Random) -> Pair {
    let longer = match random.once_in(20) {
        true => unclear(random),
        false => generate::valid(random),
    };
    let kept = match random.below(4) {
        // a driver grew one argument
        0 => longer.arguments.len().saturating_sub(1),
        _ => random.below(longer.arguments.len() + 1),
    };
    Pair::of(&longer, kept, random)
}

/// By the later edition, with a long double for which only f13 is left.
fn unclear(random: &mut Random) -> Signature {
    let mut signature = generate::valid_for(random, Convention::Ppc64b);
    let types = [
        Type::Float(Float::Double),
        Type::Float(Float::Single),
        Type::Integer(Integer::I32),
    ];
    let before = random.below(4);
    signature.arguments.truncate(before);
    let unclear = |signature: &Signature| {
        let mut more = signature.clone();
        more.arguments.push(Type::Float(Float::LongDouble));
        first_unclear(&more) == Some(signature.arguments.len())
    };
    while !unclear(&signature) {
        let kind = random.below(types.len());
        signature.arguments.push(types[kind].clone());
    }
    signature.arguments.push(Type::Float(Float::LongDouble));
    for _ in 0..random.below(6) {
        let next = generate::valid_type(random, Convention::Ppc64b);
        signature.arguments.push(next);
    }
    signature
}

/// Makes so many pairs and holds both programs to what is said of them.
pub fn run(seed: u64, pairs: u64) -> Result<Cases, Difference> {
    let mut random = Random::new(seed);
    let mut cases = Cases::new();
    for _ in 0..pairs {
        compare(&any_pair(&mut random), &mut cases)?;
    }
    Ok(cases)
}

/// Holds both programs to what is said of a pair.
pub fn compare(pair: &Pair, cases: &mut Cases) -> Result<(), Difference> {
    hold::<Library>(pair, cases)?;
    hold::<Second>(pair, cases)
}

fn hold<P: Program>(pair: &Pair, cases: &mut Cases) -> Result<(), Difference> {
    let found = check::<P>(pair).map_err(|told| {
        let (shorter, longer) = (hex(&pair.shorter), hex(&pair.longer));
        let signatures = format!("for the signature {shorter}\nand the longer {longer}");
        Difference(format!("{}: {told}\n{signatures}", P::NAME))
    })?;
    for case in found {
        *cases.entry(case).or_default() += 1;
    }
    Ok(())
}

/// What is said of a pair, and the cases that it is.
fn check<P: Program>(pair: &Pair) -> Result<Vec<String>, String> {
    let (shorter, longer) = match (P::table(&pair.shorter), P::table(&pair.longer)) {
        (Ok(shorter), Ok(longer)) => (shorter, longer),
        // "provided that the longer signature is accepted"
        (Ok(_), Err([29, ..])) => return Ok(vec!["29 of an appended argument".to_string()]),
        (Err(no), Err(other)) if no == other && no[0] == 29 => {
            return Ok(vec!["29 of an earlier argument".to_string()])
        }
        (shorter, longer) => {
            let heads = [shorter, longer].map(|answer| answer.map(|table| table.head));
            return Err(format!("answers {heads:?}"));
        }
    };

    // "never changes a place, offset, or copy position of any earlier argument"
    let kept = shorter.entries.len();
    if longer.entries[..kept] != shorter.entries {
        return Err(format!("plans {shorter:?}\nand {longer:?}"));
    }
    let [convention, ellipsis, _, values, area, copies, result @ ..] = shorter.head;
    let [new_convention, new_ellipsis, _, new_values, new_area, new_copies, new_result @ ..] =
        longer.head;
    // "The area may only grow"
    let grown = values <= new_values && area <= new_area && copies <= new_copies;
    let same = (convention, ellipsis, result) == (new_convention, new_ellipsis, new_result);
    if !grown || !same {
        return Err(format!("plans {:?}\nand {:?}", shorter.head, longer.head));
    }
    check_listings::<P>(pair, kept)?;
    check_filling::<P>(pair, &shorter.head, &longer.head)?;

    let name = match convention {
        1 => "PPC64",
        2 => "Z",
        3 => "AIX",
        _ => "PPC64B",
    };
    let mark = if ellipsis == 1 { " var" } else { "" };
    let mut found = vec![format!("{name}{mark} pairs")];
    for (case, holds) in [
        ("nothing before", kept == 0),
        ("nothing appended", kept == longer.entries.len()),
        ("one argument more", kept + 1 == longer.entries.len()),
        ("larger area", area < new_area),
        ("more copies", copies < new_copies),
        ("hidden result", result[0] == 2),
    ] {
        if holds {
            found.push(format!("{name}{mark} {case}"));
        }
    }
    Ok(found)
}

/// The lines of the earlier arguments and of the result are the same, byte for byte.
fn check_listings<P: Program>(pair: &Pair, kept: usize) -> Result<(), String> {
    let (shorter, longer) = (P::listing(&pair.shorter), P::listing(&pair.longer));
    let lines = |text: &str| {
        let mut lines: Vec<String> = text.lines().map(str::to_string).collect();
        let last = lines.pop();
        let arguments = lines[1..=kept].to_vec();
        (arguments, last)
    };
    match lines(&shorter) == lines(&longer) {
        true => Ok(()),
        false => Err(format!("lists\n{shorter}and\n{longer}")),
    }
}

/// Filling by the longer signature leaves each byte that filling by the shorter one writes as that
/// one does, and reading by the shorter one gives its values back.
fn check_filling<P: Program>(
    pair: &Pair,
    shorter: &[u64; 11],
    longer: &[u64; 11],
) -> Result<(), String> {
    let Pair {
        copy_base, hidden, ..
    } = *pair;
    let own = &pair.values[..shorter[3] as usize];
    let fill = |byte: u8, signature: &[u8], values: &[u8]| {
        let mut buffers = Buffers::of(byte, longer, copy_base, hidden);
        let answer = P::fill(signature, values, &mut buffers);
        answer.map_err(|no| format!("refuses to fill: {no:?}"))?;
        Ok::<Buffers, String>(buffers)
    };
    let zeros = fill(0x00, &pair.shorter, own)?;
    let ones = fill(0xff, &pair.shorter, own)?;
    let all = fill(0x5a, &pair.longer, &pair.values)?;
    // what is written does not depend on what was there
    let mut bytes = zeros.bytes().zip(ones.bytes()).zip(all.bytes());
    if !bytes.all(|((zero, one), byte)| zero != one || zero == byte) {
        return Err("fills an earlier argument's place with something else".to_string());
    }
    let mut back = vec![0; own.len()];
    let answer = P::read(&pair.shorter, &mut back, &all);
    match (answer, back == own) {
        (Ok(()), true) => Ok(()),
        (answer, _) => Err(format!(
            "reads {answer:?}, {} and not {}",
            hex(&back),
            hex(own)
        )),
    }
}
