//! Stored plans compared: their length, their bytes in buffers of every kind of length, and the check
//! of these bytes whole, cut, lengthened, with bytes changed, and against other signatures.

use crate::encode;
use crate::generate;
use crate::marshal::Lent;
use crate::plans;
use crate::random::Random;
use crate::signatures::{hex, refused, ACCEPTED};
use crate::Difference;
use flakuzhen::surface::stored::{self as surface, Stored};
use flakuzhen::surface::Answer;
use reference::{stored as second, Convention, Integer, Refusal, Signature, Type};
use std::collections::hash_map::DefaultHasher;
use std::collections::{BTreeMap, HashMap};
use std::fmt;
use std::hash::{Hash, Hasher};
use std::hint::black_box;

/// One more than the highest number of a refusal.
pub const ANSWERS: usize = 34;

/// A plan of which every truncation and every byte changed is checked has at most this many bytes,
/// but for a few.
const SHORT: usize = 400;

/// How often each answer was given and what was stored.
#[derive(Clone)]
pub struct Histogram {
    /// Yes at 0, each refusal at its number; one of each signature.
    pub lengths: [u64; ANSWERS],
    /// The same of each buffer.
    pub stores: [u64; ANSWERS],
    /// The same of each check.
    pub checks: [u64; ANSWERS],
    /// How many refused checks had a count of items.
    pub counted: [u64; ANSWERS],
    /// How often stored bytes were made wrong in each way.
    pub stale: BTreeMap<&'static str, u64>,
    /// How often each kind of place was stored, and signatures of each convention.
    pub places: BTreeMap<String, u64>,
    /// What the accepted calls were like.
    pub accepted: plans::Histogram,
    /// Plans with every truncation and every byte changed.
    pub thorough: u64,
    /// Plans with every other value of every byte.
    pub exhaustive: u64,
    /// The bytes of the longest plan, and of the longest one that was checked at every byte.
    pub longest: usize,
    pub longest_thorough: usize,
    /// Which signature has stored bytes: of each a number that is theirs alone but by the least of
    /// chances.
    known: HashMap<u128, u128>,
}

impl Histogram {
    fn new() -> Histogram {
        Histogram {
            lengths: [0; ANSWERS],
            stores: [0; ANSWERS],
            checks: [0; ANSWERS],
            counted: [0; ANSWERS],
            stale: BTreeMap::new(),
            places: BTreeMap::new(),
            accepted: plans::Histogram::default(),
            thorough: 0,
            exhaustive: 0,
            longest: 0,
            longest_thorough: 0,
            known: HashMap::new(),
        }
    }

    /// All signatures.
    pub fn total(&self) -> u64 {
        self.lengths.iter().sum()
    }

    /// Those that a plan was stored of.
    pub fn stored(&self) -> u64 {
        self.lengths[0]
    }

    /// Different stored plans.
    pub fn different(&self) -> usize {
        self.known.len()
    }

    pub fn place(&self, name: &str) -> u64 {
        self.places.get(name).copied().unwrap_or(0)
    }

    fn count_check(&mut self, answer: Answer) {
        let number = answer.number as usize;
        self.checks[number] += 1;
        self.counted[number] += u64::from(answer.items > 0);
    }
}

impl fmt::Display for Histogram {
    fn fmt(&self, to: &mut fmt::Formatter<'_>) -> fmt::Result {
        write!(
            to,
            "{} signatures, {} stored, {} different; the longest {} bytes; {} checked at every byte, the \
             longest {} bytes, {} with every value",
            self.total(),
            self.stored(),
            self.different(),
            self.longest,
            self.thorough,
            self.longest_thorough,
            self.exhaustive
        )?;
        for (name, answers) in [
            ("length", &self.lengths),
            ("store", &self.stores),
            ("check", &self.checks),
        ] {
            write!(to, "\n  {name}:")?;
            for (number, count) in answers.iter().enumerate().filter(|(_, &count)| count > 0) {
                write!(to, " {number}: {count}")?;
            }
        }
        for (name, count) in &self.stale {
            write!(to, "\n  {name}: {count}")?;
        }
        for (name, count) in &self.places {
            write!(to, "\n  {name}: {count}")?;
        }
        Ok(())
    }
}

/// The ways in which [`stale`] makes stored bytes wrong.
pub const STALE: [&str; 12] = [
    "a byte of an argument's item",
    "a byte of the result's item",
    "a byte of the signature's item",
    "a byte of two",
    "a cut and a byte",
    "bytes after the end",
    "bytes of another signature",
    "bytes of the same places",
    "cut anywhere",
    "cut by one",
    "no bytes",
    "one byte after the end",
];

/// Stored bytes that are not those of this signature, which are `own`, and how they are wrong.
pub fn stale(random: &mut Random, signature: &Signature, own: &[u8]) -> (Vec<u8>, &'static str) {
    let how = random.pick(&STALE);
    let mut bytes = own.to_vec();
    let items = item_starts(own);
    let last = items[items.len() - 1];
    let first = items[0];
    let alter = |random: &mut Random, bytes: &mut [u8], from: usize, end: usize| {
        let at = from + random.below(end - from);
        bytes[at] ^= match random.below(3) {
            0 => 1 << random.below(8),
            _ => 1 + random.below(255) as u8,
        };
    };
    match how {
        "a byte of the signature's item" => alter(random, &mut bytes, 0, first),
        "a byte of an argument's item" if first < last => alter(random, &mut bytes, first, last),
        "a byte of the result's item" => alter(random, &mut bytes, last, own.len()),
        "a byte of two" => {
            let at = random.below(own.len());
            let then = random.below(own.len());
            bytes[at] ^= 0x40;
            bytes[then] ^= 0x80;
        }
        "a cut and a byte" => {
            bytes.truncate(1 + random.below(own.len() - 1));
            let length = bytes.len();
            alter(random, &mut bytes, 0, length);
        }
        "bytes after the end" => {
            let more = 1 + random.below(40);
            bytes.extend((0..more).map(|_| random.byte()));
        }
        "one byte after the end" => bytes.push(random.byte()),
        "cut anywhere" => bytes.truncate(random.below(own.len())),
        "no bytes" => bytes.clear(),
        "bytes of another signature" => loop {
            let other = plans::interesting(random);
            bytes = second::bytes(&encode::signature(&other)).expect("a signature within limits");
            if bytes != own {
                break;
            }
        },
        "bytes of the same places" => {
            if let Some(other) = of_the_same_places(random, signature) {
                let other = encode::signature(&other);
                bytes = second::bytes(&other).expect("a signature within limits");
                return (bytes, how);
            }
            bytes.pop();
            return (bytes, "cut by one");
        }
        _ => {
            bytes.pop();
            return (bytes, "cut by one");
        }
    }
    (bytes, how)
}

/// Another signature whose arguments and result stand where those of this one do: an integer has
/// another sign.
fn of_the_same_places(random: &mut Random, signature: &Signature) -> Option<Signature> {
    let integers: Vec<usize> = (0..signature.arguments.len())
        .filter(|&at| matches!(signature.arguments[at], Type::Integer(_)))
        .collect();
    if integers.is_empty() {
        return None;
    }
    let mut other = signature.clone();
    let argument = &mut other.arguments[random.pick(&integers)];
    let Type::Integer(integer) = argument else {
        return None;
    };
    *integer = match *integer {
        Integer::I8 => Integer::U8,
        Integer::U8 => Integer::I8,
        Integer::I16 => Integer::U16,
        Integer::U16 => Integer::I16,
        Integer::I32 => Integer::U32,
        Integer::U32 => Integer::I32,
        Integer::I64 => Integer::U64,
        Integer::U64 => Integer::I64,
        // as large as one of these
        Integer::Pointer if signature.convention == Convention::Aix => Integer::U32,
        Integer::Pointer => Integer::U64,
    };
    Some(other)
}

/// Where the items behind that of the signature start in stored bytes; the last is the result's.
pub fn item_starts(stored: &[u8]) -> Vec<usize> {
    let after =
        |at: usize| at + 3 + usize::from(u16::from_be_bytes([stored[at + 1], stored[at + 2]]));
    let mut starts = Vec::new();
    let mut at = after(0);
    while at < stored.len() {
        starts.push(at);
        at = after(at);
    }
    starts
}

/// The second program's answer in the words of the C surface.
pub fn expected_stored(length: Result<usize, Refusal>) -> Stored {
    match length {
        Ok(length) => Stored {
            answer: ACCEPTED,
            length: length as u64,
        },
        Err(refusal) => Stored {
            answer: refused(&refusal),
            length: 0,
        },
    }
}

pub fn expected_check(result: Result<(), Refusal>) -> Answer {
    result.map_or_else(|refusal| refused(&refusal), |()| ACCEPTED)
}

/// What a buffer for stored bytes holds before.
pub fn pattern(at: usize) -> u8 {
    0x9b ^ (37 * at) as u8
}

/// Compares the two on one signature: its length, and its bytes in buffers without room, with one
/// byte too few, with exactly enough and with more. Gives the bytes of an accepted one.
pub fn compare_store(
    signature: &[u8],
    longer: usize,
    shift: usize,
    seen: &mut Histogram,
) -> Result<Option<Vec<u8>>, Difference> {
    let differ = |what: String| {
        Err(Difference(format!(
            "{what}\nfor the signature {}",
            hex(signature)
        )))
    };
    let whole = second::bytes(signature);
    let length = whole.as_ref().map(Vec::len).map_err(|&refusal| refusal);
    let expected = expected_stored(length);
    let mut lent = Lent::new(signature, shift);
    let given = surface::length(lent.part());
    if given != expected || second::length(signature) != length {
        return differ(format!(
            "the library's length is {given:?}\nthe second program's {expected:?}"
        ));
    }
    if compact::stored_length(signature) != length {
        return differ("the second program's lengths differ".to_string());
    }
    if black_box(lent).content().as_deref() != Some(signature) {
        return differ("fz_stored_length changes the signature".to_string());
    }
    seen.lengths[expected.answer.number as usize] += 1;
    let needed = length.unwrap_or(0);
    for room in [0, needed.saturating_sub(1), needed, needed + longer] {
        let before: Vec<u8> = (0..room).map(pattern).collect();
        let mut after = before.clone();
        let expected = expected_stored(second::store(signature, &mut after));
        let mut own = Lent::new(signature, shift);
        let mut buffer = Lent::new(&before, shift);
        let given = surface::store(own.part(), buffer.part());
        if given != expected {
            return differ(format!(
                "with room for {room} bytes the library stores {given:?}\nthe second program \
                 {expected:?}"
            ));
        }
        if black_box(buffer).content().as_ref() != Some(&after) {
            return differ(format!(
                "with room for {room} bytes the library leaves other bytes than the second program: {}",
                hex(&after)
            ));
        }
        if black_box(own).content().as_deref() != Some(signature) {
            return differ("fz_store_plan changes the signature".to_string());
        }
        // a refused one leaves the buffer, and an accepted one all past the plan's end
        let unwritten = match expected.answer.number {
            0 => needed,
            _ => 0,
        };
        if after[unwritten..] != before[unwritten..] {
            return differ("both change bytes that must stay".to_string());
        }
        for store in [compact::store, compact::store_in_two_passes] {
            let mut bytes = before.clone();
            if (expected_stored(store(signature, &mut bytes)), &bytes) != (expected, &after) {
                return differ("the second program's writers differ".to_string());
            }
        }
        seen.stores[given.answer.number as usize] += 1;
    }
    if let Ok(bytes) = &whole {
        seen.longest = seen.longest.max(bytes.len());
        let other = seen.known.insert(numbered(bytes), numbered(signature));
        if other.is_some_and(|other| other != numbered(signature)) {
            return differ("another signature has the same stored bytes".to_string());
        }
    }
    Ok(whole.ok())
}

/// A number for bytes. Equal bytes have equal numbers.
fn numbered(bytes: &[u8]) -> u128 {
    let half = |seed: u64| {
        let mut hasher = DefaultHasher::new();
        seed.hash(&mut hasher);
        bytes.hash(&mut hasher);
        hasher.finish()
    };
    u128::from(half(1)) << 64 | u128::from(half(2))
}

/// Compares the two on one check.
pub fn compare_check(
    stored: &[u8],
    signature: &[u8],
    shift: usize,
    seen: &mut Histogram,
) -> Result<Answer, Difference> {
    let expected = expected_check(second::check(stored, signature));
    let mut lent = [
        Lent::new(stored, shift),
        Lent::new(signature, 7 - shift % 8),
    ];
    let [own, other] = &mut lent;
    let given = surface::check(own.part(), other.part());
    let compact = expected_check(compact::check(stored, signature));
    let what = if given != expected {
        format!("the library checks {given:?}\nthe second program {expected:?}")
    } else if compact != expected {
        format!("the second program checks {expected:?} and {compact:?}")
    } else {
        let [own, other] = black_box(lent).map(Lent::content);
        if own.as_deref() == Some(stored) && other.as_deref() == Some(signature) {
            seen.count_check(given);
            return Ok(given);
        }
        "the library changes what it is lent to read".to_string()
    };
    Err(told(&what, stored, signature))
}

fn told(what: &str, stored: &[u8], signature: &[u8]) -> Difference {
    Difference(format!(
        "{what}\nfor the signature {}\nand the stored bytes {}",
        hex(signature),
        hex(stored)
    ))
}

/// Holds the library to refusal 27 at this place.
fn must_differ_at(
    place: usize,
    stored: &[u8],
    signature: &[u8],
    seen: &mut Histogram,
) -> Result<(), Difference> {
    let expected = Answer {
        number: 27,
        place: place as u64,
        items: 0,
    };
    let given = surface::check(stored, signature);
    let compact = expected_check(compact::check(stored, signature));
    if given != expected || compact != expected {
        let what = format!("the library checks {given:?}, compact {compact:?}, not {expected:?}");
        return Err(told(&what, stored, signature));
    }
    seen.count_check(given);
    Ok(())
}

/// Checks every truncation of a signature's stored bytes, and them with every byte changed, once or to
/// every other value.
pub fn compare_everywhere(
    random: &mut Random,
    stored: &[u8],
    signature: &[u8],
    every_value: bool,
    seen: &mut Histogram,
) -> Result<(), Difference> {
    let mut changed = stored.to_vec();
    for at in 0..stored.len() {
        must_differ_at(at, &stored[..at], signature, seen)?;
        let one = 1 + random.below(255) as u8;
        let values = match every_value {
            true => 1..=255,
            false => one..=one,
        };
        for value in values {
            changed[at] = stored[at] ^ value;
            must_differ_at(at, &changed, signature, seen)?;
        }
        changed[at] = stored[at];
    }
    changed.push(0);
    for last in [0, 0x20, 0x21, 0x22, 0xff] {
        changed[stored.len()] = last;
        must_differ_at(stored.len(), &changed, signature, seen)?;
    }
    seen.thorough += 1;
    seen.exhaustive += u64::from(every_value);
    seen.longest_thorough = seen.longest_thorough.max(stored.len());
    Ok(())
}

/// Checks stored bytes that are made wrong in some ways.
fn compare_some(
    random: &mut Random,
    of: &Signature,
    stored: &[u8],
    signature: &[u8],
    seen: &mut Histogram,
) -> Result<(), Difference> {
    for _ in 0..4 {
        let (wrong, how) = stale(random, of, stored);
        let answer = compare_check(&wrong, signature, random.below(8), seen)?;
        if answer.number != 27 {
            let what = format!("{how}: both answer {answer:?}");
            return Err(told(&what, &wrong, signature));
        }
        *seen.stale.entry(how).or_default() += 1;
    }
    Ok(())
}

/// The places of a stored plan, by name.
fn count_places(of: &Signature, stored: &[u8], seen: &mut Histogram) {
    let mut count = |name: String| *seen.places.entry(name).or_default() += 1;
    let convention = of.convention;
    count(format!("{convention:?} ellipsis {}", of.ellipsis));
    let starts = item_starts(stored);
    for (number, &start) in starts.iter().enumerate() {
        let end = starts.get(number + 1).copied().unwrap_or(stored.len());
        let whose = match stored[start] {
            0x21 => "argument",
            _ => "result",
        };
        if end == start + 3 {
            count(format!("{convention:?} {whose} none"));
        }
        for place in stored[start + 3..end].chunks(5) {
            let name = match place[..2] {
                [0, 0] => "general",
                [0, _] => "floating",
                [1, _] => "memory",
                [2, _] => "copy",
                _ => "hidden",
            };
            count(format!("{convention:?} {whose} {name}"));
        }
    }
}

/// Compares the two on one signature, which may be refused: storing, and checks. `before` is another
/// signature's stored bytes.
pub fn compare(
    random: &mut Random,
    signature: &[u8],
    before: &mut Vec<u8>,
    seen: &mut Histogram,
) -> Result<(), Difference> {
    let longer = 1 + random.below(100);
    let Some(stored) = compare_store(signature, longer, random.below(8), seen)? else {
        // the fresh signature's own refusal, whatever is stored
        compare_check(before, signature, random.below(8), seen)?;
        compare_check(&[], signature, random.below(8), seen)?;
        return Ok(());
    };
    let answer = compare_check(&stored, signature, random.below(8), seen)?;
    if answer != ACCEPTED {
        return Err(told("what was stored is not accepted", &stored, signature));
    }
    let (of, plan) = reference::call(signature).expect("an accepted signature");
    plans::count_cases(&of, &plan, &mut seen.accepted);
    count_places(&of, &stored, seen);
    compare_check(before, signature, random.below(8), seen)?;
    compare_some(random, &of, &stored, signature, seen)?;
    let often = match stored.len() <= SHORT {
        true => 20,
        false => 4_000,
    };
    if random.once_in(often) {
        let every_value = stored.len() <= 80 && random.once_in(8);
        compare_everywhere(random, &stored, signature, every_value, seen)?;
    }
    *before = stored;
    Ok(())
}

/// Compares the two on at least this many signatures that plans are stored of, and on as many of
/// every other sort.
pub fn run(seed: u64, stored: u64) -> Result<Histogram, Difference> {
    let mut random = Random::new(seed);
    let mut seen = Histogram::new();
    let mut before = Vec::new();
    while seen.stored() < stored {
        let valid = encode::signature(&generate::valid(&mut random));
        let chosen = encode::signature(&plans::interesting(&mut random));
        let also_chosen = encode::signature(&plans::interesting(&mut random));
        let damaged = generate::damaged(&mut random, &chosen);
        let faulty = generate::faulty(&mut random);
        for bytes in [valid, chosen, also_chosen, damaged, faulty] {
            compare(&mut random, &bytes, &mut before, &mut seen)?;
        }
        if random.once_in(200) {
            let bytes = encode::signature(&generate::unclear(&mut random));
            compare(&mut random, &bytes, &mut before, &mut seen)?;
        }
    }
    Ok(seen)
}
