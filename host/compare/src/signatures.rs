//! Reading compared: number, place and count of items.

use crate::encode;
use crate::generate;
use crate::random::Random;
use crate::Difference;
use flakuzhen::surface::{self, Answer};
use reference::Refusal;
use std::collections::{BTreeMap, BTreeSet};
use std::fmt;

/// The answers that reading a signature can give.
pub const ANSWERS: [usize; 11] = [0, 1, 2, 3, 4, 5, 6, 7, 8, 9, 25];

/// How often each answer was given: yes at 0, each refusal at its number.
#[derive(Clone, Default)]
pub struct Histogram {
    pub answers: [u64; 30],
    /// The counts of items that came with each.
    pub items: [BTreeSet<u64>; 30],
    /// How often each answer was given to a signature with an ellipsis there or elsewhere.
    pub ellipses: BTreeMap<(&'static str, u64), u64>,
}

/// Where a signature has an ellipsis, as far as its items' headers show it.
pub fn ellipsis_case(bytes: &[u8]) -> Option<&'static str> {
    // a header's tag and its item's end
    let header = |at: usize| match bytes.get(at..)? {
        [tag, high, low, ..] => {
            let end = at + 3 + usize::from(u16::from_be_bytes([*high, *low]));
            (end <= bytes.len()).then_some((*tag, end))
        }
        _ => None,
    };
    let mut tags = Vec::new();
    let mut at = 0;
    while let Some((tag, end)) = header(at) {
        tags.push((tag, end - at > 3));
        at = end;
    }
    let tag = |number: usize| tags.get(number).map(|(tag, _)| *tag);
    match [tag(0), tag(1), tag(2), tag(3), tag(4)] {
        [Some(4), ..] => Some("first of all"),
        [Some(1), Some(4), ..] => Some("before the result"),
        [Some(1), Some(2), Some(4), ..] if tags[2].1 => Some("with a body"),
        [Some(1), Some(2), Some(4), Some(4), _] => Some("twice"),
        [Some(1), Some(2), Some(4), Some(3), Some(4)] => Some("twice, after the arguments"),
        [Some(1), Some(2), Some(4), Some(3), None] if at == bytes.len() => Some("at its place"),
        [Some(1), Some(2), Some(4), None, _] if at == bytes.len() => Some("last"),
        [Some(1), Some(2), Some(4), ..] => Some("at its place, with a fault behind it"),
        [Some(1), Some(2), Some(3), Some(4), _] => Some("after the arguments"),
        _ => None,
    }
}

impl Histogram {
    pub fn count(&mut self, bytes: &[u8], answer: Answer) {
        let number = answer.number as usize;
        self.answers[number] += 1;
        self.items[number].insert(answer.items);
        if let Some(case) = ellipsis_case(bytes) {
            *self.ellipses.entry((case, answer.number)).or_default() += 1;
        }
    }

    pub fn total(&self) -> u64 {
        self.answers.iter().sum()
    }
}

impl fmt::Display for Histogram {
    fn fmt(&self, to: &mut fmt::Formatter<'_>) -> fmt::Result {
        write!(
            to,
            "{} signatures: accepted {}",
            self.total(),
            self.answers[0]
        )?;
        for number in &ANSWERS[1..] {
            write!(to, ", {number}: {}", self.answers[*number])?;
        }
        write!(to, "; different counts of items")?;
        for number in ANSWERS {
            write!(to, ", {number}: {}", self.items[number].len())?;
        }
        for ((case, number), count) in &self.ellipses {
            write!(to, "\n  an ellipsis {case}, {number}: {count}")?;
        }
        Ok(())
    }
}

/// The answer yes of a call that counts no items.
pub(crate) const ACCEPTED: Answer = Answer {
    number: 0,
    place: 0,
    items: 0,
};

/// What the second program answers, in the words of the C surface.
pub fn expected(bytes: &[u8]) -> Answer {
    match reference::read(bytes) {
        Ok(signature) => Answer {
            number: 0,
            place: 0,
            items: signature.items() as u64,
        },
        Err(refusal) => refused(&refusal),
    }
}

/// The second program's refusal in the words of the C surface.
pub(crate) fn refused(refusal: &Refusal) -> Answer {
    Answer {
        number: refusal.number,
        place: refusal.place as u64,
        items: refusal.items as u64,
    }
}

/// Compares the two on one signature and gives the answer that they share.
pub fn compare(bytes: &[u8]) -> Result<Answer, Difference> {
    let expected = expected(bytes);
    let given = surface::read_signature(bytes);
    if given != expected {
        let told = format!(
            "the library answers {given:?}\nthe second program {expected:?}\nto the signature {}",
            hex(bytes)
        );
        return Err(Difference(told));
    }
    // "at most a third of the input length", and "still no more" where it is refused
    if given.items * 3 > bytes.len() as u64 {
        return Err(Difference(format!(
            "{} items in the signature {}",
            given.items,
            hex(bytes)
        )));
    }
    Ok(given)
}

/// Compares the two on a signature made from a tree, which both must accept and the second
/// program must give back.
pub fn compare_valid(random: &mut Random) -> Result<(Vec<u8>, Answer), Difference> {
    let made = generate::valid(random);
    let bytes = encode::signature(&made);
    let answer = compare(&bytes)?;
    let read = reference::read(&bytes);
    if read.as_ref() != Ok(&made) {
        return Err(Difference(format!(
            "made from {made:?}\nread as {read:?}\nthe signature {}",
            hex(&bytes)
        )));
    }
    Ok((bytes, answer))
}

/// Compares the two on at least this many generated signatures.
pub fn run(seed: u64, cases: u64) -> Result<Histogram, Difference> {
    let mut random = Random::new(seed);
    let mut histogram = Histogram::default();
    while histogram.total() < cases {
        let (valid, answer) = compare_valid(&mut random)?;
        histogram.count(&valid, answer);
        let faulty = generate::faulty(&mut random);
        let also_faulty = generate::faulty(&mut random);
        let others = [
            generate::damaged(&mut random, &valid),
            generate::damaged(&mut random, &faulty),
            faulty,
            also_faulty,
            generate::noise(&mut random),
        ];
        for bytes in &others {
            histogram.count(bytes, compare(bytes)?);
        }
    }
    Ok(histogram)
}

/// The bytes for people.
pub(crate) fn hex(bytes: &[u8]) -> String {
    let mut text = format!("of {} bytes:", bytes.len());
    for byte in bytes {
        text.push_str(&format!(" {byte:02x}"));
    }
    text
}
