//! Signatures as programs usually have them, for measuring time.

use crate::encode::{self, INTEGERS};
use crate::generate;
use crate::random::Random;
use reference::{Convention, Float, Integer, Signature, Type};
use std::collections::HashSet;
use std::ops::RangeInclusive;

/// The numbers of arguments that are told apart.
pub const COUNTS: [RangeInclusive<usize>; 5] = [0..=0, 1..=8, 9..=32, 33..=64, 65..=128];
/// All that there can be.
pub const ALL: RangeInclusive<usize> = 0..=128;
/// The numbers of arguments that are measured by themselves.
const SINGLE_COUNTS: [usize; 7] = [0, 1, 4, 8, 16, 64, 128];

/// Signatures of one convention with a like number of arguments, or the same.
pub struct Group {
    pub convention: Convention,
    pub counts: RangeInclusive<usize>,
    pub signatures: Vec<Vec<u8>>,
}

/// The numbers of arguments for people.
pub fn told(counts: &RangeInclusive<usize>) -> String {
    let (first, last) = (counts.start(), counts.end());
    match first == last {
        true => first.to_string(),
        false => format!("{first} to {last}"),
    }
}

/// This many different accepted signatures, spread evenly over the numbers of arguments, the
/// conventions, and with and without an ellipsis, in groups by the first two.
pub fn groups(seed: u64, signatures: usize) -> Vec<Group> {
    let mut groups = Vec::new();
    for convention in Convention::ALL {
        for counts in COUNTS {
            groups.push(Group {
                convention,
                counts,
                signatures: Vec::new(),
            });
        }
    }
    let mut random = Random::new(seed);
    let mut known = HashSet::new();
    for number in 0..signatures {
        let kind = kind_of(number, ALL.end() + 1);
        let bytes = different(&mut random, &mut known, kind);
        let group = groups
            .iter_mut()
            .find(|group| group.convention == kind.1 && group.counts.contains(&kind.0));
        group
            .expect("a group for every kind")
            .signatures
            .push(bytes);
    }
    groups
}

/// The same for each number of arguments that is measured by itself, so many of each.
pub fn single_counts(seed: u64, signatures: usize) -> Vec<Group> {
    let mut groups = Vec::new();
    for count in SINGLE_COUNTS {
        let mut random = Random::new(seed);
        let mut known = HashSet::new();
        let mut of_count: Vec<Group> = Convention::ALL
            .map(|convention| Group {
                convention,
                counts: count..=count,
                signatures: Vec::new(),
            })
            .into();
        for number in 0..signatures {
            let (_, convention, ellipsis) = kind_of(number, 1);
            let bytes = different(&mut random, &mut known, (count, convention, ellipsis));
            let group = of_count
                .iter_mut()
                .find(|group| group.convention == convention);
            group
                .expect("a group for every convention")
                .signatures
                .push(bytes);
        }
        groups.extend(of_count);
    }
    groups
}

/// The number of arguments, of which there are so many, the convention and the ellipsis of
/// signature number `number`: each in turn.
fn kind_of(number: usize, counts: usize) -> (usize, Convention, bool) {
    let conventions = Convention::ALL.len();
    let convention = Convention::ALL[number / counts % conventions];
    let ellipsis = number / counts / conventions % 2 == 1;
    (number % counts, convention, ellipsis)
}

/// A signature of this kind that is not yet known.
fn different(
    random: &mut Random,
    known: &mut HashSet<Vec<u8>>,
    (count, convention, ellipsis): (usize, Convention, bool),
) -> Vec<u8> {
    loop {
        let signature = signature(random, convention, count, ellipsis);
        let bytes = encode::signature(&signature);
        if signature.arguments.len() == count && known.insert(bytes.clone()) {
            return bytes;
        }
    }
}

fn signature(
    random: &mut Random,
    convention: Convention,
    count: usize,
    ellipsis: bool,
) -> Signature {
    let result = random.once_in(2).then(|| usual_type(random, convention));
    let arguments = (0..count).map(|_| usual_type(random, convention));
    generate::fitting(convention, result, ellipsis, arguments)
}

/// As calls usually have them: mostly integers and pointers, some floats, now and then a struct
/// of a few fields.
fn usual_type(random: &mut Random, convention: Convention) -> Type {
    match random.below(16) {
        0..=8 => Type::Integer(random.pick(&INTEGERS)),
        9..=11 => Type::Float(random.pick(&[Float::Single, Float::Double])),
        12 if convention != Convention::Aix => Type::Float(Float::LongDouble),
        12 => Type::Integer(Integer::I64),
        _ => {
            let count = 1 + random.below(6);
            generate::valid_struct(random, convention, count, 3)
        }
    }
}

#[cfg(test)]
mod tests {
    use super::*;

    #[test]
    fn evenly_spread_and_different() {
        let groups = groups(7, 1_032);
        let all: Vec<&Vec<u8>> = groups.iter().flat_map(|group| &group.signatures).collect();
        assert_eq!(all.iter().collect::<HashSet<_>>().len(), 1_032);
        let read = |bytes: &&Vec<u8>| reference::read(bytes).expect("accepted");
        assert!(all
            .iter()
            .all(|bytes| reference::plan(&read(bytes)).area < 65_536));
        assert_eq!(all.iter().filter(|bytes| read(bytes).ellipsis).count(), 516);
        for group in &groups {
            // two of each number of arguments
            let counts = group.counts.end() - group.counts.start() + 1;
            assert_eq!(group.signatures.len(), 2 * counts);
            for bytes in &group.signatures {
                let signature = read(&bytes);
                assert_eq!(signature.convention, group.convention);
                assert!(group.counts.contains(&signature.arguments.len()));
            }
        }
    }
}
