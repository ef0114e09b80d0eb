//! Cases for `targets/replay.c`, which replays them on any machine: an operation's inputs, the
//! second program's answer, and what of the lent bytes it changes. The library has no part in them.
//!
//! A file of cases is one after the other, in big-endian numbers. A case is
//!
//! - the code of its operation, one byte;
//! - the numbers that it takes, 8 bytes each;
//! - what it is lent for this call alone: for each buffer its length, 4 bytes, and its bytes. Structs
//!   are lent as their words, 8 bytes each;
//! - the words of the answer, 8 bytes each;
//! - the changes of each buffer that it is lent, after those of the machine's state and memory for
//!   a call of the frame machine: their count, 4 bytes, and for each its offset and its length, 4
//!   bytes each, and its bytes.
//!
//! How many numbers, buffers and words there are depends on the operation alone. The file ends with
//! a code of 0.

mod calls;
mod dumps;
mod floats;
mod machines;
mod signatures;
mod stored;
mod walks;

use crate::random::Random;
use std::collections::BTreeMap;
use std::fmt;

/// The calls in a file of cases, at the least.
pub const LEAST: usize = 80_000;

/// What a case is of, with its code in the file.
#[derive(Clone, Copy, Debug, PartialEq, Eq, PartialOrd, Ord)]
pub enum Operation {
    ReadSignature = 1,
    Measure = 2,
    Listing = 3,
    Widen = 4,
    Narrow = 5,
    StartPpc64 = 6,
    StartZ = 7,
    Enter = 8,
    WriteRegister = 9,
    WriteMemory = 10,
    Leave = 11,
    Fill = 12,
    Read = 13,
    Home = 14,
    View = 15,
    Plan = 16,
    StartAix = 17,
    StartPpc64b = 18,
    WalkStart = 19,
    Walk = 20,
    WalkDumpPpc64 = 21,
    WalkDumpZ = 22,
    WalkDumpAix = 23,
    StoredLength = 24,
    StorePlan = 25,
    CheckPlan = 26,
    FillStored = 27,
    /// No call: the state and the memory that the next calls of the frame machine find.
    SetMachine = 100,
    /// No call: changes of that state and that memory.
    ChangeMachine = 101,
}

impl Operation {
    /// Those that call the library.
    pub const CALLS: [Operation; 27] = [
        Operation::ReadSignature,
        Operation::Measure,
        Operation::Listing,
        Operation::Widen,
        Operation::Narrow,
        Operation::StartPpc64,
        Operation::StartZ,
        Operation::Enter,
        Operation::WriteRegister,
        Operation::WriteMemory,
        Operation::Leave,
        Operation::Fill,
        Operation::Read,
        Operation::Home,
        Operation::View,
        Operation::Plan,
        Operation::StartAix,
        Operation::StartPpc64b,
        Operation::WalkStart,
        Operation::Walk,
        Operation::WalkDumpPpc64,
        Operation::WalkDumpZ,
        Operation::WalkDumpAix,
        Operation::StoredLength,
        Operation::StorePlan,
        Operation::CheckPlan,
        Operation::FillStored,
    ];

    fn is_call(self) -> bool {
        Operation::CALLS.contains(&self)
    }
}

/// Bytes that stand at an offset of a buffer after a call and did not before.
#[derive(Clone, Debug)]
pub struct Change {
    pub at: usize,
    pub bytes: Vec<u8>,
}

/// A call, or a step between two calls, with all that it must lead to.
#[derive(Clone, Debug)]
pub struct Case {
    pub operation: Operation,
    pub numbers: Vec<u64>,
    pub lent: Vec<Vec<u8>>,
    pub answer: Vec<u64>,
    /// Of each buffer.
    pub changes: Vec<Vec<Change>>,
}

/// The changes that make one buffer of another of the same length.
fn changes(before: &[u8], after: &[u8]) -> Vec<Change> {
    assert_eq!(before.len(), after.len(), "no call changes a length");
    let mut changes: Vec<Change> = Vec::new();
    for (at, (old, &new)) in before.iter().zip(after).enumerate() {
        if *old == new {
            continue;
        }
        match changes.last_mut() {
            Some(last) if last.at + last.bytes.len() == at => last.bytes.push(new),
            _ => changes.push(Change {
                at,
                bytes: vec![new],
            }),
        }
    }
    changes
}

/// The cases of a seed, at least this many calls.
pub fn all(seed: u64, least: usize) -> Vec<Case> {
    let mut random = Random::new(seed);
    let mut cases = signatures::boundaries();
    cases.extend(floats::boundaries(&mut random));
    cases.extend(dumps::boundaries(&mut random));
    cases.extend(stored::boundaries());
    while count_calls(&cases) < least {
        signatures::some(&mut random, &mut cases);
        floats::some(&mut random, &mut cases);
        machines::some(&mut random, &mut cases);
        calls::some(&mut random, &mut cases);
        walks::some(&mut random, &mut cases);
        dumps::some(&mut random, &mut cases);
        stored::some(&mut random, &mut cases);
    }
    cases
}

/// How many of the cases call the library.
pub fn count_calls(cases: &[Case]) -> usize {
    cases.iter().filter(|case| case.operation.is_call()).count()
}

/// The file's bytes.
pub fn file(cases: &[Case]) -> Vec<u8> {
    let mut to = Vec::new();
    for case in cases {
        write_case(case, &mut to);
    }
    to.push(0);
    to
}

fn write_case(case: &Case, to: &mut Vec<u8>) {
    to.push(case.operation as u8);
    write_words(&case.numbers, to);
    for bytes in &case.lent {
        write_length(bytes.len(), to);
        to.extend_from_slice(bytes);
    }
    write_words(&case.answer, to);
    for changes in &case.changes {
        write_length(changes.len(), to);
        for change in changes {
            write_length(change.at, to);
            write_length(change.bytes.len(), to);
            to.extend_from_slice(&change.bytes);
        }
    }
}

fn write_words(words: &[u64], to: &mut Vec<u8>) {
    for word in words {
        to.extend_from_slice(&word.to_be_bytes());
    }
}

fn write_length(length: usize, to: &mut Vec<u8>) {
    let length = u32::try_from(length).expect("a length that four bytes can say");
    to.extend_from_slice(&length.to_be_bytes());
}

/// How often each operation gave each answer: yes at 0, each refusal at its number.
#[derive(Default)]
pub struct Answers(pub BTreeMap<(Operation, u64), usize>);

impl Answers {
    pub fn of(cases: &[Case]) -> Answers {
        let mut answers = Answers::default();
        for case in cases {
            let number = match case.operation {
                Operation::SetMachine | Operation::ChangeMachine => continue,
                // these answer no number
                Operation::Listing | Operation::Widen => 0,
                _ => case.answer[0],
            };
            *answers.0.entry((case.operation, number)).or_default() += 1;
        }
        answers
    }

    pub fn count(&self, operation: Operation, number: u64) -> usize {
        self.0.get(&(operation, number)).copied().unwrap_or(0)
    }
}

impl fmt::Display for Answers {
    fn fmt(&self, to: &mut fmt::Formatter<'_>) -> fmt::Result {
        write!(to, "{} cases", self.0.values().sum::<usize>())?;
        for operation in Operation::CALLS {
            let of = self.0.iter().filter(|((each, _), _)| *each == operation);
            write!(to, "\n  {operation:?}:")?;
            for ((_, number), count) in of {
                write!(to, " {number}: {count}")?;
            }
        }
        Ok(())
    }
}
