//! Filling, from stored bytes too, reading, home and view compared: the answer and every byte that is lent, also of what
//! is only read, with guards on either side, after yes and after each refusal.

use crate::calls::{self, Call, Case, Fault, Operation};
use crate::met::Met;
use crate::plans;
use crate::random::Random;
use crate::signatures::{hex, refused, ACCEPTED};
use crate::Difference;
use flakuzhen::surface::marshal::{self as surface, Part};
use flakuzhen::surface::stored as stored_surface;
use flakuzhen::surface::Answer;
use reference::{marshal as second, stored as second_stored, Convention, Refusal};
use std::fmt;
use std::hint::black_box;

/// One more than the highest number of a refusal.
const ANSWERS: usize = 34;

/// What was seen of one operation.
#[derive(Clone)]
pub struct Histogram {
    pub operation: Operation,
    /// Yes at 0, each refusal at its number.
    pub answers: [u64; ANSWERS],
    /// How many of each had a count of items.
    pub counted: [u64; ANSWERS],
    pub met: Met<Fault>,
    /// What the accepted calls were like.
    pub accepted: plans::Histogram,
    /// Fill alone: how often its work was read back, and homed and viewed.
    pub read_back: u64,
    pub viewed_back: u64,
}

impl Histogram {
    fn new(operation: Operation) -> Histogram {
        Histogram {
            operation,
            answers: [0; ANSWERS],
            counted: [0; ANSWERS],
            met: Met::default(),
            accepted: plans::Histogram::default(),
            read_back: 0,
            viewed_back: 0,
        }
    }

    pub fn total(&self) -> u64 {
        self.answers.iter().sum()
    }

    fn count(&mut self, case: &Case, answer: Answer) {
        let number = answer.number as usize;
        self.answers[number] += 1;
        self.counted[number] += u64::from(answer.items > 0);
        if case.faults.is_empty() {
            plans::count_cases(&case.signature, &case.plan, &mut self.accepted);
        }
        self.met.count(&case.faults, &case.edges);
    }
}

impl fmt::Display for Histogram {
    fn fmt(&self, to: &mut fmt::Formatter<'_>) -> fmt::Result {
        let accepted = self.answers[0];
        write!(
            to,
            "{:?}: {} calls: accepted {accepted}",
            self.operation,
            self.total()
        )?;
        for (number, count) in self.answers.iter().enumerate().skip(1) {
            let counted = self.counted[number];
            match (*count, counted) {
                (0, _) => {}
                (_, 0) => write!(to, ", {number}: {count}")?,
                _ => write!(to, ", {number}: {count} ({counted} counted)")?,
            }
        }
        if self.operation.fills() {
            write!(
                to,
                "\n  read back {}, viewed back {}",
                self.read_back, self.viewed_back
            )?;
        }
        write!(to, "{}", self.met)
    }
}

/// A buffer that is lent as a part of a larger one.
pub(crate) struct Lent {
    bytes: Vec<u8>,
    start: usize,
    length: usize,
}

/// The bytes after a lent buffer, and at least as many before it.
const GUARD: usize = 16;

impl Lent {
    /// `shift` moves the buffer, so that it starts at any address.
    pub(crate) fn new(content: &[u8], shift: usize) -> Lent {
        let mut bytes: Vec<u8> = (0..GUARD + shift).map(guard).collect();
        let start = bytes.len();
        bytes.extend_from_slice(content);
        bytes.extend((0..GUARD).map(guard));
        Lent {
            bytes,
            start,
            length: content.len(),
        }
    }

    pub(crate) fn part(&mut self) -> &mut [u8] {
        &mut self.bytes[self.start..self.start + self.length]
    }

    /// What the buffer holds, where the bytes around it are as they were.
    pub(crate) fn content(mut self) -> Option<Vec<u8>> {
        let content = self.part().to_vec();
        let shift = self.start - GUARD;
        (Lent::new(&content, shift).bytes == self.bytes).then_some(content)
    }
}

fn guard(at: usize) -> u8 {
    0xc5 ^ (29 * at) as u8
}

/// The second program's answer in the words of the C surface, which for view are a part's.
fn answer_of(result: Result<(usize, usize), Refusal>) -> Part {
    match result {
        Ok((start, length)) => Part {
            answer: ACCEPTED,
            start: start as u64,
            length: length as u64,
        },
        Err(refusal) => no_part(refused(&refusal)),
    }
}

/// A part for an operation that gives none.
fn no_part(answer: Answer) -> Part {
    Part {
        answer,
        start: 0,
        length: 0,
    }
}

/// Has the second program do it.
pub fn expected(operation: Operation, call: &mut Call) -> Part {
    let Call {
        stored,
        signature,
        values,
        image,
        area,
        copies,
        base,
        hidden,
        index,
    } = call;
    let nothing = |()| (0, 0);
    answer_of(match operation {
        Operation::Fill => {
            second::fill(signature, values, image, area, copies, *base, *hidden).map(nothing)
        }
        Operation::Read => second::read(signature, values, image, area, copies, *base).map(nothing),
        Operation::Home => second::home(signature, image, area).map(nothing),
        Operation::View => {
            second::view(area, signature, *index).map(|part| (part.start, part.len()))
        }
        Operation::FillStored => second_stored::fill(
            stored, signature, values, image, area, copies, *base, *hidden,
        )
        .map(nothing),
    })
}

/// Has the second program's other fill and read do it, which are there to be timed.
fn expected_by_compact(operation: Operation, call: &mut Call) -> Option<Part> {
    let Call {
        signature,
        values,
        image,
        area,
        copies,
        base,
        hidden,
        ..
    } = call;
    let result = match operation {
        Operation::Fill => compact::fill(signature, values, image, area, copies, *base, *hidden),
        Operation::Read => compact::read(signature, values, image, area, copies, *base),
        Operation::Home | Operation::View | Operation::FillStored => return None,
    };
    Some(answer_of(result.map(|()| (0, 0))))
}

/// Has the library do it. Nothing where it changed a byte outside of what it was lent.
fn given(operation: Operation, call: &mut Call, shift: usize) -> Option<Part> {
    let lend = |bytes: &[u8]| Lent::new(bytes, shift);
    let mut stored = lend(&call.stored);
    let mut signature = lend(&call.signature);
    let mut values = lend(&call.values);
    let mut image = lend(&call.image);
    let mut area = lend(&call.area);
    let mut copies = lend(&call.copies);
    let (base, hidden, index) = (call.base, call.hidden, call.index);
    let part = match operation {
        Operation::Fill => no_part(surface::fill(
            signature.part(),
            values.part(),
            image.part(),
            area.part(),
            copies.part(),
            base,
            hidden,
        )),
        Operation::Read => no_part(surface::read(
            signature.part(),
            values.part(),
            image.part(),
            area.part(),
            copies.part(),
            base,
        )),
        Operation::Home => no_part(surface::home(signature.part(), image.part(), area.part())),
        Operation::View => surface::view(area.part(), signature.part(), index),
        Operation::FillStored => no_part(stored_surface::fill(
            stored.part(),
            signature.part(),
            values.part(),
            image.part(),
            area.part(),
            copies.part(),
            base,
            hidden,
        )),
    };
    // what was lent to be read is looked at again, whatever the compiler knows of it
    call.stored = black_box(stored).content()?;
    call.signature = black_box(signature).content()?;
    call.values = black_box(values).content()?;
    call.image = black_box(image).content()?;
    call.area = black_box(area).content()?;
    call.copies = black_box(copies).content()?;
    Some(part)
}

/// Compares the two on one call, and gives what they share: the answer, and the call as it is
/// left.
pub fn compare(
    operation: Operation,
    call: &Call,
    shift: usize,
) -> Result<(Part, Call), Difference> {
    let mut expected_call = call.clone();
    let expected = expected(operation, &mut expected_call);
    let mut compact_call = call.clone();
    if let Some(compact) = expected_by_compact(operation, &mut compact_call) {
        if (compact, &compact_call) != (expected, &expected_call) {
            let what = format!("the second program answers {expected:?} and {compact:?}");
            return Err(told(operation, call, &what));
        }
    }
    let mut given_call = call.clone();
    let Some(given) = given(operation, &mut given_call, shift) else {
        return Err(told(
            operation,
            call,
            "the library changes bytes around what it is lent",
        ));
    };
    if given != expected {
        let what = format!("the library answers {given:?}\nthe second program {expected:?}");
        return Err(told(operation, call, &what));
    }
    let buffers = [
        ("stored", &given_call.stored, &expected_call.stored),
        ("signature", &given_call.signature, &expected_call.signature),
        ("values", &given_call.values, &expected_call.values),
        ("image", &given_call.image, &expected_call.image),
        ("area", &given_call.area, &expected_call.area),
        ("copies", &given_call.copies, &expected_call.copies),
    ];
    for (name, given, expected) in buffers {
        if let Some(at) = (0..expected.len()).find(|&at| given[at] != expected[at]) {
            let what = format!(
                "byte {at} of the {name} is {:02x} after the library and {:02x} after the second \
                 program",
                given[at], expected[at]
            );
            return Err(told(operation, call, &what));
        }
    }
    Ok((given, given_call))
}

/// A difference with all of its call.
fn told(operation: Operation, call: &Call, what: &str) -> Difference {
    Difference(format!(
        "{operation:?}: {what}\nstored {}\nsignature {}\nvalues {}\nimage {}\narea {}\ncopies {}\n\
         base {:#x}, hidden {:#x}, index {}",
        hex(&call.stored),
        hex(&call.signature),
        hex(&call.values),
        hex(&call.image),
        hex(&call.area),
        hex(&call.copies),
        call.base,
        call.hidden,
        call.index
    ))
}

/// Compares the two on a generated call, and both with the fault that comes first in it.
fn compare_case(random: &mut Random, seen: &mut Histogram) -> Result<(), Difference> {
    let operation = seen.operation;
    let case = calls::case(random, operation);
    let (part, after) = compare(operation, &case.call, random.below(8))?;
    let number = part.answer.number;
    let right = match case.faults.first() {
        None => number == 0,
        Some(fault) => fault
            .number()
            .map_or(matches!(number, 1..=9 | 25 | 29), |only| only == number),
    };
    if !right {
        let what = format!("both answer {number} to the faults {:?}", case.faults);
        return Err(told(operation, &case.call, &what));
    }
    // a refusal leaves all buffers, and view has none to change
    if (number != 0 || operation == Operation::View) && after != case.call {
        return Err(told(
            operation,
            &case.call,
            "both change bytes that must stay",
        ));
    }
    seen.count(&case, part.answer);
    if operation.fills() && number == 0 {
        compare_back(&case, &after, seen)?;
    }
    Ok(())
}

/// Reads back what was filled, and on PPC64 and AIX homes it and views each argument: these must be
/// the values.
fn compare_back(case: &Case, filled: &Call, seen: &mut Histogram) -> Result<(), Difference> {
    let mut to_read = filled.clone();
    to_read.values.fill(0xa7);
    let (part, read) = compare(Operation::Read, &to_read, 0)?;
    if part.answer.number != 0 || read.values != filled.values {
        return Err(told(
            Operation::Read,
            filled,
            "what was filled is not read back",
        ));
    }
    seen.read_back += 1;
    if case.signature.convention == Convention::Z {
        return Ok(());
    }
    let (part, mut homed) = compare(Operation::Home, filled, 0)?;
    if part.answer.number != 0 {
        return Err(told(
            Operation::Home,
            filled,
            "what was filled is not taken home",
        ));
    }
    // of many arguments only some, since each view reads the whole signature
    let some = case.signature.arguments.len().div_ceil(8).max(1);
    let mut value = 0;
    for (index, of) in case.signature.arguments.iter().enumerate() {
        let size = of.size(case.signature.convention);
        let own = &filled.values[value..value + size];
        value += size;
        homed.index = index as u64;
        if index % some == 0
            && flakuzhen::view(&homed.area, &homed.signature, homed.index) != Ok(own)
        {
            return Err(told(
                Operation::View,
                &homed,
                "what was filled is not viewed",
            ));
        }
    }
    seen.viewed_back += 1;
    Ok(())
}

/// Compares the two on this many calls of an operation.
pub fn run(operation: Operation, seed: u64, cases: u64) -> Result<Histogram, Difference> {
    let mut random = Random::new(seed);
    let mut seen = Histogram::new(operation);
    while seen.total() < cases {
        compare_case(&mut random, &mut seen)?;
    }
    Ok(seen)
}
