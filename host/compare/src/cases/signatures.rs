//! Cases of reading, measuring, planning and listing.

use super::{changes, Case, Operation};
use crate::encode::{self, ARGUMENTS, CONVENTION, ELLIPSIS, FLOAT, INTEGER, RESULT, STRUCT};
use crate::generate;
use crate::plans;
use crate::random::Random;
use crate::signatures::expected;
use reference::table::{self, ENTRY};
use reference::{Convention, Integer, Type};

/// Each limit of a signature with a step on either side of it, and every prefix of a signature.
pub fn boundaries() -> Vec<Case> {
    let mut cases = Vec::new();
    for signature in &limits() {
        cases.push(reading(signature));
        cases.push(measuring(signature));
        for room in Room::ALL {
            cases.push(planning(signature, room));
            cases.push(listing(signature, room));
        }
    }
    cases
}

pub(super) fn limits() -> Vec<Vec<u8>> {
    let mut signatures = Vec::new();
    for convention in Convention::ALL {
        for count in [0, 127, 128, 129] {
            let arguments = encode::item(INTEGER, &[4]).repeat(count);
            signatures.push(of(convention, &[], &arguments));
        }
        for bytes in [255, 256, 257] {
            let field = encode::item(INTEGER, &[0]);
            let large = encode::item(STRUCT, &field.repeat(bytes));
            signatures.push(of(convention, &large, &large));
        }
        // of doubles, which AIX has not inside a struct, and of singles
        for (code, depth) in [0, 1]
            .into_iter()
            .flat_map(|code| [0, 1, 8, 9].map(|d| (code, d)))
        {
            let nested = (0..depth).fold(encode::item(FLOAT, &[code]), |inner, _| {
                encode::item(STRUCT, &inner)
            });
            signatures.push(of(convention, &nested, &nested));
        }
        // pointers, which on AIX are half as large
        for count in [32, 33, 64, 65] {
            let pointers = encode::item(INTEGER, &[8]).repeat(count);
            signatures.push(of(convention, &[], &encode::item(STRUCT, &pointers)));
        }
        for length in 16_381..=16_385 {
            signatures.push(of(convention, &[], &structs_of_length(length - 10)));
            let arguments = structs_of_length(length - 13);
            signatures.push(encode::variable_signature_of(convention, &[], &arguments));
        }
        // an ellipsis at its place, with a body, twice, and before floats of every kind
        let ellipsis = encode::item(ELLIPSIS, &[]);
        for between in [
            ellipsis.clone(),
            encode::item(ELLIPSIS, &[0]),
            ellipsis.repeat(2),
        ] {
            for code in [0, 1, 2] {
                let floats = encode::item(FLOAT, &[code]).repeat(14);
                let arguments = [&encode::item(INTEGER, &[4])[..], &floats].concat();
                let bytes = encode::signature_around(convention, &[], &between, &arguments);
                signatures.push([&bytes[..], &ellipsis].concat());
                signatures.push(bytes);
            }
        }
        let long_double = encode::item(FLOAT, &[2]);
        for inside in [long_double.clone(), encode::item(STRUCT, &long_double)] {
            signatures.push(of(convention, &inside, &inside.repeat(9)));
        }
    }
    for code in [0, 1, 2, 3, 4, 255] {
        signatures.push(encode::item(CONVENTION, &[code]));
        for (tag, last) in [(INTEGER, 8), (FLOAT, 2)] {
            for code in [0, last, last + 1] {
                let of_code = encode::item(tag, &[code]);
                signatures.push(of(Convention::Z, &of_code, &of_code));
            }
        }
        signatures.push(vec![code; 3]);
    }
    let some = vec![Type::Integer(Integer::I16), Type::Integer(Integer::U64)];
    let whole = of(
        Convention::Ppc64,
        &encode::type_item(&Type::Struct(some.clone())),
        &encode::type_items(&[Type::Struct(some.clone()), some[0].clone()]),
    );
    for length in 0..whole.len() {
        signatures.push(whole[..length].to_vec());
    }
    signatures.push([&whole[..], &[0]].concat());
    signatures
}

/// Types of this length: structs of single bytes, in the number that leaves a multiple of 4 for
/// their fields.
fn structs_of_length(length: usize) -> Vec<u8> {
    let count = 20 - length % 4;
    let fields = (length - 3 * count) / 4;
    let field = encode::item(INTEGER, &[1]);
    (0..count)
        .flat_map(|at| encode::item(STRUCT, &field.repeat((fields + at) / count)))
        .collect()
}

fn of(convention: Convention, result: &[u8], arguments: &[u8]) -> Vec<u8> {
    [
        encode::item(CONVENTION, &[convention.code()]),
        encode::item(RESULT, result),
        encode::item(ARGUMENTS, arguments),
    ]
    .concat()
}

/// Some signatures of each kind, with a case or more of each.
pub fn some(random: &mut Random, cases: &mut Vec<Case>) {
    let valid = encode::signature(&generate::valid(random));
    let chosen = encode::signature(&plans::interesting(random));
    let damaged = generate::damaged(random, &chosen);
    let faulty = generate::faulty(random);
    let also_faulty = generate::faulty(random);
    let noise = generate::noise(random);
    for signature in [&valid, &damaged, &faulty, &also_faulty, &noise] {
        cases.push(reading(signature));
    }
    for signature in [&valid, &chosen, &damaged, &faulty] {
        cases.push(measuring(signature));
    }
    for signature in [&valid, &chosen, &damaged] {
        let room = random.pick(&Room::ALL);
        cases.push(listing(signature, room));
    }
    for signature in [&valid, &chosen, &damaged, &faulty] {
        let room = random.pick(&Room::ALL);
        cases.push(planning(signature, room));
    }
}

fn reading(signature: &[u8]) -> Case {
    let answer = expected(signature);
    Case {
        operation: Operation::ReadSignature,
        numbers: vec![],
        lent: vec![signature.to_vec()],
        answer: vec![answer.number, answer.place, answer.items],
        changes: vec![vec![]],
    }
}

fn measuring(signature: &[u8]) -> Case {
    let plan = reference::call(signature).map(|(_, plan)| plan);
    let sizes = plans::expected_sizes(&plan);
    let answer = sizes.answer;
    Case {
        operation: Operation::Measure,
        numbers: vec![],
        lent: vec![signature.to_vec()],
        answer: vec![
            answer.number,
            answer.place,
            answer.items,
            sizes.values,
            sizes.area,
            sizes.copies,
        ],
        changes: vec![vec![]],
    }
}

/// How long the text is that a listing is printed to, the table that a plan is written to, or the
/// buffer that it is stored in.
#[derive(Clone, Copy)]
pub(super) enum Room {
    None,
    OneTooShort,
    Exact,
    Longer,
}

impl Room {
    pub const ALL: [Room; 4] = [Room::None, Room::OneTooShort, Room::Exact, Room::Longer];
}

impl Room {
    /// Where this much is needed.
    pub fn of(self, needed: usize) -> usize {
        match self {
            Room::None => 0,
            Room::OneTooShort => needed.saturating_sub(1),
            Room::Exact => needed,
            Room::Longer => needed + 33,
        }
    }
}

/// The table's words are lent and written as 8 bytes each.
fn planning(signature: &[u8], room: Room) -> Case {
    let table = table::table(signature);
    let planned = plans::expected_plan(&table);
    let answer = planned.answer;
    let head = table.as_ref().map_or([0; 11], |table| table.head);
    let length = room.of(ENTRY * planned.arguments as usize);
    let bytes = |words: Vec<u64>| words.iter().flat_map(|word| word.to_be_bytes()).collect();
    let before: Vec<u8> = bytes((0..length).map(plans::word_before).collect());
    let after: Vec<u8> = bytes(plans::expected_words(&table, length));
    let words = [answer.number, answer.place, answer.items];
    Case {
        operation: Operation::Plan,
        numbers: vec![],
        answer: words.into_iter().chain(head).collect(),
        changes: vec![vec![], changes(&before, &after)],
        lent: vec![signature.to_vec(), before],
    }
}

fn listing(signature: &[u8], room: Room) -> Case {
    let listing = reference::listing(signature);
    let length = room.of(listing.len());
    // no byte of a listing is one of these
    let before: Vec<u8> = (0..length).map(|at| 0x80 | at as u8).collect();
    let mut after = before.clone();
    if listing.len() <= length {
        after[..listing.len()].copy_from_slice(listing.as_bytes());
    }
    Case {
        operation: Operation::Listing,
        numbers: vec![],
        answer: vec![listing.len() as u64],
        changes: vec![vec![], changes(&before, &after)],
        lent: vec![signature.to_vec(), before],
    }
}
