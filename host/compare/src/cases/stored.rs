//! Cases of stored plans; those of filling from them are among the calls'.

use super::signatures::{limits, Room};
use super::{changes, Case, Operation};
use crate::encode;
use crate::generate;
use crate::plans;
use crate::random::Random;
use crate::stored::{expected_check, expected_stored, pattern, stale};
use flakuzhen::surface::Answer;
use reference::stored::{bytes, check, length, store};

/// Long signatures are stored once and checked once: they show little more.
const LONG: usize = 1_000;

/// The limits of a signature, and every truncation and every byte of one plan changed.
pub fn boundaries() -> Vec<Case> {
    let mut cases = Vec::new();
    for signature in &limits() {
        cases.push(measuring(signature));
        let rooms = match signature.len() < LONG {
            true => &Room::ALL[..],
            false => &[Room::Exact],
        };
        for &room in rooms {
            cases.push(storing(signature, room));
        }
        cases.push(checking(&bytes(signature).unwrap_or_default(), signature));
    }
    // Z, result long double; arguments long double, single and i64, with a copy and a hidden address
    let signature = [
        1, 0, 1, 2, 2, 0, 4, 0x11, 0, 1, 2, 3, 0, 12, 0x11, 0, 1, 2, 0x11, 0, 1, 0, 0x10, 0, 1, 6,
    ];
    let whole = bytes(&signature).expect("an accepted signature");
    for at in 0..whole.len() {
        cases.push(checking(&whole[..at], &signature));
        let mut changed = whole.clone();
        changed[at] ^= 1 << (at % 8);
        cases.push(checking(&changed, &signature));
    }
    cases.push(checking(&[&whole[..], &[0]].concat(), &signature));
    cases
}

/// Some signatures of each kind, with a case or more of each.
pub fn some(random: &mut Random, cases: &mut Vec<Case>) {
    let signature = plans::interesting(random);
    let chosen = encode::signature(&signature);
    let valid = encode::signature(&generate::valid(random));
    let damaged = generate::damaged(random, &chosen);
    let faulty = generate::faulty(random);
    let also_faulty = generate::faulty(random);
    for of in [&chosen, &damaged, &faulty, &also_faulty] {
        cases.push(measuring(of));
    }
    for of in [&chosen, &valid, &damaged, &faulty] {
        let room = random.pick(&Room::ALL);
        cases.push(storing(of, room));
    }
    let whole = bytes(&chosen).expect("a signature within all limits");
    cases.push(checking(&whole, &chosen));
    let (wrong, _) = stale(random, &signature, &whole);
    cases.push(checking(&wrong, &chosen));
    cases.push(checking(&whole, &valid));
    cases.push(checking(&whole, &damaged));
    cases.push(checking(&wrong, &faulty));
    cases.push(checking(&whole, &also_faulty));
}

fn words(answer: Answer) -> [u64; 3] {
    [answer.number, answer.place, answer.items]
}

fn measuring(signature: &[u8]) -> Case {
    let stored = expected_stored(length(signature));
    Case {
        operation: Operation::StoredLength,
        numbers: vec![],
        lent: vec![signature.to_vec()],
        answer: [&words(stored.answer)[..], &[stored.length]].concat(),
        changes: vec![vec![]],
    }
}

fn storing(signature: &[u8], room: Room) -> Case {
    let needed = length(signature).unwrap_or(0);
    let before: Vec<u8> = (0..room.of(needed)).map(pattern).collect();
    let mut after = before.clone();
    let stored = expected_stored(store(signature, &mut after));
    Case {
        operation: Operation::StorePlan,
        numbers: vec![],
        answer: [&words(stored.answer)[..], &[stored.length]].concat(),
        changes: vec![vec![], changes(&before, &after)],
        lent: vec![signature.to_vec(), before],
    }
}

fn checking(stored: &[u8], signature: &[u8]) -> Case {
    let answer = expected_check(check(stored, signature));
    Case {
        operation: Operation::CheckPlan,
        numbers: vec![],
        lent: vec![stored.to_vec(), signature.to_vec()],
        answer: words(answer).to_vec(),
        changes: vec![vec![]; 2],
    }
}
