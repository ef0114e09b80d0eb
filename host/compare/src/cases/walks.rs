//! Cases of the walker.

use super::{changes, Case, Operation};
use crate::calls::Call;
use crate::encode;
use crate::generate;
use crate::plans;
use crate::random::Random;
use crate::walks::{case, expected, expected_start, Step};
use flakuzhen::surface::Answer;
use reference::walker::Walker;

/// Some starts, and some steps with up to three faults.
pub fn some(random: &mut Random, cases: &mut Vec<Case>) {
    let chosen = encode::signature(&plans::interesting(random));
    let damaged = generate::damaged(random, &chosen);
    let faulty = generate::faulty(random);
    for signature in [&chosen, &damaged, &faulty] {
        cases.push(starting(Walker::of_words([random.number(); 6]), signature));
    }
    for _ in 0..4 {
        cases.push(stepping(&case(random).step));
    }
}

/// A walker is lent as its words.
fn words(walker: &Walker) -> Vec<u8> {
    let words = walker.words();
    words.iter().flat_map(|word| word.to_be_bytes()).collect()
}

fn answer_words(answer: Answer) -> Vec<u64> {
    vec![answer.number, answer.place, answer.items]
}

fn starting(before: Walker, signature: &[u8]) -> Case {
    let mut after = before;
    let answer = expected_start(&mut after, signature);
    Case {
        operation: Operation::WalkStart,
        numbers: vec![],
        lent: vec![words(&before), signature.to_vec()],
        answer: answer_words(answer),
        changes: vec![changes(&words(&before), &words(&after)), vec![]],
    }
}

fn stepping(before: &Step) -> Case {
    let mut after = before.clone();
    let answer = expected(&mut after);
    let lent = |step: &Step| {
        let Call {
            signature: item,
            values: value,
            image,
            area,
            copies,
            ..
        } = step.call.clone();
        vec![words(&step.walker), item, value, image, area, copies]
    };
    let (before_lent, after_lent) = (lent(before), lent(&after));
    let pairs = before_lent.iter().zip(&after_lent);
    Case {
        operation: Operation::Walk,
        numbers: vec![before.call.base],
        answer: answer_words(answer),
        changes: pairs.map(|(one, other)| changes(one, other)).collect(),
        lent: before_lent,
    }
}
