//! Cases of fill, from stored bytes too, read, home and view.

use super::{changes, Case, Operation};
use crate::calls::{self, Call};
use crate::marshal::expected;
use crate::random::Random;

/// Two calls of each operation, with up to three faults.
pub fn some(random: &mut Random, cases: &mut Vec<Case>) {
    for operation in [calls::Operation::ALL; 2].concat() {
        let call = calls::case(random, operation).call;
        cases.push(case(operation, &call));
    }
}

fn case(operation: calls::Operation, before: &Call) -> Case {
    let mut after = before.clone();
    let part = expected(operation, &mut after);
    let mut answer = vec![part.answer.number, part.answer.place, part.answer.items];
    let (operation, numbers) = match operation {
        calls::Operation::Fill => (Operation::Fill, vec![before.base, before.hidden]),
        calls::Operation::Read => (Operation::Read, vec![before.base]),
        calls::Operation::Home => (Operation::Home, vec![]),
        calls::Operation::FillStored => (Operation::FillStored, vec![before.base, before.hidden]),
        calls::Operation::View => {
            answer.extend([part.start, part.length]);
            (Operation::View, vec![before.index])
        }
    };
    let before = lent(operation, before);
    let after = lent(operation, &after);
    Case {
        operation,
        numbers,
        lent: before.iter().map(|bytes| bytes.to_vec()).collect(),
        answer,
        changes: before
            .iter()
            .zip(&after)
            .map(|(before, after)| changes(before, after))
            .collect(),
    }
}

/// What the C function takes, in its order.
fn lent(operation: Operation, call: &Call) -> Vec<&[u8]> {
    let Call {
        stored,
        signature,
        values,
        image,
        area,
        copies,
        ..
    } = call;
    match operation {
        Operation::Home => vec![signature, image, area],
        Operation::View => vec![area, signature],
        Operation::FillStored => vec![stored, signature, values, image, area, copies],
        _ => vec![signature, values, image, area, copies],
    }
}
