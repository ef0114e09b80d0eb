//! Cases of the walk of a dump.

use super::{changes, Case, Operation};
use crate::dumps::{chain, dump, expected, of_machine, Dump};
use crate::random::Random;
use reference::dump::MOST_FRAMES;
use reference::Convention;

/// Chains of as many frames as a walk finds, and one on either side of that.
pub fn boundaries(random: &mut Random) -> Vec<Case> {
    let mut cases = Vec::new();
    for convention in Convention::ALL {
        for frames in MOST_FRAMES - 1..=MOST_FRAMES + 1 {
            // 31 comes before 32, and so the last of them give both
            for list in [frames - 1, frames, frames + 1] {
                let (mut dump, _) = chain(random, convention, frames);
                dump.list = vec![random.number(); list];
                cases.push(case(&dump));
            }
        }
    }
    cases
}

/// A dump and a machine's in each convention.
pub fn some(random: &mut Random, cases: &mut Vec<Case>) {
    for convention in Convention::ALL {
        cases.push(case(&dump(random, convention)));
        if random.once_in(8) {
            cases.push(case(&of_machine(random, convention).0));
        }
    }
}

fn case(before: &Dump) -> Case {
    let mut after = before.clone();
    let walked = expected(&mut after);
    let answer = walked.answer;
    let bytes = |dump: &Dump| -> Vec<u8> {
        let words = dump.list.iter();
        words.flat_map(|word| word.to_be_bytes()).collect()
    };
    Case {
        operation: match before.convention {
            Convention::Ppc64 | Convention::Ppc64b => Operation::WalkDumpPpc64,
            Convention::Z => Operation::WalkDumpZ,
            Convention::Aix => Operation::WalkDumpAix,
        },
        numbers: vec![before.base, before.pointer],
        lent: vec![before.memory.clone(), bytes(before)],
        answer: vec![answer.number, answer.place, answer.items, walked.count],
        changes: vec![vec![], changes(&bytes(before), &bytes(&after))],
    }
}
