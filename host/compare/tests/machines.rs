//! The frame machine, compared on lists of calls and on states and memories that were made up.

use compare::machine_lists::{run, run_nonsense, Reach};
use compare::Difference;
use reference::Convention;

const LISTS: u64 = 20_000;
const STATES: u64 = 27_000;

fn told(seed: u64, result: Result<Reach, Difference>) -> Reach {
    println!("seed {seed:#x}");
    match result {
        Ok(reach) => {
            println!("{reach}");
            reach
        }
        Err(difference) => panic!("seed {seed:#x}: {difference}"),
    }
}

fn at_least(least: u64, counts: &[(&str, u64)]) {
    for (what, count) in counts {
        assert!(count >= &least, "{what}: only {count}, not {least}");
    }
}

fn every_refusal_at_least(least: u64, reach: &Reach) {
    for (number, &count) in reach.refusals.iter().enumerate() {
        match number {
            16..=23 => assert!(count >= least, "refusal {number}: only {count}"),
            // Z has no leaves
            28 => assert!(
                count >= least || reach.leaves_left == 0,
                "refusal 28: only {count}"
            ),
            _ => assert_eq!(count, 0, "refusal {number} is no refusal of the machine"),
        }
    }
}

fn compare_lists(convention: Convention) -> Reach {
    let seed = compare::seed();
    let reach = told(seed, run(seed, convention, LISTS));
    assert_eq!(reach.lists, LISTS);
    assert_eq!(reach.deepest, 32);
    every_refusal_at_least(10_000, &reach);
    at_least(
        1_000,
        &[
            ("lists of the most calls", reach.longest),
            ("32 frames", reach.full),
            ("enters to the last free byte", reach.last_free_byte),
            ("enters of one byte too many", reach.one_byte_too_many),
            ("leaves from foreign bytes", reach.foreign_leaves),
        ],
    );
    at_least(
        10_000,
        &[
            ("starts", reach.starts),
            ("enters", reach.enters),
            ("leaves", reach.leaves),
            ("leaves seen to preserve the caller's", reach.preserving),
            ("writes of general registers", reach.register_writes[0]),
            ("writes of floating registers", reach.register_writes[1]),
            ("writes of saved registers", reach.saved_register_writes),
            ("writes of locals", reach.memory_writes[0]),
            ("writes of the own outgoing area", reach.memory_writes[1]),
            (
                "writes of the caller's outgoing area",
                reach.memory_writes[2],
            ),
            ("writes of an area's first byte", reach.first_bytes),
            ("writes of an area's last byte", reach.last_bytes),
            ("writes of one byte outside an area", reach.one_byte_outside),
        ],
    );
    reach
}

#[test]
fn lists_of_calls_on_ppc64() {
    let reach = compare_lists_with_leaves(Convention::Ppc64);
    assert_eq!(reach.over_32_bits, [0; 3]);
}

#[test]
fn lists_of_calls_by_the_later_edition() {
    let reach = compare_lists_with_leaves(Convention::Ppc64b);
    assert_eq!(reach.over_32_bits, [0; 3]);
}

#[test]
fn lists_of_calls_on_aix() {
    let reach = compare_lists_with_leaves(Convention::Aix);
    at_least(
        500,
        &[
            ("starts that end past 2^32 - 1", reach.over_32_bits[0]),
            ("states of over 32 bits", reach.over_32_bits[2]),
        ],
    );
    at_least(10_000, &[("writes of over 32 bits", reach.over_32_bits[1])]);
}

fn compare_lists_with_leaves(convention: Convention) -> Reach {
    let reach = compare_lists(convention);
    at_least(
        10_000,
        &[
            ("writes of LR", reach.register_writes[2]),
            ("writes of fields of CR", reach.register_writes[3]),
        ],
    );
    at_least(
        500,
        &[
            ("starts without the floor", reach.floors[0]),
            ("states without the floor", reach.floors[2]),
        ],
    );
    at_least(
        10_000,
        &[
            ("enters without the floor", reach.floors[1]),
            ("leaves above frames", reach.leaves_entered[1]),
            ("leaves left", reach.leaves_left),
            ("writes of registers by leaves", reach.leaf_register_writes),
            ("writes of the floor by leaves", reach.memory_writes[3]),
        ],
    );
    at_least(
        500,
        &[
            ("leaves at the start", reach.leaves_entered[0]),
            ("leaves as the 32nd", reach.leaves_entered[2]),
            ("leaves where no frame fits", reach.leaves_entered[3]),
            ("leaves below the top", reach.leaves_below),
        ],
    );
    reach
}

#[test]
fn lists_of_calls_on_z() {
    let reach = compare_lists(Convention::Z);
    // there are none
    assert_eq!(reach.register_writes[2..], [0, 0]);
    assert_eq!((reach.floors, reach.over_32_bits), ([0; 3], [0; 3]));
    assert_eq!((reach.leaves_left, reach.refusals[28]), (0, 0));
}

#[test]
fn states_and_memories_that_were_made_up() {
    let seed = compare::seed();
    let reach = told(seed, run_nonsense(seed, STATES));
    assert_eq!(reach.lists, STATES);
    every_refusal_at_least(20, &reach);
    at_least(
        5_000,
        &[
            ("states that cannot be", reach.refusals[23]),
            ("leaves from foreign bytes", reach.foreign_leaves),
        ],
    );
    at_least(
        1_000,
        &[
            ("memories of another length", reach.refusals[16]),
            ("calls of states without the floor", reach.floors[2]),
            ("calls of states of over 32 bits", reach.over_32_bits[2]),
            ("leaves left", reach.leaves_left),
            ("leaves below the top", reach.leaves_below),
            ("broken chains", reach.refusals[21]),
            ("enters", reach.enters),
        ],
    );
}
