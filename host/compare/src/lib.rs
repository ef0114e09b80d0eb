//! The proved library beside the second program, on generated inputs: the tests run a fixed share
//! of them and `soak` as many as the time allows. A run is a function of its seed.

#![forbid(unsafe_code)]

pub mod appending;
pub mod calls;
pub mod cases;
pub mod compiled_calls;
pub mod dumps;
pub mod encode;
pub mod float_bits;
pub mod generate;
pub mod machine_calls;
pub mod machine_lists;
pub mod machines;
pub mod marshal;
pub mod met;
pub mod plans;
pub mod random;
pub mod second_planner;
pub mod signatures;
pub mod stored;
pub mod timing;
pub mod usual;
pub mod walks;
pub mod whole_calls;

use std::fmt;

/// The seed of the tests, unless `FLAKUZHEN_SEED` names another.
const SEED: u64 = 0x0f1a_1a2b;

/// An input on which the answers differ, told for people.
#[derive(Debug)]
pub struct Difference(pub String);

impl fmt::Display for Difference {
    fn fmt(&self, to: &mut fmt::Formatter<'_>) -> fmt::Result {
        to.write_str(&self.0)
    }
}

/// The seed that the environment names, decimal or from `0x` on hexadecimal.
pub fn seed_from_environment() -> Option<u64> {
    let text = std::env::var("FLAKUZHEN_SEED").ok()?;
    let seed = match text.strip_prefix("0x") {
        Some(digits) => u64::from_str_radix(digits, 16),
        None => text.parse(),
    };
    Some(seed.unwrap_or_else(|_| panic!("FLAKUZHEN_SEED is a 64-bit number, not {text:?}")))
}

/// The seed of a test run.
pub fn seed() -> u64 {
    seed_from_environment().unwrap_or(SEED)
}
