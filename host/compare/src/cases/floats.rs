//! Cases of widening and narrowing.

use super::{Case, Operation};
use crate::random::Random;
use reference::float_bits;

/// Every exponent of a single, with both signs, at the ends of its fraction, and doubles next to
/// what these widen to.
pub fn boundaries(random: &mut Random) -> Vec<Case> {
    let mut cases = Vec::new();
    for upper in 0..1u32 << 9 {
        for fraction in [0, 1, 0x0040_0000, 0x007f_ffff] {
            around(random, upper << 23 | fraction, &mut cases);
        }
    }
    cases
}

/// A single by chance, what is around it, and a double by chance.
pub fn some(random: &mut Random, cases: &mut Vec<Case>) {
    let bits = random.number() as u32;
    let single = match random.below(4) {
        // subnormal, of any length
        0 => bits & 0x8000_0000 | (bits & 0x007f_ffff) >> random.below(24),
        _ => bits,
    };
    around(random, single, cases);
    let zeros = random.below(53);
    cases.push(narrowing(random.number() >> zeros << zeros));
}

/// A single widened, with any bits above it, its way back, and that with a bit changed.
fn around(random: &mut Random, single: u32, cases: &mut Vec<Case>) {
    let double = float_bits::widen(single);
    let above = random.number() << 32;
    cases.push(Case {
        operation: Operation::Widen,
        numbers: vec![above | u64::from(single)],
        lent: vec![],
        answer: vec![double],
        changes: vec![],
    });
    cases.push(narrowing(double));
    cases.push(narrowing(double ^ 1 << random.below(64)));
}

fn narrowing(double: u64) -> Case {
    let answer = match float_bits::narrow(double) {
        Some(bits) => vec![0, 0, u64::from(bits)],
        None => vec![14, 0, 0],
    };
    Case {
        operation: Operation::Narrow,
        numbers: vec![double],
        lent: vec![],
        answer,
        changes: vec![],
    }
}
