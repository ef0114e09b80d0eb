//! Widening and narrowing compared, with the machine's own conversion as a third opinion on all
//! that is no NaN (on a NaN it may change bits, which the library must not).

use crate::random::Random;
use crate::Difference;
use flakuzhen::surface::{self, Narrowed};
use std::fmt;

/// How many of each were compared.
#[derive(Clone, Default)]
pub struct Counts {
    pub widened: u64,
    pub narrowed: u64,
    pub refused: u64,
}

impl Counts {
    pub fn total(&self) -> u64 {
        self.widened + self.narrowed + self.refused
    }
}

impl fmt::Display for Counts {
    fn fmt(&self, to: &mut fmt::Formatter<'_>) -> fmt::Result {
        let Counts {
            widened,
            narrowed,
            refused,
        } = self;
        write!(
            to,
            "{widened} widenings; narrowings: accepted {narrowed}, 14: {refused}"
        )
    }
}

/// Compares widening on one single, with any bits above it.
pub fn compare_widen(single: u32, above: u32, counts: &mut Counts) -> Result<u64, Difference> {
    let expected = reference::float_bits::widen(single);
    let given = surface::widen(u64::from(above) << 32 | u64::from(single));
    if given != expected {
        return Err(Difference(format!(
            "the single {single:08x}, with {above:08x} above it: the library widens it to \
             {given:016x}, the second program to {expected:016x}"
        )));
    }
    let float = f32::from_bits(single);
    let machine = f64::from(float).to_bits();
    if !float.is_nan() && given != machine {
        return Err(Difference(format!(
            "the single {single:08x}: both widen it to {given:016x}, the machine to {machine:016x}"
        )));
    }
    counts.widened += 1;
    Ok(given)
}

/// Compares narrowing on one double.
pub fn compare_narrow(double: u64, counts: &mut Counts) -> Result<Option<u32>, Difference> {
    let single = reference::float_bits::narrow(double);
    let expected = match single {
        Some(bits) => Narrowed {
            number: 0,
            place: 0,
            bits: u64::from(bits),
        },
        None => Narrowed {
            number: 14,
            place: 0,
            bits: 0,
        },
    };
    let given = surface::narrow(double);
    if given != expected {
        return Err(Difference(format!(
            "the double {double:016x}: the library answers {given:?}, the second program \
             {expected:?}"
        )));
    }
    let float = f64::from_bits(double);
    let machine = float as f32;
    let exact = f64::from(machine).to_bits() == double;
    if !float.is_nan() && single != exact.then_some(machine.to_bits()) {
        return Err(Difference(format!(
            "the double {double:016x}: both answer {given:?}, the machine gives the single \
             {:08x}, exact: {exact}",
            machine.to_bits()
        )));
    }
    match single {
        Some(_) => counts.narrowed += 1,
        None => counts.refused += 1,
    }
    Ok(single)
}

/// Compares a single's widening, the way back, and the way back with one bit changed.
fn compare_around(random: &mut Random, single: u32, counts: &mut Counts) -> Result<(), Difference> {
    let double = compare_widen(single, random.number() as u32, counts)?;
    if compare_narrow(double, counts)? != Some(single) {
        return Err(Difference(format!(
            "the single {single:08x} does not come back from {double:016x}"
        )));
    }
    compare_narrow(double ^ 1 << random.below(64), counts)?;
    Ok(())
}

/// Fractions of `width` bits at their edges: none, all, each bit alone, each run of bits from
/// either end, and each of these one less or more.
fn edge_fractions(width: u32) -> Vec<u64> {
    let all = (1u64 << width) - 1;
    let mut fractions = vec![0, 1, 2, all, all - 1];
    for bit in 0..width {
        let alone = 1u64 << bit;
        let low = alone - 1;
        fractions.extend([alone, alone + 1, low, all - low, all - alone]);
    }
    fractions.retain(|&fraction| fraction <= all);
    fractions.sort_unstable();
    fractions.dedup();
    fractions
}

/// Compares every exponent of both formats, both signs, at each edge of the fraction and at one
/// fraction by chance.
pub fn run_edges(seed: u64) -> Result<Counts, Difference> {
    let mut random = Random::new(seed);
    let mut counts = Counts::default();
    let mut fractions = edge_fractions(23);
    for upper in 0..1u32 << 9 {
        fractions.push(random.number() >> 41);
        for &fraction in &fractions {
            compare_around(&mut random, upper << 23 | fraction as u32, &mut counts)?;
        }
        fractions.pop();
    }
    let mut fractions = edge_fractions(52);
    for upper in 0..1u64 << 12 {
        fractions.push(random.number() >> 12);
        for &fraction in &fractions {
            compare_narrow(upper << 52 | fraction, &mut counts)?;
        }
        fractions.pop();
    }
    Ok(counts)
}

/// Compares this many singles by chance, each with its way back and a double by chance.
pub fn run(seed: u64, cases: u64) -> Result<Counts, Difference> {
    let mut random = Random::new(seed);
    let mut counts = Counts::default();
    for _ in 0..cases {
        let bits = random.number() as u32;
        let single = match random.below(8) {
            // subnormal, of any length
            0 => bits & 0x8000_0000 | (bits & 0x007f_ffff) >> random.below(24),
            // infinite or no number
            1 => bits | 0x7f80_0000,
            _ => bits,
        };
        compare_around(&mut random, single, &mut counts)?;
        // a double: half of the time of a single's range, with any count of zeros at its end
        let mut double = random.number();
        if random.once_in(2) {
            let exponent = 870 + random.below(285) as u64;
            double = double & 0x800f_ffff_ffff_ffff | exponent << 52;
        }
        let zeros = random.below(53);
        compare_narrow(double >> zeros << zeros, &mut counts)?;
    }
    Ok(counts)
}
