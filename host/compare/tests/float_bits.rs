//! Widening and narrowing, compared.

use compare::float_bits::{self, Counts};

const CASES: u64 = 1_000_000;

#[test]
fn every_exponent_at_its_edges() {
    let seed = compare::seed();
    println!("seed {seed:#x}");
    let counts = match float_bits::run_edges(seed) {
        Ok(counts) => counts,
        Err(difference) => panic!("seed {seed:#x}: {difference}"),
    };
    println!("{counts}");
    assert!(counts.widened > 512 * 50);
    assert!(counts.narrowed > 0 && counts.refused > 0);
}

#[test]
fn a_million_singles_and_as_many_doubles() {
    let seed = compare::seed();
    println!("seed {seed:#x}");
    let counts = match float_bits::run(seed, CASES) {
        Ok(counts) => counts,
        Err(difference) => panic!("seed {seed:#x}: {difference}"),
    };
    println!("{counts}");
    assert_eq!(counts.widened, CASES);
    assert!(counts.narrowed >= CASES && counts.refused >= CASES / 2);
}

#[test]
fn the_numbers_of_the_document() {
    let mut counts = Counts::default();
    let widened = [
        (0x3F80_0000, 0x3FF0_0000_0000_0000),
        (0x0000_0001, 0x36A0_0000_0000_0000),
        (0x007F_FFFF, 0x380F_FFFF_C000_0000),
        (0x7F80_0001, 0x7FF0_0000_2000_0000),
    ];
    for (single, double) in widened {
        assert_eq!(
            float_bits::compare_widen(single, 0, &mut counts).unwrap(),
            double
        );
        assert_eq!(
            float_bits::compare_narrow(double, &mut counts).unwrap(),
            Some(single)
        );
    }
    for double in [0x3FF0_0000_1000_0000, 0x3690_0000_0000_0000] {
        assert_eq!(
            float_bits::compare_narrow(double, &mut counts).unwrap(),
            None
        );
    }
}
