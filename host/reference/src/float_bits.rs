//! A single's bits widened to a double's, and a double's bits narrowed back (document 01, "What
//! stands in a slot" and refusal 14). Bit patterns only: no float is ever computed with, so that
//! a signaling NaN stays one.

/// What a pattern of a single or of a double stands for.
#[derive(Clone, Copy, Debug, PartialEq, Eq)]
enum Meaning {
    Zero,
    /// `significand` times 2 to the `power`; the significand is odd, so that each value is said
    /// in one way.
    Number {
        significand: u64,
        power: i64,
    },
    Infinity,
    /// The fraction's bits, as a double's 52.
    Nan {
        payload: u64,
    },
}

/// The double's bits for a single's bits.
pub fn widen(single: u32) -> u64 {
    let (negative, meaning) = meaning_of_single(single);
    double_for(negative, meaning).expect("a double can say whatever a single can")
}

/// The single's bits for a double's, or nothing where the double is no widened single.
pub fn narrow(double: u64) -> Option<u32> {
    let (negative, meaning) = meaning_of_double(double);
    single_for(negative, meaning)
}

fn meaning_of_single(bits: u32) -> (bool, Meaning) {
    let negative = bits >> 31 == 1;
    let exponent = i64::from(bits >> 23 & 0xff);
    let fraction = u64::from(bits & 0x007f_ffff);
    let meaning = match exponent {
        0 => number(fraction, -149),
        255 if fraction == 0 => Meaning::Infinity,
        255 => Meaning::Nan {
            payload: fraction << 29,
        },
        _ => number(fraction + (1 << 23), exponent - 127 - 23),
    };
    (negative, meaning)
}

fn meaning_of_double(bits: u64) -> (bool, Meaning) {
    let negative = bits >> 63 == 1;
    let exponent = (bits >> 52 & 0x7ff) as i64;
    let fraction = bits & 0x000f_ffff_ffff_ffff;
    let meaning = match exponent {
        0 => number(fraction, -1074),
        2047 if fraction == 0 => Meaning::Infinity,
        2047 => Meaning::Nan { payload: fraction },
        _ => number(fraction + (1 << 52), exponent - 1023 - 52),
    };
    (negative, meaning)
}

/// `significand` times 2 to the `power`, said with an odd significand.
fn number(significand: u64, power: i64) -> Meaning {
    if significand == 0 {
        return Meaning::Zero;
    }
    let (mut significand, mut power) = (significand, power);
    while significand % 2 == 0 {
        significand /= 2;
        power += 1;
    }
    Meaning::Number { significand, power }
}

fn double_for(negative: bool, meaning: Meaning) -> Option<u64> {
    let (exponent, fraction) = match meaning {
        Meaning::Zero => (0, 0),
        Meaning::Number { significand, power } => fields(significand, power, 52, 1023)?,
        Meaning::Infinity => (2047, 0),
        Meaning::Nan { payload } => (2047, payload),
    };
    Some(u64::from(negative) << 63 | exponent << 52 | fraction)
}

fn single_for(negative: bool, meaning: Meaning) -> Option<u32> {
    let (exponent, fraction) = match meaning {
        Meaning::Zero => (0, 0),
        Meaning::Number { significand, power } => fields(significand, power, 23, 127)?,
        Meaning::Infinity => (255, 0),
        // a payload with bits below a single's 23 is no widened single's
        Meaning::Nan { payload } if payload % (1 << 29) == 0 => (255, payload >> 29),
        Meaning::Nan { .. } => return None,
    };
    Some(u32::from(negative) << 31 | (exponent << 23 | fraction) as u32)
}

/// The exponent and fraction fields that say `significand` times 2 to the `power` exactly, in a
/// format with `width` fraction bits and the given bias; nothing where no fields do.
fn fields(significand: u64, power: i64, width: u32, bias: i64) -> Option<(u64, u64)> {
    let lowest = 1 - bias - i64::from(width);
    // the leading one goes to bit `width`, or as near to it as the lowest power lets it
    let mut moved = significand;
    let mut at = power;
    while moved < 1 << width && at > lowest {
        moved *= 2;
        at -= 1;
    }
    if moved >= 2 << width || at < lowest {
        return None;
    }
    if moved < 1 << width {
        return Some((0, moved));
    }
    let exponent = at + i64::from(width) + bias;
    if exponent > 2 * bias {
        return None;
    }
    Some((exponent as u64, moved - (1 << width)))
}

#[cfg(test)]
mod tests {
    use super::*;

    #[test]
    fn the_widened_singles_of_the_document() {
        assert_eq!(widen(0x3F80_0000), 0x3FF0_0000_0000_0000);
        assert_eq!(widen(0x0000_0001), 0x36A0_0000_0000_0000);
        assert_eq!(widen(0x007F_FFFF), 0x380F_FFFF_C000_0000);
        assert_eq!(widen(0x7F80_0001), 0x7FF0_0000_2000_0000);
    }

    #[test]
    fn the_doubles_that_the_document_refuses() {
        assert_eq!(narrow(0x3FF0_0000_1000_0000), None);
        assert_eq!(narrow(0x3690_0000_0000_0000), None);
    }

    #[test]
    fn zeros_and_infinities_keep_their_sign() {
        assert_eq!(widen(0x0000_0000), 0x0000_0000_0000_0000);
        assert_eq!(widen(0x8000_0000), 0x8000_0000_0000_0000);
        assert_eq!(widen(0x7F80_0000), 0x7FF0_0000_0000_0000);
        assert_eq!(widen(0xFF80_0000), 0xFFF0_0000_0000_0000);
    }

    #[test]
    fn a_nan_is_moved_bit_for_bit_and_never_quieted() {
        assert_eq!(widen(0xFF80_0001), 0xFFF0_0000_2000_0000);
        assert_eq!(widen(0x7FBF_FFFF), 0x7FF7_FFFF_E000_0000);
        assert_eq!(widen(0x7FC0_0000), 0x7FF8_0000_0000_0000);
        assert_eq!(narrow(0x7FF0_0000_1000_0000), None);
        assert_eq!(narrow(0x7FF8_0000_0000_0001), None);
    }

    #[test]
    fn doubles_too_large_or_too_small_for_a_single_are_refused() {
        // the largest single, and the double of the next power of two
        assert_eq!(narrow(0x47EF_FFFF_E000_0000), Some(0x7F7F_FFFF));
        assert_eq!(narrow(0x47F0_0000_0000_0000), None);
        // the smallest subnormal double, and the largest
        assert_eq!(narrow(0x0000_0000_0000_0001), None);
        assert_eq!(narrow(0x000F_FFFF_FFFF_FFFF), None);
        // 2 to the -149 plus a bit
        assert_eq!(narrow(0x36A0_0000_0000_0001), None);
    }

    #[test]
    fn narrowing_gives_back_what_was_widened() {
        for single in (0..=u32::MAX).step_by(65_521) {
            assert_eq!(narrow(widen(single)), Some(single));
        }
    }

    #[test]
    fn widening_a_number_is_what_the_machine_does() {
        for single in (0..=u32::MAX).step_by(65_519) {
            let float = f32::from_bits(single);
            if !float.is_nan() {
                assert_eq!(widen(single), f64::from(float).to_bits());
            }
        }
    }
}
