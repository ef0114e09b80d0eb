//! Walking a call's arguments one by one, for a callee that learns their types as it goes.

use crate::{accepted, surface, Refusal};

/// Where a walk over a call's arguments stands. It keeps no bytes of the call.
///
/// ```
/// use flakuzhen::{Signature, Type, Walker};
///
/// // before the ellipsis a pointer to the types' names
/// let signature: Signature = "ppc64 void(pointer, ...)".parse()?;
/// let (mut image, area) = ([0; 512], [0; 64]);
/// image[32..40].copy_from_slice(&1.5f64.to_be_bytes()); // r4, where the caller put a double
/// image[264..272].copy_from_slice(&1.5f64.to_be_bytes()); // and f1, where it put it too
///
/// let mut walker = Walker::start(&signature)?;
/// let (mut pointer, mut double) = ([0; 8], [0; 8]);
/// walker.next(&Type::Pointer.item(), &mut pointer, &image, &area, &[], 0)?;
/// walker.next(&Type::Double.item(), &mut double, &image, &area, &[], 0)?;
/// assert_eq!(double, 1.5f64.to_be_bytes());
/// # Ok::<(), Box<dyn std::error::Error>>(())
/// ```
#[derive(Clone, Copy, Debug, PartialEq, Eq)]
pub struct Walker {
    at: surface::walker::Walker,
}

impl Walker {
    /// At the first argument of a call with this signature.
    pub fn start(signature: &[u8]) -> Result<Walker, Refusal> {
        let mut at = surface::walker::Walker::default();
        let answer = surface::walker::walk_start(&mut at, signature);
        accepted(answer, Walker { at })
    }

    /// Takes the next argument's value, as the type whose item this is, and moves on; where it is
    /// refused it stays, and so does `value`, which must have the type's size.
    pub fn next(
        &mut self,
        item: &[u8],
        value: &mut [u8],
        image: &[u8],
        area: &[u8],
        copies: &[u8],
        copy_base: u64,
    ) -> Result<(), Refusal> {
        let at = &mut self.at;
        let answer = surface::walker::walk(at, item, value, image, area, copies, copy_base);
        accepted(answer, ())
    }
}

#[cfg(test)]
mod tests {
    use super::*;

    #[test]
    fn a_refused_step_stays() {
        // Z, no result, no arguments
        let signature = [1, 0, 1, 2, 2, 0, 0, 3, 0, 0];
        let mut walker = Walker::start(&signature).expect("an accepted signature");
        let before = walker;
        let mut value = [7; 4];
        let refusal = walker.next(&[0x10, 0, 1, 4], &mut value, &[0; 511], &[], &[], 0);
        assert_eq!(refusal.unwrap_err().number, 15);
        let refusal = walker.next(&[0x10, 0, 1, 9], &mut value, &[0; 512], &[], &[], 0);
        assert_eq!(refusal.unwrap_err().number, 4);
        assert_eq!((walker, value), (before, [7; 4]));
        walker
            .next(&[0x10, 0, 1, 4], &mut value, &[0; 512], &[], &[], 0)
            .expect("an accepted step");
        assert_eq!(value, [0; 4]);
        assert_ne!(walker, before);
        assert_eq!(Walker::start(&signature[..9]).unwrap_err().number, 2);
    }
}
