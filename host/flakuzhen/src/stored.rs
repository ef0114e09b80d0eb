//! Stored plans: a call's plan in bytes, which a program may keep, and the check that they are still
//! what the planner gives.
//!
//! The bytes are items, with headers as a signature has them: tag 0x20 with the signature's own bytes,
//! a tag 0x21 for each argument with its places, and tag 0x22 with the result's. A place has five bytes:
//! its kind (0 register, 1 memory, 2 copy, 3 hidden address), its bank (0 general, 1 floating), its
//! number, and its offset in two. One plan has one byte form, and different signatures never share one.

use crate::{accepted, surface, Refusal};

/// The plan of a signature in bytes.
///
/// ```
/// let signature: flakuzhen::Signature = "ppc64 void(i32, double)".parse()?;
/// let stored = flakuzhen::store(&signature)?;
/// assert_eq!(stored[..3], [0x20, 0, 18]);
/// assert_eq!(stored[3..21], signature[..]);
/// assert_eq!(stored[21..29], [0x21, 0, 5, 0, 0, 3, 0, 0]); // r3, at offset 0
/// assert_eq!(stored[29..37], [0x21, 0, 5, 0, 1, 1, 0, 8]); // f1, at offset 8
/// assert_eq!(stored[37..], [0x22, 0, 0]);
/// # Ok::<(), Box<dyn std::error::Error>>(())
/// ```
pub fn store(signature: &[u8]) -> Result<Vec<u8>, Refusal> {
    let mut stored = vec![0; stored_length(signature)?];
    store_into(signature, &mut stored)?;
    Ok(stored)
}

/// The bytes that a signature's stored plan takes.
pub fn stored_length(signature: &[u8]) -> Result<usize, Refusal> {
    let stored = surface::stored::length(signature);
    accepted(stored.answer, stored.length as usize)
}

/// Writes the plan of a signature to the first bytes of a buffer, and gives their count. The others
/// stay; a buffer that is too short is refused with 33, after all else, and stays as it was.
///
/// ```
/// let signature: flakuzhen::Signature = "z void()".parse()?;
/// let mut buffer = [0xff; 20];
/// assert_eq!(flakuzhen::store_into(&signature, &mut buffer)?, 16);
/// assert_eq!(buffer[16..], [0xff; 4]);
/// assert_eq!(flakuzhen::store_into(&signature, &mut buffer[..15]).unwrap_err().number, 33);
/// # Ok::<(), Box<dyn std::error::Error>>(())
/// ```
pub fn store_into(signature: &[u8], stored: &mut [u8]) -> Result<usize, Refusal> {
    let written = surface::stored::store(signature, stored);
    accepted(written.answer, written.length as usize)
}

/// Accepts exactly where the stored bytes are what [`store`] gives for the signature today. Else the
/// refusal is the signature's own, or 27 with the place in the stored bytes of the first that differs,
/// or the shorter length where one is a part of the other.
///
/// ```
/// let old: flakuzhen::Signature = "ppc64 void(i32, double)".parse()?;
/// let new: flakuzhen::Signature = "ppc64 void(i64, double)".parse()?;
/// let stored = flakuzhen::store(&old)?;
/// assert_eq!(flakuzhen::check(&stored, &old), Ok(()));
/// let refusal = flakuzhen::check(&stored, &new).unwrap_err();
/// assert_eq!((refusal.number, refusal.place), (27, 16));
/// # Ok::<(), Box<dyn std::error::Error>>(())
/// ```
pub fn check(stored: &[u8], signature: &[u8]) -> Result<(), Refusal> {
    accepted(surface::stored::check(stored, signature), ())
}

/// Checks the stored bytes as [`check`] does, and then fills the call as [`fill`](crate::fill) does.
///
/// ```
/// let signature: flakuzhen::Signature = "ppc64 void(i32, double)".parse()?;
/// let stored = flakuzhen::store(&signature)?;
/// let values = [(-2i32).to_be_bytes().as_slice(), &1.5f64.to_be_bytes()].concat();
/// let (mut image, mut area) = ([0; 512], [0; 64]);
/// flakuzhen::fill_stored(&stored, &signature, &values, &mut image, &mut area, &mut [], 0, 0)?;
/// assert_eq!(image[24..32], (-2i64).to_be_bytes()); // r3
/// # Ok::<(), Box<dyn std::error::Error>>(())
/// ```
#[allow(clippy::too_many_arguments)]
pub fn fill_stored(
    stored: &[u8],
    signature: &[u8],
    values: &[u8],
    image: &mut [u8],
    area: &mut [u8],
    copies: &mut [u8],
    copy_base: u64,
    hidden: u64,
) -> Result<(), Refusal> {
    let answer = surface::stored::fill(
        stored, signature, values, image, area, copies, copy_base, hidden,
    );
    accepted(answer, ())
}
