//! Filling and reading: a call's values between a plain buffer and the registers and memory of the
//! machine that the signature is for.
//!
//! An image is the registers, 512 bytes: general register n at 8n, floating register n at
//! 256 + 8n. An area is what the caller's stack frame has for arguments. Copies are what arguments
//! that are passed by reference point at; the first byte has the address `copy_base`. All numbers in
//! them are big-endian. On AIX a general register's 4 bytes are the low half of its 8, the high half
//! zero.

use crate::{accepted, surface, Refusal};

/// Puts the values of a call's arguments where its callee looks for them. `values` has the
/// arguments in order without gaps. `hidden` is the address for a result in memory, on AIX of at
/// most 32 bits, and is not looked at where the signature has none.
///
/// ```
/// let signature: flakuzhen::Signature = "ppc64 void(i32, double)".parse()?;
/// let values = [(-2i32).to_be_bytes().as_slice(), &1.5f64.to_be_bytes()].concat();
/// let (mut image, mut area) = ([0; 512], [0; 64]);
/// flakuzhen::fill(&signature, &values, &mut image, &mut area, &mut [], 0, 0)?;
/// assert_eq!(image[24..32], (-2i64).to_be_bytes()); // r3, extended to 64 bits
/// assert_eq!(image[264..272], 1.5f64.to_be_bytes()); // f1
///
/// let mut back = [0; 12];
/// flakuzhen::read(&signature, &mut back, &image, &area, &[], 0)?;
/// assert_eq!(back[..], values);
/// # Ok::<(), Box<dyn std::error::Error>>(())
/// ```
pub fn fill(
    signature: &[u8],
    values: &[u8],
    image: &mut [u8],
    area: &mut [u8],
    copies: &mut [u8],
    copy_base: u64,
    hidden: u64,
) -> Result<(), Refusal> {
    let answer = surface::marshal::fill(signature, values, image, area, copies, copy_base, hidden);
    accepted(answer, ())
}

/// Takes the values of a call's arguments from where its caller put them, in order without gaps.
pub fn read(
    signature: &[u8],
    values: &mut [u8],
    image: &[u8],
    area: &[u8],
    copies: &[u8],
    copy_base: u64,
) -> Result<(), Refusal> {
    let answer = surface::marshal::read(signature, values, image, area, copies, copy_base);
    accepted(answer, ())
}

/// PPC64 and AIX: copies the arguments that came in registers into the area, each to its own place,
/// so that all arguments stand there.
pub fn home(signature: &[u8], image: &[u8], area: &mut [u8]) -> Result<(), Refusal> {
    let answer = surface::marshal::home(signature, image, area);
    accepted(answer, ())
}

/// PPC64 and AIX: the bytes of the argument with this index, counted from 0, in an area that
/// [`home`] has completed.
///
/// ```
/// let signature: flakuzhen::Signature = "ppc64 void(i32, double)".parse()?;
/// let (mut image, mut area) = ([0; 512], [0; 64]);
/// image[24..32].copy_from_slice(&(-2i64).to_be_bytes()); // r3
/// flakuzhen::home(&signature, &image, &mut area)?;
/// assert_eq!(flakuzhen::view(&area, &signature, 0)?, (-2i32).to_be_bytes());
/// assert_eq!(flakuzhen::view(&area, &signature, 2).unwrap_err().number, 24);
/// # Ok::<(), Box<dyn std::error::Error>>(())
/// ```
pub fn view<'a>(area: &'a [u8], signature: &[u8], index: u64) -> Result<&'a [u8], Refusal> {
    let part = surface::marshal::view(area, signature, index);
    accepted(part.answer, ())?;
    // the library's promise: an accepted part lies within the area
    Ok(&area[part.start as usize..][..part.length as usize])
}
