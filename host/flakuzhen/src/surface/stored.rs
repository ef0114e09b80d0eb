//! The functions of the C surface that write plans to bytes and work with such bytes.

use super::Answer;

/// `fz_stored`: length 0 where the answer is no.
#[repr(C)]
#[derive(Clone, Copy, Debug, PartialEq, Eq)]
pub struct Stored {
    pub answer: Answer,
    pub length: u64,
}

extern "C" {
    fn fz_stored_length(sig: *const u8, sig_length: usize) -> Stored;
    fn fz_store_plan(
        sig: *const u8,
        sig_length: usize,
        stored: *mut u8,
        stored_length: usize,
    ) -> Stored;
    fn fz_check_plan(
        stored: *const u8,
        stored_length: usize,
        sig: *const u8,
        sig_length: usize,
    ) -> Answer;
    fn fz_fill_stored(
        stored: *const u8,
        stored_length: usize,
        sig: *const u8,
        sig_length: usize,
        values: *const u8,
        values_length: usize,
        image: *mut u8,
        image_length: usize,
        area: *mut u8,
        area_length: usize,
        copies: *mut u8,
        copies_length: usize,
        copy_base: u64,
        hidden: u64,
    ) -> Answer;
}

// SAFETY, for all calls below: each slice's pointer and length name bytes that can be read for as
// long as the call lasts, and written where the slice is mutable. No mutable one overlaps another,
// since they are lent at once. The functions ask for nothing more.

/// `fz_stored_length`
pub fn length(signature: &[u8]) -> Stored {
    unsafe { fz_stored_length(signature.as_ptr(), signature.len()) }
}

/// `fz_store_plan`
pub fn store(signature: &[u8], stored: &mut [u8]) -> Stored {
    unsafe {
        fz_store_plan(
            signature.as_ptr(),
            signature.len(),
            stored.as_mut_ptr(),
            stored.len(),
        )
    }
}

/// `fz_check_plan`
pub fn check(stored: &[u8], signature: &[u8]) -> Answer {
    unsafe {
        fz_check_plan(
            stored.as_ptr(),
            stored.len(),
            signature.as_ptr(),
            signature.len(),
        )
    }
}

/// `fz_fill_stored`
#[allow(clippy::too_many_arguments)]
pub fn fill(
    stored: &[u8],
    signature: &[u8],
    values: &[u8],
    image: &mut [u8],
    area: &mut [u8],
    copies: &mut [u8],
    copy_base: u64,
    hidden: u64,
) -> Answer {
    unsafe {
        fz_fill_stored(
            stored.as_ptr(),
            stored.len(),
            signature.as_ptr(),
            signature.len(),
            values.as_ptr(),
            values.len(),
            image.as_mut_ptr(),
            image.len(),
            area.as_mut_ptr(),
            area.len(),
            copies.as_mut_ptr(),
            copies.len(),
            copy_base,
            hidden,
        )
    }
}
