//! The part of the C surface that fills and reads calls.

use super::Answer;

/// `fz_part`: start and length 0 in a refused answer.
#[repr(C)]
#[derive(Clone, Copy, Debug, PartialEq, Eq)]
pub struct Part {
    pub answer: Answer,
    pub start: u64,
    pub length: u64,
}

extern "C" {
    fn fz_fill(
        sig: *const u8,
        sig_length: usize,
        values: *const u8,
        values_length: usize,
        image: *mut u8,
        image_length: usize,
        area: *mut u8,
        area_length: usize,
        copies: *mut u8,
        copies_length: usize,
        copy_base: u64,
        hidden: u64,
    ) -> Answer;
    fn fz_read(
        sig: *const u8,
        sig_length: usize,
        values: *mut u8,
        values_length: usize,
        image: *const u8,
        image_length: usize,
        area: *const u8,
        area_length: usize,
        copies: *const u8,
        copies_length: usize,
        copy_base: u64,
    ) -> Answer;
    fn fz_home(
        sig: *const u8,
        sig_length: usize,
        image: *const u8,
        image_length: usize,
        area: *mut u8,
        area_length: usize,
    ) -> Answer;
    fn fz_view(
        area: *const u8,
        area_length: usize,
        sig: *const u8,
        sig_length: usize,
        index: u64,
    ) -> Part;
}

// SAFETY, for all calls below: each slice's pointer and length name bytes that can be read for as
// long as the call lasts, and written where the slice is mutable. No mutable one overlaps another,
// since they are lent at once. The functions ask for nothing more.

/// `fz_fill`
pub fn fill(
    signature: &[u8],
    values: &[u8],
    image: &mut [u8],
    area: &mut [u8],
    copies: &mut [u8],
    copy_base: u64,
    hidden: u64,
) -> Answer {
    unsafe {
        fz_fill(
            signature.as_ptr(),
            signature.len(),
            values.as_ptr(),
            values.len(),
            image.as_mut_ptr(),
            image.len(),
            area.as_mut_ptr(),
            area.len(),
            copies.as_mut_ptr(),
            copies.len(),
            copy_base,
            hidden,
        )
    }
}

/// `fz_read`
pub fn read(
    signature: &[u8],
    values: &mut [u8],
    image: &[u8],
    area: &[u8],
    copies: &[u8],
    copy_base: u64,
) -> Answer {
    unsafe {
        fz_read(
            signature.as_ptr(),
            signature.len(),
            values.as_mut_ptr(),
            values.len(),
            image.as_ptr(),
            image.len(),
            area.as_ptr(),
            area.len(),
            copies.as_ptr(),
            copies.len(),
            copy_base,
        )
    }
}

/// `fz_home`
pub fn home(signature: &[u8], image: &[u8], area: &mut [u8]) -> Answer {
    unsafe {
        fz_home(
            signature.as_ptr(),
            signature.len(),
            image.as_ptr(),
            image.len(),
            area.as_mut_ptr(),
            area.len(),
        )
    }
}

/// `fz_view`
pub fn view(area: &[u8], signature: &[u8], index: u64) -> Part {
    unsafe {
        fz_view(
            area.as_ptr(),
            area.len(),
            signature.as_ptr(),
            signature.len(),
            index,
        )
    }
}
