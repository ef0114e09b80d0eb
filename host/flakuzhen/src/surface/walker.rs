//! The part of the C surface that walks a variable argument list.

use super::Answer;

/// `fz_walker`
#[repr(C)]
#[derive(Clone, Copy, Debug, Default, PartialEq, Eq)]
pub struct Walker {
    pub convention: u64,
    pub ellipsis: u64,
    pub hidden: u64,
    /// PowerPC: the words passed so far; Z: the next general register.
    pub general: u64,
    /// PowerPC: the floating registers used so far; Z: the next one.
    pub floating: u64,
    /// PowerPC: 0; Z: the next stack offset.
    pub stack: u64,
}

extern "C" {
    fn fz_walk_start(walker: *mut Walker, sig: *const u8, sig_length: usize) -> Answer;
    fn fz_walk(
        walker: *mut Walker,
        item: *const u8,
        item_length: usize,
        value: *mut u8,
        value_length: usize,
        image: *const u8,
        image_length: usize,
        area: *const u8,
        area_length: usize,
        copies: *const u8,
        copies_length: usize,
        copy_base: u64,
    ) -> Answer;
}

// SAFETY, for both calls below: each slice's pointer and length name bytes that can be read for as
// long as the call lasts, and written where the slice is mutable; the walker is six words that can
// be both. What is mutable overlaps nothing else, since all are lent at once. The functions ask for
// nothing more.

/// `fz_walk_start`
pub fn walk_start(walker: &mut Walker, signature: &[u8]) -> Answer {
    unsafe { fz_walk_start(walker, signature.as_ptr(), signature.len()) }
}

/// `fz_walk`
pub fn walk(
    walker: &mut Walker,
    item: &[u8],
    value: &mut [u8],
    image: &[u8],
    area: &[u8],
    copies: &[u8],
    copy_base: u64,
) -> Answer {
    unsafe {
        fz_walk(
            walker,
            item.as_ptr(),
            item.len(),
            value.as_mut_ptr(),
            value.len(),
            image.as_ptr(),
            image.len(),
            area.as_ptr(),
            area.len(),
            copies.as_ptr(),
            copies.len(),
            copy_base,
        )
    }
}
