//! The planner's functions of the C surface.

use super::Answer;

/// `fz_sizes`: the bytes that a call needs, all 0 where the answer is no.
#[repr(C)]
#[derive(Clone, Copy, Debug, PartialEq, Eq)]
pub struct Sizes {
    pub answer: Answer,
    pub values: u64,
    pub area: u64,
    pub copies: u64,
}

/// `FZ_PLACE_WORDS`: the words that [`plan`] writes for each argument, those of an `fz_place`.
pub const PLACE_WORDS: usize = 13;

/// `fz_planned`: all but the answer 0 where that is no.
#[repr(C)]
#[derive(Clone, Copy, Debug, PartialEq, Eq)]
pub struct Planned {
    pub answer: Answer,
    pub convention: u64,
    pub ellipsis: u64,
    pub arguments: u64,
    pub values: u64,
    pub area: u64,
    pub copies: u64,
    /// 0 none, 1 in registers, 2 hidden.
    pub result: u64,
    pub result_gpr: u64,
    pub result_gprs: u64,
    pub result_fpr: u64,
    pub result_fprs: u64,
}

extern "C" {
    fn fz_measure(sig: *const u8, sig_length: usize) -> Sizes;
    fn fz_plan(
        sig: *const u8,
        sig_length: usize,
        places: *mut u64,
        places_length: usize,
    ) -> Planned;
    fn fz_listing(sig: *const u8, sig_length: usize, text: *mut u8, text_length: usize) -> u64;
}

/// `fz_measure`
pub fn measure(signature: &[u8]) -> Sizes {
    // SAFETY: the slice's pointer and length name bytes that can be read for as long as the call
    // lasts, and nothing writes them meanwhile. The function asks for nothing more.
    unsafe { fz_measure(signature.as_ptr(), signature.len()) }
}

/// `fz_plan`
pub fn plan(signature: &[u8], places: &mut [u64]) -> Planned {
    // SAFETY: for the signature as in `measure`. The table's words can be written for as long as
    // the call lasts, are nobody else's meanwhile and so not the signature's.
    unsafe {
        fz_plan(
            signature.as_ptr(),
            signature.len(),
            places.as_mut_ptr(),
            places.len(),
        )
    }
}

/// `fz_listing`
pub fn listing(signature: &[u8], text: &mut [u8]) -> u64 {
    // SAFETY: for the signature as in `measure`. The text's bytes can be written for as long as
    // the call lasts, are nobody else's meanwhile and so not the signature's. C's `char` has the
    // layout of `u8`.
    unsafe {
        fz_listing(
            signature.as_ptr(),
            signature.len(),
            text.as_mut_ptr(),
            text.len(),
        )
    }
}
