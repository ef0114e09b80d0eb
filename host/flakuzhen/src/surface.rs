//! The C surface as it stands in `include/flakuzhen.h`, each function made safe and nothing more:
//! answers keep all their words. This module, with the files in `surface/`, is the one with unsafe
//! code. Nothing but the tests holds the declarations here to the library's, so they are kept next
//! to each other.

pub mod dump;
pub mod machine;
pub mod marshal;
pub mod plans;
pub mod stored;
pub mod walker;

/// `fz_answer`: number 0 is yes. A refused signature's `items` is the count of headers that had
/// passed.
#[repr(C)]
#[derive(Clone, Copy, Debug, PartialEq, Eq)]
pub struct Answer {
    pub number: u64,
    pub place: u64,
    pub items: u64,
}

/// `fz_narrowed`: number 0 is yes.
#[repr(C)]
#[derive(Clone, Copy, Debug, PartialEq, Eq)]
pub struct Narrowed {
    pub number: u64,
    pub place: u64,
    pub bits: u64,
}

extern "C" {
    fn fz_version() -> u64;
    fn fz_read_signature(sig: *const u8, sig_length: usize) -> Answer;
    fn fz_widen(bits: u64) -> u64;
    fn fz_narrow(bits: u64) -> Narrowed;
}

/// `fz_version`
pub fn version() -> u64 {
    // SAFETY: the function takes nothing and touches no memory of the caller.
    unsafe { fz_version() }
}

/// `fz_read_signature`
pub fn read_signature(signature: &[u8]) -> Answer {
    // SAFETY: the slice's pointer and length name bytes that can be read for as long as the call
    // lasts, and nothing writes them meanwhile. The function asks for nothing more.
    unsafe { fz_read_signature(signature.as_ptr(), signature.len()) }
}

/// `fz_widen`
pub fn widen(bits: u64) -> u64 {
    // SAFETY: the function takes any number and touches no memory of the caller.
    unsafe { fz_widen(bits) }
}

/// `fz_narrow`
pub fn narrow(bits: u64) -> Narrowed {
    // SAFETY: as for `widen`.
    unsafe { fz_narrow(bits) }
}
