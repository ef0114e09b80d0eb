//! The second planner (`crates/second_planner`): PowerPC's registers laid over one structure of all
//! parameters, Z slot by slot. That it agrees with the library's planner is proved
//! (`crates/second_agreement`); here it is run. It is no part of the library.

mod listing;

pub use listing::listing;

/// `fz_answer`: number 0 is yes, with the count of items.
#[repr(C)]
#[derive(Clone, Copy, Debug, PartialEq, Eq)]
pub struct Answer {
    pub number: u64,
    pub place: u64,
    pub items: u64,
}

/// A plan without the places of its arguments; nothing else of it means anything where the answer is
/// no.
#[repr(C)]
#[derive(Clone, Copy, Debug, PartialEq, Eq)]
pub struct Plan {
    pub answer: Answer,
    /// The convention's code.
    pub convention: u64,
    /// 1 where the signature has one.
    pub ellipsis: u64,
    pub arguments: u64,
    pub values: u64,
    pub area: u64,
    pub copies: u64,
    /// 0 none, 1 in general registers, 2 in floating registers, 3 hidden.
    pub result: u64,
    /// The first of its registers, or the one with its address.
    pub result_first: u64,
    pub result_count: u64,
}

/// The places of an argument; a run that is not used is 0 and 0.
#[repr(C)]
#[derive(Clone, Copy, Debug, PartialEq, Eq)]
pub struct Place {
    pub gpr: u64,
    pub gprs: u64,
    pub fpr: u64,
    pub fprs: u64,
    /// Its bytes of the parameter area, used or not.
    pub field: u64,
    pub field_length: u64,
    /// Those of them that hold it.
    pub memory: u64,
    pub memory_length: u64,
    /// Its copy, where it is passed by reference.
    pub copy: u64,
    pub copy_length: u64,
    pub reference: u64,
}

extern "C" {
    fn fz_second_plan(sig: *const u8, sig_length: usize) -> Plan;
    fn fz_second_place(sig: *const u8, sig_length: usize, index: u64) -> Place;
}

/// Plans the call of a function with this signature.
pub fn plan(signature: &[u8]) -> Plan {
    // SAFETY: the slice's pointer and length name bytes that can be read for as long as the call
    // lasts, and nothing writes them meanwhile. The function asks for nothing more.
    unsafe { fz_second_plan(signature.as_ptr(), signature.len()) }
}

/// The places of an argument, counted from 0; all 0 where there is none. Each time the whole call is
/// planned.
pub fn place(signature: &[u8], index: u64) -> Place {
    // SAFETY: as in `plan`.
    unsafe { fz_second_place(signature.as_ptr(), signature.len(), index) }
}
