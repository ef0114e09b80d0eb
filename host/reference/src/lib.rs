//! The second program. It answers what the proved library answers, and was written from documents
//! 01 and 02 alone, without looking at the proved code or its definitions, so that the two can be
//! compared. It is written to be read next to the document: owned trees, plain recursion, no care
//! for speed; `compact` is for that.

#![forbid(unsafe_code)]

pub mod dump;
pub mod float_bits;
mod listing;
pub mod machine;
pub mod marshal;
mod planner;
mod reader;
pub mod stored;
pub mod table;
mod types;
pub mod walker;

pub use listing::{listing, listing_of, refusal_line};
pub use planner::{
    call, first_unclear, float_equivalent, plan, ArgumentPlan, Place, Plan, ResultPlan,
};
pub use reader::{read, read_type};
pub use types::{struct_size, Convention, Float, Integer, Signature, Type};

/// Why an input is refused: the number of document 01's table, the place, and how far the reading
/// of the signature had come.
#[derive(Clone, Copy, Debug, PartialEq, Eq)]
pub struct Refusal {
    pub number: u64,
    pub place: usize,
    /// The headers that "had passed header room, tag and length room when it stopped"; 0 for
    /// refusal 1 and for those that come after the reading.
    pub items: usize,
}

impl Refusal {
    /// A refusal of an input whose signature is accepted, or that has none: it names no place, and
    /// "counts are 0".
    pub fn without_place(number: u64) -> Refusal {
        Refusal {
            number,
            place: 0,
            items: 0,
        }
    }
}
