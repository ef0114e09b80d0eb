//! The proved library for Rust. The functions here answer with a value or a [`Refusal`];
//! [`surface`] has the same functions with the C surface's own answers.
//!
//! ```
//! use flakuzhen::Signature;
//!
//! // five items
//! let signature: Signature = "ppc64 void(i32, double)".parse()?;
//! assert_eq!(flakuzhen::read_signature(&signature), Ok(5));
//!
//! // the same without its last byte: the arguments' length passes the end, after two good headers
//! let refusal = flakuzhen::read_signature(&signature[..17]).unwrap_err();
//! assert_eq!((refusal.number, refusal.place, refusal.items), (2, 7, 2));
//! # Ok::<(), flakuzhen::TextFault>(())
//! ```

#![deny(unsafe_code)]

mod dump;
pub mod machine;
mod marshal;
mod plans;
mod signature;
mod stored;
#[allow(unsafe_code)]
pub mod surface;
mod walker;

pub use dump::walk_dump;
pub use marshal::{fill, home, read, view};
pub use plans::{listing, measure, plan, Argument, Convention, Plan, Register, ResultPlace, Sizes};
pub use signature::{Builder, Signature, TextFault, Type};
pub use stored::{check, fill_stored, store, store_into, stored_length};
pub use walker::Walker;

use surface::Answer;

use std::error::Error;
use std::fmt;

/// Why an input is refused.
#[derive(Clone, Copy, Debug, PartialEq, Eq)]
pub struct Refusal {
    /// The number of document 01's table; never 0.
    pub number: u64,
    /// The offset of the faulty item's header or byte in the signature; in stored bytes the first that
    /// differs; in a dump the bad address; or 0 for a refusal that names no place.
    pub place: u64,
    /// How far the reading of the signature had come: the headers that had passed their tests of
    /// room, tag and length, without that of the faulty item. 0 for refusal 1, and where the
    /// signature is accepted.
    pub items: u64,
}

/// Reads a signature and gives its count of items, those nested in others included.
pub fn read_signature(signature: &[u8]) -> Result<u64, Refusal> {
    let answer = surface::read_signature(signature);
    accepted(answer, answer.items)
}

/// The bits of the double that has a single's value. A NaN's bits are moved as they are: a
/// signaling one stays one.
pub fn widen(single: u32) -> u64 {
    surface::widen(u64::from(single))
}

/// The bits of the single that [`widen`] makes these bits of, refused where there is none.
pub fn narrow(double: u64) -> Result<u32, Refusal> {
    let narrowed = surface::narrow(double);
    let answer = Answer {
        number: narrowed.number,
        place: narrowed.place,
        items: 0,
    };
    // the library's promise: an accepted answer is a single's 32 bits
    accepted(answer, narrowed.bits as u32)
}

fn accepted<T>(answer: Answer, value: T) -> Result<T, Refusal> {
    let Answer {
        number,
        place,
        items,
    } = answer;
    if number == 0 {
        Ok(value)
    } else {
        Err(Refusal {
            number,
            place,
            items,
        })
    }
}

impl Refusal {
    /// What the number means, in words.
    pub fn message(&self) -> &'static str {
        match self.number {
            1 => "the signature is over 16,384 bytes",
            2 => "no room for an item's header, or its length passes the enclosing end",
            3 => "a tag that is not allowed there",
            4 => "a length or code that is not allowed, an empty struct, or bytes after the one type",
            5 => "a long double inside a struct",
            6 => "structs nested deeper than 8",
            7 => "bytes after the 128th argument",
            8 => "a struct of over 256 bytes",
            9 => "bytes after the arguments",
            10 => "the buffer of values is not exactly of the arguments' size",
            11 => "the buffer of parameters is shorter than the area",
            12 => "the copy buffer is too short, or its address is no multiple of 8 or too high, or a hidden address on AIX is over 32 bits",
            13 => "an address that does not lie in the copy buffer with all that it points at",
            14 => "the bits of a double that is no widened single",
            15 => "the image of the registers is not 512 bytes",
            16 => "a machine's memory or base that is not allowed, or a memory of another length",
            17 => "a frame request out of range",
            18 => "already 32 frames",
            19 => "no room on the stack for the frame",
            20 => "a write that is not permitted",
            21 => "the back chain, on Z the saved r15, is not the caller's stack pointer",
            22 => "no frame to leave",
            23 => "a machine's or a walker's state that cannot be",
            24 => "no home or view for this convention, or no argument with this index",
            25 => "a long double on AIX, or a double inside a struct there",
            26 => "a float's general registers hold other bytes than its floating register",
            27 => "the stored bytes are not the signature's plan",
            28 => "an enter above a leaf",
            29 => "a long double for which only f13 is left",
            30 => "an address in a dump that is not aligned, not inside with its header or not above the one before, or a dump that ends past the last address",
            31 => "a back chain of over 4,096 frames",
            32 => "a list that is too short for all frames",
            33 => "a buffer that is too short for the stored plan",
            _ => "a refusal that this version has no words for",
        }
    }
}

impl fmt::Display for Refusal {
    fn fmt(&self, to: &mut fmt::Formatter<'_>) -> fmt::Result {
        let Refusal {
            number,
            place,
            items,
        } = self;
        write!(to, "refused {number} at {place}")?;
        // a reading's refusals, which alone have a count
        if matches!(number, 1..=9 | 25) {
            write!(to, " after {items}")?;
        }
        write!(to, ": {}", self.message())
    }
}

impl Error for Refusal {}

#[cfg(test)]
mod tests {
    use super::*;

    #[test]
    fn every_refusal_of_these_functions_has_words() {
        let unknown = Refusal {
            number: 0,
            place: 0,
            items: 0,
        };
        for number in 1..=33 {
            let refusal = Refusal {
                number,
                place: 3,
                items: 2,
            };
            let message = refusal.message();
            assert_ne!(message, unknown.message());
            let counted = number < 10 || number == 25;
            let after = if counted { " after 2" } else { "" };
            let told = format!("refused {number} at 3{after}: {message}");
            assert_eq!(refusal.to_string(), told);
        }
    }

    #[test]
    fn a_single_there_and_back() {
        assert_eq!(widen(0x7F80_0001), 0x7FF0_0000_2000_0000);
        assert_eq!(narrow(0x7FF0_0000_2000_0000), Ok(0x7F80_0001));
        let refusal = Refusal {
            number: 14,
            place: 0,
            items: 0,
        };
        assert_eq!(narrow(0x3690_0000_0000_0000), Err(refusal));
    }
}
