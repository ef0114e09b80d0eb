//! Where a call's values stand: as sizes, as a plan, and in print.

use crate::surface::plans::{Planned, PLACE_WORDS};
use crate::{accepted, surface, Refusal};

use std::fmt;
use std::ops::Range;

/// The bytes that a call's buffers need.
#[derive(Clone, Copy, Debug, PartialEq, Eq)]
pub struct Sizes {
    /// All arguments' values, in order and without gaps.
    pub values: u64,
    /// The parameter area.
    pub area: u64,
    /// The copies of arguments that are passed by reference: the end of the last, or 0.
    pub copies: u64,
}

/// A calling convention: the one that a signature names, or whose frames a machine has.
#[derive(Clone, Copy, Debug, PartialEq, Eq)]
pub enum Convention {
    Ppc64,
    Z,
    Aix,
    /// PPC64 by the later edition of its supplement: a long double takes two FPRs.
    Ppc64b,
}

/// A register, which prints as its name: `r3`, `f1`.
#[derive(Clone, Copy, Debug, PartialEq, Eq, PartialOrd, Ord)]
pub enum Register {
    General(u8),
    Floating(u8),
}

/// Where everything of a call stands.
#[derive(Clone, Debug, PartialEq, Eq)]
pub struct Plan {
    pub convention: Convention,
    /// Whether the signature has an ellipsis.
    pub ellipsis: bool,
    pub sizes: Sizes,
    pub result: ResultPlace,
    /// In order. `for argument in &plan` goes over them too.
    pub arguments: Vec<Argument>,
}

/// Where an argument stands. A range that is not used is empty.
#[derive(Clone, Debug, PartialEq, Eq)]
pub struct Argument {
    /// Where its type's item starts in the signature.
    pub item: usize,
    /// Its bytes of all arguments' values.
    pub value: Range<usize>,
    /// The numbers of its general registers.
    pub general: Range<u8>,
    /// The numbers of its floating registers.
    pub floating: Range<u8>,
    /// Its bytes of the parameter area, used or not.
    pub home: Range<usize>,
    /// Those of them that hold it.
    pub memory: Range<usize>,
    /// Its copy in the copies, where it is passed by reference.
    pub copy: Option<Range<usize>>,
}

/// Where the result stands.
#[derive(Clone, Debug, PartialEq, Eq)]
pub enum ResultPlace {
    None,
    Registers(Vec<Register>),
    /// In memory of the caller's. Its address is a hidden first argument, in this register.
    Hidden(Register),
}

impl fmt::Display for Convention {
    fn fmt(&self, to: &mut fmt::Formatter<'_>) -> fmt::Result {
        to.write_str(match self {
            Convention::Ppc64 => "PPC64",
            Convention::Z => "Z",
            Convention::Aix => "AIX",
            Convention::Ppc64b => "PPC64B",
        })
    }
}

impl fmt::Display for Register {
    fn fmt(&self, to: &mut fmt::Formatter<'_>) -> fmt::Result {
        match self {
            Register::General(number) => write!(to, "r{number}"),
            Register::Floating(number) => write!(to, "f{number}"),
        }
    }
}

impl Argument {
    /// Its registers, the floating ones first; with an ellipsis these and the general ones each have
    /// its bytes in order.
    pub fn registers(&self) -> impl Iterator<Item = Register> {
        registers(self.general.clone(), self.floating.clone())
    }

    pub fn by_reference(&self) -> bool {
        self.copy.is_some()
    }

    /// Of the words of a table's entry.
    fn of(words: &[u64; PLACE_WORDS]) -> Argument {
        let range = |at: usize| words[at] as usize..(words[at] + words[at + 1]) as usize;
        let copy = range(11);
        Argument {
            item: words[0] as usize,
            value: words[2] as usize..(words[2] + words[1]) as usize,
            general: numbers(words[3], words[4]),
            floating: numbers(words[5], words[6]),
            home: range(7),
            memory: range(9),
            copy: (!copy.is_empty()).then_some(copy),
        }
    }
}

/// The library's promise: a register's number is below 32.
fn numbers(first: u64, count: u64) -> Range<u8> {
    first as u8..(first + count) as u8
}

fn registers(general: Range<u8>, floating: Range<u8>) -> impl Iterator<Item = Register> {
    let floating = floating.map(Register::Floating);
    floating.chain(general.map(Register::General))
}

impl<'a> IntoIterator for &'a Plan {
    type Item = &'a Argument;
    type IntoIter = std::slice::Iter<'a, Argument>;

    fn into_iter(self) -> Self::IntoIter {
        self.arguments.iter()
    }
}

/// Plans the call of a function with this signature.
///
/// ```
/// use flakuzhen::{Register, ResultPlace, Signature};
///
/// let signature: Signature = "ppc64 void(i32, double)".parse()?;
/// let plan = flakuzhen::plan(&signature)?;
/// assert_eq!(plan.result, ResultPlace::None);
/// let second = &plan.arguments[1];
/// assert_eq!(second.registers().collect::<Vec<_>>(), [Register::Floating(1)]);
/// assert_eq!((second.item, second.value.clone()), (14, 4..12));
/// // its doubleword of the area is not used
/// assert_eq!((second.home.clone(), second.memory.is_empty()), (8..16, true));
/// # Ok::<(), Box<dyn std::error::Error>>(())
/// ```
pub fn plan(signature: &[u8]) -> Result<Plan, Refusal> {
    // an argument's item has at least 4 bytes
    plan_from(signature, signature.len() / 4)
}

/// The plan, first tried with room for this many arguments.
fn plan_from(signature: &[u8], room: usize) -> Result<Plan, Refusal> {
    let mut places = vec![0; PLACE_WORDS * room];
    let mut planned = surface::plans::plan(signature, &mut places);
    if planned.arguments as usize > room {
        places.resize(PLACE_WORDS * planned.arguments as usize, 0);
        planned = surface::plans::plan(signature, &mut places);
    }
    accepted(planned.answer, ())?;
    let entries = places.chunks_exact(PLACE_WORDS);
    let argument = |entry: &[u64]| Argument::of(entry.try_into().expect("the words of an entry"));
    Ok(Plan {
        // the library's promise: one of these
        convention: match planned.convention {
            1 => Convention::Ppc64,
            3 => Convention::Aix,
            4 => Convention::Ppc64b,
            _ => Convention::Z,
        },
        ellipsis: planned.ellipsis != 0,
        sizes: Sizes {
            values: planned.values,
            area: planned.area,
            copies: planned.copies,
        },
        result: result_place(&planned),
        arguments: entries
            .take(planned.arguments as usize)
            .map(argument)
            .collect(),
    })
}

fn result_place(planned: &Planned) -> ResultPlace {
    let general = numbers(planned.result_gpr, planned.result_gprs);
    let floating = numbers(planned.result_fpr, planned.result_fprs);
    match planned.result {
        0 => ResultPlace::None,
        1 => ResultPlace::Registers(registers(general, floating).collect()),
        _ => ResultPlace::Hidden(Register::General(general.start)),
    }
}

/// Enough for every listing that was ever seen, and no promise: a longer one takes a second call.
const USUAL_LISTING: usize = 4096;

/// Plans the call of a function with this signature and gives the sizes of its buffers.
///
/// ```
/// let signature: flakuzhen::Signature = "ppc64 void(i32, double)".parse()?;
/// let sizes = flakuzhen::measure(&signature)?;
/// assert_eq!((sizes.values, sizes.area, sizes.copies), (12, 64, 0));
/// # Ok::<(), Box<dyn std::error::Error>>(())
/// ```
pub fn measure(signature: &[u8]) -> Result<Sizes, Refusal> {
    let sizes = surface::plans::measure(signature);
    let planned = Sizes {
        values: sizes.values,
        area: sizes.area,
        copies: sizes.copies,
    };
    accepted(sizes.answer, planned)
}

/// The plan of a call in print, or for a refused signature the one line that says so.
///
/// ```
/// let signature: flakuzhen::Signature = "ppc64 void(i32, double)".parse()?;
/// let listing = "PPC64 args 2 area 64\n0 r3 @0\n1 f1 @8\nresult none\n";
/// assert_eq!(flakuzhen::listing(&signature), listing);
/// assert_eq!(flakuzhen::listing(&[]), "refused 2 at 0 after 0\n");
/// # Ok::<(), flakuzhen::TextFault>(())
/// ```
pub fn listing(signature: &[u8]) -> String {
    listing_from(signature, USUAL_LISTING)
}

/// The listing, first tried with this much room.
fn listing_from(signature: &[u8], room: usize) -> String {
    let mut text = vec![0; room];
    let mut length = surface::plans::listing(signature, &mut text) as usize;
    if length > room {
        text.resize(length, 0);
        length = surface::plans::listing(signature, &mut text) as usize;
    }
    text.truncate(length);
    String::from_utf8(text).expect("a listing is digits, letters, '@', spaces and newlines")
}

#[cfg(test)]
mod tests {
    use super::*;

    /// Z, result struct of i64, arguments long double and single.
    const SIGNATURE: [u8; 25] = [
        1, 0, 1, 2, 2, 0, 7, 0x12, 0, 4, 0x10, 0, 1, 6, 3, 0, 8, 0x11, 0, 1, 2, 0x11, 0, 1, 0,
    ];
    const LISTING: &str = "Z args 2 area 0\n0 r3 ref\n1 f0\nresult hidden r2\n";

    #[test]
    fn sizes_and_refusals() {
        let sizes = Sizes {
            values: 20,
            area: 0,
            copies: 16,
        };
        assert_eq!(measure(&SIGNATURE), Ok(sizes));
        let refusal = Refusal {
            number: 2,
            place: 14,
            items: 4,
        };
        assert_eq!(measure(&SIGNATURE[..24]), Err(refusal));
        assert_eq!(listing(&SIGNATURE[..24]), "refused 2 at 14 after 4\n");
    }

    #[test]
    fn a_plan_that_does_not_fit_at_first() {
        let long_double = Argument {
            item: 17,
            value: 0..16,
            general: 3..4,
            floating: 0..0,
            home: 0..0,
            memory: 0..0,
            copy: Some(0..16),
        };
        let single = Argument {
            item: 21,
            value: 16..20,
            general: 0..0,
            floating: 0..1,
            copy: None,
            ..long_double.clone()
        };
        let expected = Plan {
            convention: Convention::Z,
            ellipsis: false,
            sizes: measure(&SIGNATURE).expect("an accepted signature"),
            result: ResultPlace::Hidden(Register::General(2)),
            arguments: vec![long_double, single],
        };
        assert_eq!(plan(&SIGNATURE).as_ref(), Ok(&expected));
        for room in 0..4 {
            assert_eq!(plan_from(&SIGNATURE, room).as_ref(), Ok(&expected));
        }
        let of = |register: &Register| register.to_string();
        let names: Vec<String> = (&expected)
            .into_iter()
            .map(|argument| argument.registers().map(|one| of(&one)).collect())
            .collect();
        assert_eq!(names, ["r3", "f0"]);
        assert_eq!(plan(&SIGNATURE[..24]).unwrap_err().place, 14);
    }

    #[test]
    fn a_listing_that_does_not_fit_at_first() {
        assert_eq!(listing(&SIGNATURE), LISTING);
        for room in [0, 1, LISTING.len() - 1, LISTING.len(), LISTING.len() + 1] {
            assert_eq!(listing_from(&SIGNATURE, room), LISTING);
        }
    }
}
