//! Filling, reading, home and view: document 01, "What stands in a slot", with the refusals and
//! their order of "When the bridge says no"; on AIX the same by words (document 02, No. 1), small
//! structs of PPC64 as No. 2 mends them, and floats in two places with an ellipsis (No. 5). A refusal
//! leaves every buffer as it was.

use crate::float_bits::{narrow, widen};
use crate::types::round_up;
use crate::{
    call, ArgumentPlan, Convention, Float, Integer, Place, Plan, Refusal, ResultPlan, Type,
};
use std::ops::Range;

const DOUBLEWORD: usize = 8;
/// "GPR n at 8n, FPR n at 256 + 8n", 32 of each.
pub(crate) const IMAGE: usize = 512;
const FLOATING: usize = 256;
/// "The parameter buffer's first byte is stack offset 160" on Z.
const Z_AREA: usize = 160;
/// A floating register's bytes in every convention.
const FLOAT: usize = 8;

pub(crate) const VALUES_SIZE: u64 = 10;
pub(crate) const AREA_TOO_SHORT: u64 = 11;
const BAD_COPIES: u64 = 12;
const OUTSIDE_COPIES: u64 = 13;
const NOT_WIDENED: u64 = 14;
pub(crate) const IMAGE_SIZE: u64 = 15;
const NO_VIEW: u64 = 24;
const FLOATS_DIFFER: u64 = 26;

/// How a value stands in its doublewords, on AIX in its words.
#[derive(Clone, Copy, Debug, PartialEq, Eq)]
enum Form {
    /// From the first byte on, zeros after it.
    Head,
    /// At the end, zeros before it.
    Tail,
    /// The same for a signed integer, with copies of its sign before it.
    SignedTail,
    /// A single as the double of the same value.
    Widened,
    /// The address of a copy.
    Address,
}

/// How an argument stands in floating registers.
fn floating_form(convention: Convention, of: &Type) -> Form {
    match (convention, of) {
        // "in the upper half of its FPR, lower half zero"
        (Convention::Z, _) => Form::Head,
        // "widened bit for bit in an FPR"
        (_, Type::Float(Float::Single)) => Form::Widened,
        _ => Form::Head,
    }
}

/// How an argument stands in general registers and in memory: "a single's GPR image is as in memory".
fn word_form(convention: Convention, of: &Type, argument: &ArgumentPlan) -> Form {
    match (convention, of) {
        (Convention::Z, Type::Integer(_)) => memory_form(convention, of),
        (Convention::Z, _) if argument.by_reference() => Form::Address,
        // a float is "right-justified on the stack", "other small ones are right-justified, zeros
        // above"
        (Convention::Z, _) => Form::Tail,
        _ => memory_form(convention, of),
    }
}

/// How a value stands in the parameter save area of PPC64 or AIX, where "narrow wholes and structs
/// fill 4-byte words as they fill doublewords on PPC64; a single is one word".
fn memory_form(convention: Convention, of: &Type) -> Form {
    match of {
        // "wholes are sign- or zero-extended to 64 bits"
        Type::Integer(Integer::I8 | Integer::I16 | Integer::I32 | Integer::I64) => Form::SignedTail,
        Type::Integer(_) => Form::Tail,
        // "in memory it is the second word, the first zero"
        Type::Float(Float::Single) => Form::Tail,
        Type::Float(_) => Form::Head,
        // "AIX structs keep the head rule for now"
        Type::Struct(_) if convention == Convention::Aix => Form::Head,
        // "a struct smaller than a doubleword in the least significant bytes; only larger ones are
        // padded at the tail"
        Type::Struct(_) if of.size(convention) < DOUBLEWORD => Form::Tail,
        Type::Struct(_) => Form::Head,
    }
}

/// Puts the arguments' values where the callee looks for them.
pub fn fill(
    signature: &[u8],
    values: &[u8],
    image: &mut [u8],
    area: &mut [u8],
    copies: &mut [u8],
    copy_base: u64,
    hidden: u64,
) -> Result<(), Refusal> {
    let (signature, plan) = call(signature)?;
    require(image.len() == IMAGE, IMAGE_SIZE)?;
    require(values.len() == plan.values, VALUES_SIZE)?;
    require(area.len() >= plan.area, AREA_TOO_SHORT)?;
    require(copies_fit(&plan, copies.len(), copy_base), BAD_COPIES)?;
    require(hidden_fits(&plan, hidden), BAD_COPIES)?;

    let convention = signature.convention;
    if let ResultPlan::Hidden(place) = plan.result {
        let address = hidden.to_be_bytes();
        put(
            convention,
            place,
            &address[8 - convention.word()..],
            image,
            area,
        );
    }
    let mut rest = values;
    for (of, argument) in signature.arguments.iter().zip(&plan.arguments) {
        let (value, others) = rest.split_at(of.size(convention));
        rest = others;
        if let Some(start) = argument.copy {
            copies[start..start + value.len()].copy_from_slice(value);
        }
        let address = argument.copy.map(|start| copy_base + start as u64);
        for (places, form) in [
            (floating(argument), floating_form(convention, of)),
            (words(argument), word_form(convention, of, argument)),
        ] {
            let content = content(form, value, address, length(convention, &places));
            let mut rest = &content[..];
            for place in places {
                let (own, others) = rest.split_at(width(convention, place));
                rest = others;
                put(convention, place, own, image, area);
            }
        }
    }
    Ok(())
}

/// What stands in places of so many bytes, of a value in this form; nothing in none.
fn content(form: Form, value: &[u8], address: Option<u64>, length: usize) -> Vec<u8> {
    if length == 0 {
        return Vec::new();
    }
    match form {
        Form::Head => [value, &vec![0; length - value.len()]].concat(),
        Form::Tail => extended(value, 0, length),
        Form::SignedTail => {
            let sign = if value[0] >= 0x80 { 0xff } else { 0 };
            extended(value, sign, length)
        }
        Form::Widened => {
            let single = u32::from_be_bytes(value.try_into().expect("a single has 4 bytes"));
            widen(single).to_be_bytes().to_vec()
        }
        Form::Address => {
            let address = address.expect("an argument by reference has a copy");
            address.to_be_bytes().to_vec()
        }
    }
}

/// Refusal 12: "last copy ends at C, C above 0, and copy buffer under C, base not a multiple of 8,
/// or base + C over 2^64 - 1".
fn copies_fit(plan: &Plan, length: usize, base: u64) -> bool {
    let end = plan.copies;
    end == 0 || (length >= end && base % 8 == 0 && base.checked_add(end as u64).is_some())
}

/// Refusal 12 on AIX: "a needed hidden address over" 2^32 - 1.
fn hidden_fits(plan: &Plan, hidden: u64) -> bool {
    let needed = matches!(plan.result, ResultPlan::Hidden(_));
    plan.convention != Convention::Aix || !needed || hidden <= 0xffff_ffff
}

/// Takes the arguments' values from where the caller put them.
pub fn read(
    signature: &[u8],
    values: &mut [u8],
    image: &[u8],
    area: &[u8],
    copies: &[u8],
    copy_base: u64,
) -> Result<(), Refusal> {
    let (signature, plan) = call(signature)?;
    require(image.len() == IMAGE, IMAGE_SIZE)?;
    require(values.len() == plan.values, VALUES_SIZE)?;
    require(area.len() >= plan.area, AREA_TOO_SHORT)?;

    let caller = Caller {
        convention: signature.convention,
        image,
        area,
        copies,
        copy_base,
    };
    let mut found = Vec::with_capacity(values.len());
    for (of, argument) in signature.arguments.iter().zip(&plan.arguments) {
        found.extend(caller.value(of, argument)?);
    }
    values.copy_from_slice(&found);
    Ok(())
}

/// What a caller has left: registers, memory and copies.
pub(crate) struct Caller<'a> {
    pub convention: Convention,
    pub image: &'a [u8],
    pub area: &'a [u8],
    pub copies: &'a [u8],
    pub copy_base: u64,
}

impl Caller<'_> {
    /// An argument's value. "It prefers an FPR to memory."
    pub fn value(&self, of: &Type, argument: &ArgumentPlan) -> Result<Vec<u8>, Refusal> {
        let words = words(argument);
        let word_form = word_form(self.convention, of, argument);
        let floating = floating(argument);
        if floating.is_empty() {
            return self.found(of, &words, word_form);
        }
        let value = self.found(of, &floating, floating_form(self.convention, of))?;
        // "when the GPRs of a float argument hold other value bytes than its FPR": the registers come
        // before memory, which is not looked at, nor is a single's padding before it
        let padding = length(self.convention, &words).saturating_sub(value.len());
        let in_general = |place: &&Place| matches!(place, Place::General(_));
        let general = words.iter().filter(in_general);
        let held = general.flat_map(|&place| slot(self.convention, place, self.image, self.area));
        let same = held
            .skip(padding)
            .zip(&value)
            .all(|(one, other)| one == other);
        require(same, FLOATS_DIFFER)?;
        Ok(value)
    }

    /// The value that stands in these places in this form.
    fn found(&self, of: &Type, places: &[Place], form: Form) -> Result<Vec<u8>, Refusal> {
        let size = of.size(self.convention);
        let mut content = Vec::new();
        for &place in places {
            content.extend_from_slice(slot(self.convention, place, self.image, self.area));
        }
        Ok(match form {
            Form::Head => content[..size].to_vec(),
            Form::Tail | Form::SignedTail => content[content.len() - size..].to_vec(),
            Form::Widened => narrowed(&content)?.to_vec(),
            Form::Address => {
                let length = self.copies.len();
                let copy = pointed_at(number(&content), size, length, self.copy_base);
                self.copies[copy.ok_or(Refusal::without_place(OUTSIDE_COPIES))?].to_vec()
            }
        })
    }
}

/// The part of the copy buffer that an address and a size name, where it lies wholly inside.
fn pointed_at(address: u64, size: usize, length: usize, base: u64) -> Option<Range<usize>> {
    let start = usize::try_from(address.checked_sub(base)?).ok()?;
    let end = start.checked_add(size)?;
    (end <= length).then_some(start..end)
}

/// PPC64 and AIX: copies the arguments that came in registers into the area, each to its offset, as
/// they would stand there had they been passed in memory.
pub fn home(signature: &[u8], image: &[u8], area: &mut [u8]) -> Result<(), Refusal> {
    let (signature, plan) = call(signature)?;
    let convention = signature.convention;
    require(convention != Convention::Z, NO_VIEW)?;
    require(image.len() == IMAGE, IMAGE_SIZE)?;
    require(area.len() >= plan.area, AREA_TOO_SHORT)?;

    // a copy, since a later argument may be refused
    let mut homed = area.to_vec();
    for (of, argument) in signature.arguments.iter().zip(&plan.arguments) {
        let mut at = powerpc_offset(argument);
        // with an ellipsis "home uses the FPR"
        let places = match floating(argument) {
            registers if registers.is_empty() => words(argument),
            registers => registers,
        };
        for place in places {
            let content = slot(convention, place, image, area);
            let home = match place {
                Place::General(_) => content.to_vec(),
                // "an FPR in its memory form"
                Place::Floating(_) if *of == Type::Float(Float::Single) => {
                    extended(&narrowed(content)?, 0, convention.word())
                }
                Place::Floating(_) => content.to_vec(),
                Place::Memory(_) => homed[at..at + content.len()].to_vec(),
            };
            homed[at..at + home.len()].copy_from_slice(&home);
            at += home.len();
        }
    }
    area.copy_from_slice(&homed);
    Ok(())
}

/// PPC64 and AIX: where an argument's own bytes stand in an area that `home` has completed.
pub fn view(area: &[u8], signature: &[u8], index: u64) -> Result<Range<usize>, Refusal> {
    let (signature, plan) = call(signature)?;
    let convention = signature.convention;
    let there = index < signature.arguments.len() as u64;
    require(convention != Convention::Z && there, NO_VIEW)?;
    require(area.len() >= plan.area, AREA_TOO_SHORT)?;

    let of = &signature.arguments[index as usize];
    let size = of.size(convention);
    let offset = powerpc_offset(&plan.arguments[index as usize]);
    let start = match memory_form(convention, of) {
        Form::Tail | Form::SignedTail => offset + round_up(size, convention.word()) - size,
        _ => offset,
    };
    Ok(start..start + size)
}

/// An argument's offset in the parameter save area.
fn powerpc_offset(argument: &ArgumentPlan) -> usize {
    argument
        .offset
        .expect("on PPC64 and AIX every argument has an offset")
}

/// The bytes of an argument that a place holds.
fn width(convention: Convention, place: Place) -> usize {
    match place {
        Place::Floating(_) => FLOAT,
        Place::General(_) | Place::Memory(_) => convention.word(),
    }
}

/// The bytes that these places of an argument hold.
fn length(convention: Convention, places: &[Place]) -> usize {
    let places = places.iter();
    places.map(|&place| width(convention, place)).sum()
}

/// An argument's floating registers.
fn floating(argument: &ArgumentPlan) -> Vec<Place> {
    let places = argument.places.iter().copied();
    places
        .filter(|place| matches!(place, Place::Floating(_)))
        .collect()
}

/// The general registers and the memory of an argument, in this order.
fn words(argument: &ArgumentPlan) -> Vec<Place> {
    let places = argument.places.iter().copied();
    places
        .filter(|place| !matches!(place, Place::Floating(_)))
        .collect()
}

/// Where the last of an argument's memory ends in the area; 0 where none of it is there.
pub(crate) fn memory_end(convention: Convention, argument: &ArgumentPlan) -> usize {
    let ends = argument
        .places
        .iter()
        .map(|&place| match position(convention, place) {
            Position::Image(_) => 0,
            Position::Area(part) => part.end,
        });
    ends.max().unwrap_or(0)
}

/// Where the bytes of a place stand: in the image, or else in the parameter buffer.
enum Position {
    Image(Range<usize>),
    Area(Range<usize>),
}

fn position(convention: Convention, place: Place) -> Position {
    let area = match convention {
        Convention::Ppc64 | Convention::Aix | Convention::Ppc64b => 0,
        Convention::Z => Z_AREA,
    };
    let word = convention.word();
    match place {
        // on AIX "in the low half of its 8 bytes"
        Place::General(number) => Position::Image(8 * number + 8 - word..8 * number + 8),
        Place::Floating(number) => {
            Position::Image(FLOATING + 8 * number..FLOATING + 8 * number + 8)
        }
        Place::Memory(offset) => Position::Area(offset - area..offset - area + word),
    }
}

fn slot<'a>(convention: Convention, place: Place, image: &'a [u8], area: &'a [u8]) -> &'a [u8] {
    match position(convention, place) {
        Position::Image(bytes) => &image[bytes],
        Position::Area(bytes) => &area[bytes],
    }
}

/// Puts these bytes into a place. A general register's 8 bytes of the image are written whole: on
/// AIX "high half zero".
fn put(convention: Convention, place: Place, bytes: &[u8], image: &mut [u8], area: &mut [u8]) {
    if let Place::General(number) = place {
        image[8 * number..8 * number + 8].fill(0);
    }
    match position(convention, place) {
        Position::Image(part) => image[part].copy_from_slice(bytes),
        Position::Area(part) => area[part].copy_from_slice(bytes),
    }
}

/// This many bytes with the value at their end and `padding` before it.
fn extended(value: &[u8], padding: u8, length: usize) -> Vec<u8> {
    let mut bytes = vec![padding; length];
    bytes[length - value.len()..].copy_from_slice(value);
    bytes
}

fn number(doubleword: &[u8]) -> u64 {
    u64::from_be_bytes(doubleword.try_into().expect("a doubleword has 8 bytes"))
}

/// The single whose widened bits stand in a floating register.
fn narrowed(doubleword: &[u8]) -> Result<[u8; 4], Refusal> {
    let single = narrow(number(doubleword)).ok_or(Refusal::without_place(NOT_WIDENED))?;
    Ok(single.to_be_bytes())
}

pub(crate) fn require(holds: bool, otherwise: u64) -> Result<(), Refusal> {
    match holds {
        true => Ok(()),
        false => Err(Refusal::without_place(otherwise)),
    }
}

#[cfg(test)]
mod tests {
    use super::*;

    const I8: &str = "10 0001 00";
    const U8: &str = "10 0001 01";
    const I16: &str = "10 0001 02";
    const U16: &str = "10 0001 03";
    const I32: &str = "10 0001 04";
    const I64: &str = "10 0001 06";
    const POINTER: &str = "10 0001 08";
    const SINGLE: &str = "11 0001 00";
    const DOUBLE: &str = "11 0001 01";
    const LONG_DOUBLE: &str = "11 0001 02";
    /// Three of i8: a struct of 3 bytes.
    const THREE: &str = "12 000c 10 0001 00 10 0001 00 10 0001 00";
    /// A single within two structs.
    const NESTED_SINGLE: &str = "12 0007 12 0004 11 0001 00";

    const PPC64: &str = "01";
    const Z: &str = "02";
    const AIX: &str = "03";
    const PPC64B: &str = "04";

    /// The bytes that hexadecimal text says; spaces count for nothing.
    fn hex(text: &str) -> Vec<u8> {
        let digits: String = text.split_whitespace().collect();
        (0..digits.len())
            .step_by(2)
            .map(|at| u8::from_str_radix(&digits[at..at + 2], 16).unwrap())
            .collect()
    }

    fn signature(convention: &str, result: &str, arguments: &[&str]) -> Vec<u8> {
        let mut bytes = hex(&format!("01 0001 {convention}"));
        for (tag, body) in [(2, hex(result)), (3, hex(&arguments.concat()))] {
            bytes.push(tag);
            bytes.extend((body.len() as u16).to_be_bytes());
            bytes.extend(body);
        }
        bytes
    }

    /// The same with an ellipsis and no result.
    fn variable(convention: &str, arguments: &[&str]) -> Vec<u8> {
        let mut bytes = signature(convention, "", arguments);
        bytes.splice(7..7, [4, 0, 0]);
        bytes
    }

    /// What a call is handed: an image, an area and copies full of a byte that no test's values
    /// have.
    #[derive(Clone, Debug, PartialEq, Eq)]
    struct Buffers {
        image: Vec<u8>,
        area: Vec<u8>,
        copies: Vec<u8>,
        base: u64,
    }

    const OLD: u8 = 0xaa;

    fn buffers(area: usize, copies: usize, base: u64) -> Buffers {
        Buffers {
            image: vec![OLD; 512],
            area: vec![OLD; area],
            copies: vec![OLD; copies],
            base,
        }
    }

    impl Buffers {
        fn fill(&mut self, signature: &[u8], values: &[u8], hidden: u64) -> Result<(), Refusal> {
            let Buffers {
                image,
                area,
                copies,
                base,
            } = self;
            fill(signature, values, image, area, copies, *base, hidden)
        }

        fn read(&self, signature: &[u8], values: &mut [u8]) -> Result<(), Refusal> {
            let Buffers {
                image,
                area,
                copies,
                base,
            } = self;
            read(signature, values, image, area, copies, *base)
        }

        /// The values, read into a buffer that held something else.
        fn values(&self, signature: &[u8], size: usize) -> Vec<u8> {
            let mut values = vec![OLD; size];
            self.read(signature, &mut values).unwrap();
            values
        }

        fn set_general(&mut self, register: usize, bytes: &str) {
            self.image[8 * register..8 * register + 8].copy_from_slice(&hex(bytes));
        }

        fn set_floating(&mut self, register: usize, bytes: &str) {
            self.set_general(32 + register, bytes);
        }
    }

    /// A struct of this many i8.
    fn bytes_struct(count: usize) -> String {
        format!("12 {:04x} {}", 4 * count, I8.repeat(count))
    }

    fn refused<T>(number: u64) -> Result<T, Refusal> {
        Err(Refusal::without_place(number))
    }

    /// Fills, compares every byte with what is stated, and reads the values back.
    fn fills(
        signature: &[u8],
        values: &str,
        expected: &mut Buffers,
        hidden: u64,
        state: impl Fn(&mut Buffers),
    ) {
        let values = hex(values);
        let mut given = expected.clone();
        assert_eq!(given.fill(signature, &values, hidden), Ok(()));
        state(expected);
        assert_eq!(&given, expected);
        assert_eq!(given.values(signature, values.len()), values);
    }

    #[test]
    fn integers_are_extended_by_their_kind() {
        let arguments = [I8, U8, I16, U16, I32, "10 0001 05", I64, POINTER, I8, U16];
        let values = "80 80 8001 8001 80000001 80000001 8000000000000001 8000000000000002 7f 0102";
        let of = signature(PPC64, "", &arguments);
        fills(&of, values, &mut buffers(80, 0, 0), 0, |state| {
            state.set_general(3, "ffffffffffffff80");
            state.set_general(4, "0000000000000080");
            state.set_general(5, "ffffffffffff8001");
            state.set_general(6, "0000000000008001");
            state.set_general(7, "ffffffff80000001");
            state.set_general(8, "0000000080000001");
            state.set_general(9, "8000000000000001");
            state.set_general(10, "8000000000000002");
            state.area[64..].copy_from_slice(&hex("000000000000007f 0000000000000102"));
        });
        let of = signature(Z, "", &arguments);
        fills(&of, values, &mut buffers(40, 0, 0), 0, |state| {
            state.set_general(2, "ffffffffffffff80");
            state.set_general(3, "0000000000000080");
            state.set_general(4, "ffffffffffff8001");
            state.set_general(5, "0000000000008001");
            state.set_general(6, "ffffffff80000001");
            let stack = "0000000080000001 8000000000000001 8000000000000002 000000000000007f \
                         0000000000000102";
            state.area.copy_from_slice(&hex(stack));
        });
    }

    #[test]
    fn singles_on_ppc64_are_widened_in_registers_and_right_justified_in_memory() {
        let of = signature(PPC64, "", &[SINGLE; 14]);
        let values = "3f800000 00000001 007fffff 7f800001".to_string() + &"3f800000".repeat(10);
        fills(&of, &values, &mut buffers(112, 0, 0), 0, |state| {
            state.set_floating(1, "3ff0000000000000");
            state.set_floating(2, "36a0000000000000");
            state.set_floating(3, "380fffffc0000000");
            state.set_floating(4, "7ff0000020000000");
            for register in 5..=13 {
                state.set_floating(register, "3ff0000000000000");
            }
            state.area[104..].copy_from_slice(&hex("00000000 3f800000"));
        });
    }

    #[test]
    fn singles_on_z_stand_in_the_upper_half_or_right_justified() {
        let of = signature(
            Z,
            "",
            &[SINGLE, NESTED_SINGLE, SINGLE, DOUBLE, NESTED_SINGLE, DOUBLE],
        );
        let values = "7f800001 01020304 11121314 4142434445464748 21222324 3132333435363738";
        fills(&of, values, &mut buffers(16, 0, 0), 0, |state| {
            state.set_floating(0, "7f80000100000000");
            state.set_floating(2, "0102030400000000");
            state.set_floating(4, "1112131400000000");
            state.set_floating(6, "4142434445464748");
            state
                .area
                .copy_from_slice(&hex("0000000021222324 3132333435363738"));
        });
    }

    #[test]
    fn small_structs_stand_right_justified_on_ppc64_and_on_z() {
        let two = "12 0008 10 0001 00 10 0001 00";
        let of = signature(PPC64, "", &[two, NESTED_SINGLE]);
        fills(&of, "0102 7f800001", &mut buffers(64, 0, 0), 0, |state| {
            state.set_general(3, "0000000000000102");
            state.set_general(4, "000000007f800001");
        });
        let of = signature(Z, "", &[two, two, two, two, two, two]);
        let values = "0102 1112 2122 3132 4142 5152";
        fills(&of, values, &mut buffers(8, 0, 0), 0, |state| {
            for register in 2..=6 {
                let high = 10 * (register - 2);
                let value = format!("000000000000 {:02} {:02}", high + 1, high + 2);
                state.set_general(register, &value);
            }
            state.area.copy_from_slice(&hex("0000000000005152"));
        });
    }

    /// Structs of 1 to 17 bytes on PPC64, in registers and in memory: zeros above those of less
    /// than a doubleword, and after the larger ones.
    #[test]
    fn only_structs_of_less_than_a_doubleword_have_zeros_above_on_ppc64() {
        for size in 1..=17 {
            let value: String = (1..=size).map(|byte| format!("{byte:02x}")).collect();
            let zeros = "00".repeat(round_up(size, 8) - size);
            let slot = match size {
                1..=7 => format!("{zeros}{value}"),
                _ => format!("{value}{zeros}"),
            };
            let of = bytes_struct(size);
            let in_registers = signature(PPC64, "", &[&of]);
            fills(&in_registers, &value, &mut buffers(64, 0, 0), 0, |state| {
                for (at, doubleword) in slot.as_bytes().chunks(16).enumerate() {
                    state.set_general(3 + at, std::str::from_utf8(doubleword).unwrap());
                }
            });
            let in_memory = signature(PPC64, "", &[&[I64; 8][..], &[&of]].concat());
            let values = format!("{}{value}", "11".repeat(64));
            let end = 64 + round_up(size, 8);
            fills(&in_memory, &values, &mut buffers(end, 0, 0), 0, |state| {
                for register in 3..=10 {
                    state.set_general(register, &"11".repeat(8));
                }
                state.area[64..].copy_from_slice(&hex(&slot));
            });
            let own = match size {
                1..=7 => 72 - size..72,
                _ => 64..64 + size,
            };
            assert_eq!(view(&vec![0; end], &in_memory, 8), Ok(own));
        }
    }

    #[test]
    fn an_argument_that_straddles_and_its_hidden_address() {
        let large = "12 0010 10 0001 06 10 0001 06 10 0001 06 10 0001 00";
        let arguments = [I8, I8, I8, I8, I8, large, LONG_DOUBLE];
        let of = signature(PPC64, THREE, &arguments);
        let value: String = (0x10..0x30).map(|byte| format!("{byte:02x}")).collect();
        let long_double: String = (0x30..0x40).map(|byte| format!("{byte:02x}")).collect();
        let values = format!("01 02 03 04 05 {value} {long_double}");
        fills(&of, &values, &mut buffers(100, 0, 0), 0x77, |state| {
            state.set_general(3, "0000000000000077");
            for register in 4..=8 {
                state.set_general(register, &format!("00000000000000{:02x}", register - 3));
            }
            state.set_general(9, "1011121314151617");
            state.set_general(10, "18191a1b1c1d1e1f");
            // the area's last 4 bytes stay
            state.area[64..96].copy_from_slice(&hex(&format!("{}{long_double}", &value[32..])));
        });
    }

    #[test]
    fn arguments_by_pointer_are_copied_and_bytes_between_copies_stay() {
        let of = signature(Z, LONG_DOUBLE, &[THREE, LONG_DOUBLE, I8, I8, THREE]);
        let long_double: String = (0x30..0x40).map(|byte| format!("{byte:02x}")).collect();
        let values = format!("010203 {long_double} 04 05 060708");
        let mut call = buffers(9, 28, 0x1000);
        fills(&of, &values, &mut call, 0x77, |state| {
            state.set_general(2, "0000000000000077");
            state.set_general(3, "0000000000001000");
            state.set_general(4, "0000000000001008");
            state.set_general(5, "0000000000000004");
            state.set_general(6, "0000000000000005");
            state.area[..8].copy_from_slice(&hex("0000000000001018"));
            state.copies[..3].copy_from_slice(&hex("010203"));
            state.copies[8..24].copy_from_slice(&hex(&long_double));
            state.copies[24..27].copy_from_slice(&hex("060708"));
        });
    }

    #[test]
    fn filling_refuses_15_then_10_then_11_then_12_and_changes_nothing() {
        let of = signature(Z, "", &[THREE, I8, I8, I8, I8, I8]);
        let good = buffers(8, 3, 0x1000);
        let values = hex("010203 04 05 06 07 08");
        assert_eq!(good.clone().fill(&of, &values, 0), Ok(()));
        let mut call = good.clone();
        call.image.pop();
        call.area.pop();
        call.copies.pop();
        let refuses = |call: &Buffers, values: &[u8], number: u64| {
            let mut after = call.clone();
            assert_eq!(after.fill(&of, values, 0), refused(number));
            assert_eq!(&after, call);
        };
        refuses(&call, &values[1..], 15);
        call.image.push(0);
        refuses(&call, &values[1..], 10);
        refuses(&call, &[&values[..], &[0]].concat(), 10);
        refuses(&call, &values, 11);
        call.area.push(0);
        refuses(&call, &values, 12);
        call.copies.push(0);
        call.base = 0x1004;
        refuses(&call, &values, 12);
        // base + C at 2^64, and one below it
        for (length, answer) in [(16, refused(12)), (15, Ok(()))] {
            let of = signature(Z, "", &[&bytes_struct(length)]);
            let mut call = buffers(0, 16, 0u64.wrapping_sub(16));
            assert_eq!(call.fill(&of, &vec![1; length], 0), answer);
        }
        // no copies: nothing about them is tested
        let of_none = signature(Z, "", &[I8]);
        assert_eq!(buffers(0, 0, 3).fill(&of_none, &[1], 0), Ok(()));
        // the reader's refusals come first
        let mut call = good;
        call.image.pop();
        assert_eq!(
            call.fill(&of[..of.len() - 1], &values, 0),
            Err(Refusal {
                number: 2,
                place: 7,
                items: 2
            })
        );
    }

    #[test]
    fn reading_ignores_padding_and_the_hidden_address() {
        let of = signature(Z, THREE, &[I8, SINGLE, NESTED_SINGLE]);
        let mut call = buffers(0, 0, 0);
        call.set_general(3, "1112131415161781");
        call.set_floating(0, "7f80000121222324");
        call.set_floating(2, "3132333435363738");
        assert_eq!(call.values(&of, 9), hex("81 7f800001 31323334"));
        let of = signature(PPC64, THREE, &[U16, THREE]);
        call.set_general(4, "1112131415161781");
        call.set_general(5, "2122232425262728");
        call.area = vec![0; 64];
        assert_eq!(call.values(&of, 5), hex("1781 262728"));
    }

    #[test]
    fn reading_follows_any_address_wholly_inside_the_copies() {
        let of = signature(Z, "", &[THREE, THREE]);
        let mut call = buffers(0, 0, 0x1001);
        call.copies = hex("00 01 02 03 04");
        for (first, second, values) in [
            ("1001", "1003", Ok("000102 020304")),
            ("1002", "1002", Ok("010203 010203")),
            ("1000", "1001", refused(13)),
            ("1001", "1004", refused(13)),
            ("1006", "1001", refused(13)),
            ("0000", "1001", refused(13)),
        ] {
            call.set_general(2, &format!("000000000000{first}"));
            call.set_general(3, &format!("000000000000{second}"));
            let mut read = vec![OLD; 6];
            match values {
                Ok(values) => {
                    assert_eq!(call.read(&of, &mut read), Ok(()));
                    assert_eq!(read, hex(values));
                }
                Err(refusal) => {
                    assert_eq!(call.read(&of, &mut read), Err(refusal));
                    assert_eq!(read, [OLD; 6]);
                }
            }
        }
        // no address wraps: these copies reach past 2^64
        let of = signature(Z, "", &[THREE]);
        call.base = u64::MAX - 1;
        call.set_general(2, "ffffffffffffffff");
        assert_eq!(call.values(&of, 3), hex("010203"));
        call.set_general(2, "0000000000000000");
        assert_eq!(call.read(&of, &mut [0; 3]), refused(13));
    }

    #[test]
    fn reading_refuses_15_then_10_then_11_then_14() {
        let of = signature(PPC64, "", &[SINGLE, I32, SINGLE]);
        let mut call = buffers(63, 0, 0);
        call.image.push(0);
        let mut short = [OLD; 11];
        let mut values = [OLD; 12];
        assert_eq!(call.read(&of, &mut short), refused(15));
        call.image.pop();
        assert_eq!(call.read(&of, &mut short), refused(10));
        assert_eq!(call.read(&of, &mut values), refused(11));
        call.area.push(0);
        call.set_floating(1, "3ff0000000000000");
        call.set_floating(2, "3ff0000010000000");
        assert_eq!(call.read(&of, &mut values), refused(14));
        assert_eq!(values, [OLD; 12]);
        call.set_floating(2, "3690000000000000");
        assert_eq!(call.read(&of, &mut values), refused(14));
        call.set_floating(2, "36a0000000000000");
        assert_eq!(call.read(&of, &mut values), Ok(()));
        assert_eq!(values[..4], hex("3f800000"));
        assert_eq!(values[8..], hex("00000001"));
    }

    #[test]
    fn home_copies_registers_and_leaves_all_else() {
        let large = "12 000c 10 0001 06 10 0001 06 10 0001 06";
        let of = signature(
            PPC64,
            THREE,
            &[I8, SINGLE, I8, I8, I8, large, DOUBLE, SINGLE, I8],
        );
        let mut call = buffers(108, 0, 0);
        call.set_general(4, "0405060708090a0b");
        call.set_floating(1, "7ff0000020000000");
        call.set_general(6, "060708090a0b0c0d");
        call.set_general(7, "0708090a0b0c0d0e");
        call.set_general(8, "08090a0b0c0d0e0f");
        call.set_general(9, "090a0b0c0d0e0f10");
        call.set_general(10, "0a0b0c0d0e0f1011");
        call.set_floating(2, "1122334455667788");
        call.set_floating(3, "3ff0000000000000");
        let mut area = call.area.clone();
        assert_eq!(home(&of, &call.image, &mut area), Ok(()));
        let expected = [
            // the hidden address's doubleword stays
            "aaaaaaaaaaaaaaaa 0405060708090a0b 000000007f800001 060708090a0b0c0d",
            "0708090a0b0c0d0e 08090a0b0c0d0e0f 090a0b0c0d0e0f10 0a0b0c0d0e0f1011",
            // the third doubleword of the large one stood in memory, and the floats past it are
            // stored although no register of theirs is a general one
            "aaaaaaaaaaaaaaaa 1122334455667788 000000003f800000 aaaaaaaaaaaaaaaa",
            "aaaaaaaa aaaaaaaa",
        ];
        let mut expected = hex(&expected.concat());
        expected.resize(108, OLD);
        assert_eq!(area, expected);
        let views = [
            (0, 15..16),
            (1, 20..24),
            (2, 31..32),
            (5, 48..72),
            (6, 72..80),
            (7, 84..88),
            (8, 95..96),
        ];
        for (index, part) in views {
            assert_eq!(view(&area, &of, index), Ok(part));
        }
        assert_eq!(view(&area, &of, 9), refused(24));
        assert_eq!(view(&area, &of, u64::MAX), refused(24));
        assert_eq!(view(&area[..95], &of, 0), refused(11));
        assert_eq!(view(&area[..95], &of, 9), refused(24));
        assert_eq!(view(&area[..96], &of, 0), Ok(15..16));
    }

    #[test]
    fn home_refuses_24_then_15_then_11_then_14() {
        let mut area = vec![OLD; 63];
        let mut image = vec![0; 511];
        assert_eq!(home(&signature(Z, "", &[]), &image, &mut area), refused(24));
        let of = signature(PPC64, "", &[I8, SINGLE]);
        assert_eq!(home(&of, &image, &mut area), refused(15));
        image.push(0);
        image[264..272].copy_from_slice(&hex("3ff0000010000000"));
        assert_eq!(home(&of, &image, &mut area), refused(11));
        area.push(OLD);
        assert_eq!(home(&of, &image, &mut area), refused(14));
        assert_eq!(area, [OLD; 64]);
        assert_eq!(view(&area, &signature(Z, "", &[I8]), 0), refused(24));
    }

    #[test]
    fn a_view_is_the_arguments_own_bytes() {
        let of = signature(
            PPC64,
            "",
            &[I8, I16, I32, I64, SINGLE, DOUBLE, THREE, LONG_DOUBLE],
        );
        let views = [7..8, 14..16, 20..24, 24..32, 36..40, 40..48, 53..56, 56..72];
        for (index, part) in views.into_iter().enumerate() {
            assert_eq!(view(&[0; 72], &of, index as u64), Ok(part));
        }
    }

    #[test]
    fn on_aix_narrow_integers_fill_words_and_wide_ones_two() {
        let arguments = [
            I8,
            U8,
            I16,
            U16,
            I32,
            "10 0001 05",
            POINTER,
            I64,
            "10 0001 07",
            I8,
            U16,
        ];
        let values = "80 80 8001 8001 80000001 80000002 80000003 8000000000000004 \
                      8000000000000005 80 8001";
        let of = signature(AIX, "", &arguments);
        fills(&of, values, &mut buffers(52, 0, 0), 0, |state| {
            // each in the low half of its 8 bytes, the high half zero
            state.set_general(3, "00000000 ffffff80");
            state.set_general(4, "00000000 00000080");
            state.set_general(5, "00000000 ffff8001");
            state.set_general(6, "00000000 00008001");
            state.set_general(7, "00000000 80000001");
            state.set_general(8, "00000000 80000002");
            state.set_general(9, "00000000 80000003");
            state.set_general(10, "00000000 80000000");
            let area = "00000004 80000000 00000005 ffffff80 00008001";
            state.area[32..].copy_from_slice(&hex(area));
        });
    }

    #[test]
    fn on_aix_floats_are_as_on_ppc64_in_registers_and_words_in_memory() {
        let arguments = [&[SINGLE, DOUBLE][..], &[SINGLE; 11], &[SINGLE, DOUBLE]].concat();
        let of = signature(AIX, "", &arguments);
        let values = format!(
            "7f800001 1112131415161718 {} 00000001 2122232425262728",
            "3f800000".repeat(11)
        );
        fills(&of, &values, &mut buffers(68, 0, 0), 0, |state| {
            state.set_floating(1, "7ff0000020000000");
            state.set_floating(2, "1112131415161718");
            for register in 3..=13 {
                state.set_floating(register, "3ff0000000000000");
            }
            // "a single is one word"
            state.area[56..60].copy_from_slice(&hex("00000001"));
            state.area[60..68].copy_from_slice(&hex("2122232425262728"));
        });
    }

    #[test]
    fn on_aix_structs_start_at_the_head_of_their_first_word() {
        let of = signature(AIX, THREE, &[THREE, &bytes_struct(5), NESTED_SINGLE, I8]);
        let values = "010203 1112131415 7f800001 ff";
        fills(&of, values, &mut buffers(33, 0, 0), 0xffff_fffe, |state| {
            state.set_general(3, "00000000 fffffffe");
            state.set_general(4, "00000000 01020300");
            state.set_general(5, "00000000 11121314");
            state.set_general(6, "00000000 15000000");
            state.set_general(7, "00000000 7f800001");
            state.set_general(8, "00000000 ffffffff");
        });
        // one that straddles, 8 bytes of it in r10 and memory
        let seven = bytes_struct(7);
        let arguments = [&[I8; 7][..], &[&seven, I64]].concat();
        let of = signature(AIX, "", &arguments);
        let values = "01 02 03 04 05 06 07 11121314151617 2122232425262728";
        fills(&of, values, &mut buffers(44, 0, 0), 0, |state| {
            for register in 3..=9 {
                state.set_general(register, &format!("00000000000000{:02x}", register - 2));
            }
            state.set_general(10, "00000000 11121314");
            state.area[32..].copy_from_slice(&hex("15161700 2122232425262728"));
        });
    }

    #[test]
    fn on_aix_a_needed_hidden_address_has_32_bits() {
        let of = signature(AIX, THREE, &[I8]);
        let good = buffers(32, 0, 0);
        for (hidden, answer) in [
            (0xffff_ffff, Ok(())),
            (0x1_0000_0000, refused(12)),
            (u64::MAX, refused(12)),
        ] {
            let mut call = good.clone();
            assert_eq!(call.fill(&of, &[1], hidden), answer);
            assert_eq!(call == good, answer.is_err());
        }
        // 15, 10 and 11 come before it
        let mut call = good.clone();
        call.area.pop();
        assert_eq!(call.fill(&of, &[1], u64::MAX), refused(11));
        assert_eq!(call.fill(&of, &[], u64::MAX), refused(10));
        call.image.pop();
        assert_eq!(call.fill(&of, &[], u64::MAX), refused(15));
        // one that is not needed is ignored
        for (convention, result) in [(AIX, I64), (AIX, ""), (PPC64, THREE), (Z, THREE)] {
            let of = signature(convention, result, &[I8]);
            let mut call = buffers(64, 0, 0);
            assert_eq!(call.fill(&of, &[1], u64::MAX), Ok(()));
        }
    }

    #[test]
    fn on_aix_reading_ignores_high_halves_and_padding() {
        let of = signature(AIX, THREE, &[I8, U16, THREE, I64, SINGLE, POINTER]);
        let mut call = buffers(32, 0, 0);
        call.set_general(3, "ffffffff 01020304");
        call.set_general(4, "a1a2a3a4 11121381");
        call.set_general(5, "b1b2b3b4 21222324");
        call.set_general(6, "c1c2c3c4 31323334");
        call.set_general(7, "d1d2d3d4 41424344");
        call.set_general(8, "e1e2e3e4 51525354");
        call.set_floating(1, "3ff0000000000000");
        call.set_general(10, "f1f2f3f4 61626364");
        let values = "81 2324 313233 4142434451525354 3f800000 61626364";
        assert_eq!(call.values(&of, 22), hex(values));
        call.set_floating(1, "3ff0000010000000");
        assert_eq!(call.read(&of, &mut [0; 22]), refused(14));
    }

    #[test]
    fn on_aix_home_copies_low_halves_and_views_are_by_words() {
        let arguments = [I8, SINGLE, I64, THREE, DOUBLE, I16, I64, SINGLE, DOUBLE, I8];
        let of = signature(AIX, THREE, &arguments);
        let mut call = buffers(64, 0, 0);
        for register in 3..=10 {
            let low = format!("{:02x}", register).repeat(4);
            call.set_general(register, &format!("ffffffff {low}"));
        }
        call.set_floating(1, "7ff0000020000000");
        call.set_floating(2, "1122334455667788");
        call.set_floating(3, "3ff0000000000000");
        call.set_floating(4, "2122232425262728");
        let mut area = call.area.clone();
        assert_eq!(home(&of, &call.image, &mut area), Ok(()));
        let expected = [
            // the hidden address's word stays
            "aaaaaaaa 04040404 7f800001 06060606 07070707 08080808 11223344 55667788",
            // i16 and i64 stood in memory; the floats behind them come from their registers
            "aaaaaaaa aaaaaaaa aaaaaaaa 3f800000 21222324 25262728 aaaaaaaa aaaaaaaa",
        ];
        assert_eq!(area, hex(&expected.concat()));
        let views = [
            7..8,
            8..12,
            12..20,
            20..23,
            24..32,
            34..36,
            36..44,
            44..48,
            48..56,
            59..60,
        ];
        for (index, part) in views.into_iter().enumerate() {
            assert_eq!(view(&area, &of, index as u64), Ok(part));
        }
        assert_eq!(view(&area, &of, 10), refused(24));
        assert_eq!(view(&area[..59], &of, 0), refused(11));
        assert_eq!(view(&area[..60], &of, 0), Ok(7..8));
        // a single's register that is no widened single changes nothing
        call.set_floating(3, "3690000000000000");
        let before = area.clone();
        assert_eq!(home(&of, &call.image, &mut area), refused(14));
        assert_eq!(area, before);
    }

    #[test]
    fn with_an_ellipsis_a_float_stands_in_its_register_and_in_its_word() {
        let arguments = [&[SINGLE, DOUBLE][..], &[I8; 6], &[SINGLE, DOUBLE]].concat();
        let values = "7f800001 1112131415161718 01 02 03 04 05 06 00000001 2122232425262728";
        let of = variable(PPC64, &arguments);
        fills(&of, values, &mut buffers(80, 0, 0), 0, |state| {
            state.set_floating(1, "7ff0000020000000");
            state.set_general(3, "00000000 7f800001");
            state.set_floating(2, "1112131415161718");
            state.set_general(4, "1112131415161718");
            for register in 5..=10 {
                state.set_general(register, &format!("00000000000000{:02x}", register - 4));
            }
            state.set_floating(3, "36a0000000000000");
            state.set_floating(4, "2122232425262728");
            state.area[64..].copy_from_slice(&hex("00000000 00000001 2122232425262728"));
        });
        let of = variable(AIX, &arguments[..9]);
        let values = "7f800001 1112131415161718 01 02 03 04 05 06 00000001";
        fills(&of, values, &mut buffers(40, 0, 0), 0, |state| {
            state.set_floating(1, "7ff0000020000000");
            state.set_general(3, "00000000 7f800001");
            state.set_floating(2, "1112131415161718");
            state.set_general(4, "00000000 11121314");
            state.set_general(5, "00000000 15161718");
            for register in 6..=10 {
                state.set_general(register, &format!("00000000000000{:02x}", register - 5));
            }
            state.set_floating(3, "36a0000000000000");
            state.area[32..].copy_from_slice(&hex("00000006 00000001"));
        });
        // halves of a double in r10 and in memory
        let of = variable(AIX, &[&[I8; 7][..], &[DOUBLE]].concat());
        let values = "01 02 03 04 05 06 07 1112131415161718";
        fills(&of, values, &mut buffers(36, 0, 0), 0, |state| {
            for register in 3..=9 {
                state.set_general(register, &format!("00000000000000{:02x}", register - 2));
            }
            state.set_floating(1, "1112131415161718");
            state.set_general(10, "00000000 11121314");
            state.area[32..].copy_from_slice(&hex("15161718"));
        });
        // and of a long double
        let of = variable(PPC64B, &[&[I8; 7][..], &[LONG_DOUBLE]].concat());
        let values = "01 02 03 04 05 06 07 1112131415161718 2122232425262728";
        fills(&of, values, &mut buffers(72, 0, 0), 0, |state| {
            for register in 3..=9 {
                state.set_general(register, &format!("00000000000000{:02x}", register - 2));
            }
            state.set_floating(1, "1112131415161718");
            state.set_floating(2, "2122232425262728");
            state.set_general(10, "1112131415161718");
            state.area[64..].copy_from_slice(&hex("2122232425262728"));
        });
    }

    /// Every byte that is changed gives this answer, or the values that were filled.
    fn changed(of: &[u8], values: &str, filled: &Buffers, at: usize, answer: Option<u64>) {
        let values = hex(values);
        let mut changed = filled.clone();
        match at {
            0..=511 => changed.image[at] ^= 0x40,
            _ => changed.area[at - 512] ^= 0x40,
        }
        let mut read = vec![OLD; values.len()];
        let given = changed.read(of, &mut read);
        match answer {
            Some(number) => assert_eq!((given, read), (refused(number), vec![OLD; values.len()])),
            None => assert_eq!((given, read), (Ok(()), values), "byte {at}"),
        }
    }

    #[test]
    fn refusal_26_is_other_value_bytes_in_general_registers() {
        // a single: the last four bytes of its register; in memory none
        let of = variable(PPC64, &[SINGLE; 9]);
        let values = "3f800000".repeat(9);
        let mut filled = buffers(72, 0, 0);
        filled.fill(&of, &hex(&values), 0).unwrap();
        for register in 3..=10 {
            for byte in 0..8 {
                let answer = (byte >= 4).then_some(26);
                changed(&of, &values, &filled, 8 * register + byte, answer);
            }
        }
        for at in 0..72 {
            changed(&of, &values, &filled, 512 + at, None);
        }
        // AIX: a single's word, and of a double that straddles r10's word
        let of = variable(AIX, &[SINGLE, DOUBLE, DOUBLE, DOUBLE, DOUBLE]);
        let values = format!("3f800000 {}", "1122334455667788".repeat(4));
        let mut filled = buffers(36, 0, 0);
        filled.fill(&of, &hex(&values), 0).unwrap();
        for register in 3..=10 {
            for byte in 0..8 {
                let answer = (byte >= 4).then_some(26);
                changed(&of, &values, &filled, 8 * register + byte, answer);
            }
        }
        for at in 0..36 {
            changed(&of, &values, &filled, 512 + at, None);
        }
        // a long double of the later edition, which straddles; r3 to r9 hold a struct's own bytes
        let seven = format!("12 001c {}", I64.repeat(7));
        let of = variable(PPC64B, &[&seven, LONG_DOUBLE]);
        let values = "11".repeat(72);
        let mut filled = buffers(72, 0, 0);
        filled.fill(&of, &hex(&values), 0).unwrap();
        for byte in 0..8 {
            changed(&of, &values, &filled, 80 + byte, Some(26));
            changed(&of, &values, &filled, 512 + 64 + byte, None);
        }
        // without an ellipsis and on Z nothing is compared
        let mut call = buffers(64, 0, 0);
        call.image.fill(0);
        let of = signature(PPC64, "", &[DOUBLE]);
        call.set_floating(1, "1122334455667788");
        assert_eq!(call.values(&of, 8), hex("1122334455667788"));
        let of = variable(Z, &[DOUBLE]);
        call.set_floating(0, "1122334455667788");
        assert_eq!(call.values(&of, 8), hex("1122334455667788"));
    }

    #[test]
    fn at_one_argument_14_comes_before_26_and_an_earlier_argument_before_both() {
        let of = variable(PPC64, &[SINGLE, SINGLE]);
        let mut call = buffers(64, 0, 0);
        call.fill(&of, &hex("3f800000 3f800000"), 0).unwrap();
        call.set_general(4, "00000000 3f800001");
        assert_eq!(call.read(&of, &mut [0; 8]), refused(26));
        call.set_floating(2, "3ff0000010000000");
        assert_eq!(call.read(&of, &mut [0; 8]), refused(14));
        call.set_general(3, "00000000 3f800001");
        assert_eq!(call.read(&of, &mut [0; 8]), refused(26));
        call.set_floating(1, "3ff0000010000000");
        call.set_floating(2, "3ff0000000000000");
        assert_eq!(call.read(&of, &mut [0; 8]), refused(14));
        // the lengths come before both
        assert_eq!(call.read(&of, &mut [0; 7]), refused(10));
        call.area.pop();
        assert_eq!(call.read(&of, &mut [0; 8]), refused(11));
    }

    #[test]
    fn with_an_ellipsis_home_uses_the_floating_register() {
        let of = variable(AIX, &[SINGLE, DOUBLE, DOUBLE, DOUBLE, DOUBLE, SINGLE, I8]);
        let mut call = buffers(44, 0, 0);
        for register in 1..=5 {
            call.set_floating(register, "1122334455667788");
        }
        call.set_floating(1, "7ff0000020000000");
        call.set_floating(6, "3ff0000000000000");
        let mut area = call.area.clone();
        assert_eq!(home(&of, &call.image, &mut area), Ok(()));
        let doubles = "1122334455667788".repeat(4);
        assert_eq!(area, hex(&format!("7f800001 {doubles} 3f800000 aaaaaaaa")));
        assert_eq!(view(&area, &of, 4), Ok(28..36));
        // 14 remains, 26 never comes
        call.set_floating(6, "3ff0000010000000");
        assert_eq!(home(&of, &call.image, &mut area), refused(14));
    }
}
