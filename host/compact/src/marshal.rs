//! Filling and reading by the compact planner's plan, without a vector of doublewords for each
//! argument, and with the machine's own conversion of floats.

use super::{plan, Argument, Content, Plan, ResultType};
use reference::{Convention, Refusal};
use std::ops::Range;

const IMAGE: usize = 512;
const FLOATING: usize = 256;
const Z_AREA: usize = 160;
/// The bytes of a general register on AIX.
const AIX_WORD: usize = 4;

/// As `marshal::fill`.
pub fn fill(
    signature: &[u8],
    values: &[u8],
    image: &mut [u8],
    area: &mut [u8],
    copies: &mut [u8],
    copy_base: u64,
    hidden: u64,
) -> Result<(), Refusal> {
    let plan = plan(signature)?;
    test_lengths(&plan, values, image, area)?;
    let end = plan.copies as u64;
    let fits = copies.len() >= plan.copies && copy_base % 8 == 0;
    if end > 0 && !(fits && copy_base <= u64::MAX - end) {
        return refuse(12);
    }
    let hidden_register = hidden_register(&plan);
    let is_aix = plan.convention == Convention::Aix;
    if is_aix && hidden_register.is_some() && hidden > u64::from(u32::MAX) {
        return refuse(12);
    }
    if let Some(register) = hidden_register {
        image[8 * register..8 * register + 8].copy_from_slice(&hidden.to_be_bytes());
    }
    let mut rest = values;
    for argument in &plan.arguments {
        let (value, others) = rest.split_at(usize::from(argument.size));
        rest = others;
        if argument.floating.count > 0 {
            let registers = &mut image[floating(argument)];
            if widened(plan.convention, argument) {
                let single = u32::from_be_bytes([value[0], value[1], value[2], value[3]]);
                registers.copy_from_slice(&widen(single).to_be_bytes());
            } else {
                put_with_zeros(registers, value);
            }
            // with an ellipsis in its words too
            if argument.general.count == 0 && argument.memory.words == 0 {
                continue;
            }
        }
        let (in_image, in_area) = ranges(plan.convention, argument);
        if let Some(start) = argument.copy {
            let start = usize::from(start);
            copies[start..start + value.len()].copy_from_slice(value);
            let address = (copy_base + start as u64).to_be_bytes();
            one(image, area, in_image, in_area).copy_from_slice(&address);
        } else if is_aix {
            fill_words(argument, value, image, area);
        } else if at_the_end(plan.convention, argument) {
            let negative = argument.content == Content::SignedInteger && value[0] >= 0x80;
            let mut doubleword = [if negative { 0xff } else { 0 }; 8];
            doubleword[8 - value.len()..].copy_from_slice(value);
            one(image, area, in_image, in_area).copy_from_slice(&doubleword);
        } else {
            let split = in_image.len().min(value.len());
            put_with_zeros(&mut image[in_image], &value[..split]);
            put_with_zeros(&mut area[in_area], &value[split..]);
        }
    }
    Ok(())
}

/// As `marshal::read`.
pub fn read(
    signature: &[u8],
    values: &mut [u8],
    image: &[u8],
    area: &[u8],
    copies: &[u8],
    copy_base: u64,
) -> Result<(), Refusal> {
    let plan = plan(signature)?;
    test_lengths(&plan, values, image, area)?;
    // all tests before the first byte changes
    for argument in &plan.arguments {
        if argument.copy.is_some() {
            let (in_image, in_area) = ranges(plan.convention, argument);
            let address = number(one_of(image, area, in_image, in_area));
            if pointed_at(address, argument.size, copies, copy_base).is_none() {
                return refuse(13);
            }
        } else if argument.floating.count > 0 {
            let Some(value) = float_value(plan.convention, argument, image) else {
                return refuse(14);
            };
            if !general_agree(plan.convention, argument, &value, image) {
                return refuse(26);
            }
        }
    }
    let mut rest = values;
    for argument in &plan.arguments {
        let (value, others) = rest.split_at_mut(usize::from(argument.size));
        rest = others;
        let (in_image, in_area) = ranges(plan.convention, argument);
        if argument.copy.is_some() {
            let address = number(one_of(image, area, in_image, in_area));
            let copy = pointed_at(address, argument.size, copies, copy_base);
            value.copy_from_slice(copy.expect("tested above"));
        } else if argument.floating.count > 0 {
            let float = float_value(plan.convention, argument, image).expect("tested above");
            value.copy_from_slice(&float[..value.len()]);
        } else if plan.convention == Convention::Aix {
            read_words(argument, value, image, area);
        } else if at_the_end(plan.convention, argument) {
            let doubleword = one_of(image, area, in_image, in_area);
            value.copy_from_slice(&doubleword[8 - value.len()..]);
        } else {
            let split = in_image.len().min(value.len());
            let (first, second) = value.split_at_mut(split);
            first.copy_from_slice(&image[in_image][..split]);
            second.copy_from_slice(&area[in_area][..second.len()]);
        }
    }
    Ok(())
}

/// The value that stands in an argument's floating registers, from the first byte on; nothing where
/// they hold no widened single.
fn float_value(convention: Convention, argument: &Argument, image: &[u8]) -> Option<[u8; 16]> {
    let registers = &image[floating(argument)];
    let mut value = [0; 16];
    if widened(convention, argument) {
        value[..4].copy_from_slice(&narrow(number(registers))?.to_be_bytes());
    } else {
        value[..registers.len()].copy_from_slice(registers);
    }
    Some(value)
}

/// Whether the general registers of an argument, of which a call without ellipsis has none beside
/// floating ones, hold the value's first bytes.
fn general_agree(convention: Convention, argument: &Argument, value: &[u8], image: &[u8]) -> bool {
    let word = convention.word();
    // a single stands at its doubleword's end
    let own = word.min(usize::from(argument.size));
    let mut numbers = 0..usize::from(argument.general.count);
    numbers.all(|number| {
        let end = 8 * (usize::from(argument.general.first) + number) + 8;
        image[end - own..end] == value[own * number..own * (number + 1)]
    })
}

/// AIX: puts a value into its words, the first of which may be general registers.
fn fill_words(argument: &Argument, value: &[u8], image: &mut [u8], area: &mut [u8]) {
    let Some(before) = padding_before(argument) else {
        // from the first word's head on, zeros after it
        for (number, chunk) in value.chunks(AIX_WORD).enumerate() {
            let mut word = [0; AIX_WORD];
            word[..chunk.len()].copy_from_slice(chunk);
            put_word(argument, number, word, image, area);
        }
        return;
    };
    let negative = argument.content == Content::SignedInteger && value[0] >= 0x80;
    let mut word = [if negative { 0xff } else { 0 }; AIX_WORD];
    word[before..].copy_from_slice(value);
    put_word(argument, 0, word, image, area);
}

/// AIX: takes a value from its words.
fn read_words(argument: &Argument, value: &mut [u8], image: &[u8], area: &[u8]) {
    let before = padding_before(argument).unwrap_or(0);
    for (number, chunk) in value.chunks_mut(AIX_WORD).enumerate() {
        let word = match word_place(argument, number) {
            WordPlace::Image(at) => &image[at + AIX_WORD..at + 2 * AIX_WORD],
            WordPlace::Area(at) => &area[at..at + AIX_WORD],
        };
        chunk.copy_from_slice(&word[before..before + chunk.len()]);
    }
}

/// How far into its one word an integer of less than a word begins.
fn padding_before(argument: &Argument) -> Option<usize> {
    let is_integer = argument.content != Content::Other && argument.content != Content::Float;
    let size = usize::from(argument.size);
    (is_integer && size < AIX_WORD).then(|| AIX_WORD - size)
}

/// Where a word of an argument begins: a register's 8 bytes of the image, or 4 of the area.
enum WordPlace {
    Image(usize),
    Area(usize),
}

fn word_place(argument: &Argument, number: usize) -> WordPlace {
    let registers = usize::from(argument.general.count);
    if number < registers {
        return WordPlace::Image(8 * (usize::from(argument.general.first) + number));
    }
    let offset = usize::from(argument.memory.offset);
    WordPlace::Area(offset + AIX_WORD * (number - registers))
}

/// A register's high half becomes zero.
fn put_word(
    argument: &Argument,
    number: usize,
    word: [u8; AIX_WORD],
    image: &mut [u8],
    area: &mut [u8],
) {
    match word_place(argument, number) {
        WordPlace::Image(at) => {
            let whole = u64::from(u32::from_be_bytes(word));
            image[at..at + 8].copy_from_slice(&whole.to_be_bytes());
        }
        WordPlace::Area(at) => area[at..at + AIX_WORD].copy_from_slice(&word),
    }
}

fn test_lengths(plan: &Plan, values: &[u8], image: &[u8], area: &[u8]) -> Result<(), Refusal> {
    if image.len() != IMAGE {
        return refuse(15);
    }
    if values.len() != plan.values {
        return refuse(10);
    }
    if area.len() < plan.area {
        return refuse(11);
    }
    Ok(())
}

fn hidden_register(plan: &Plan) -> Option<usize> {
    match (plan.convention, plan.result) {
        (Convention::Ppc64 | Convention::Aix | Convention::Ppc64b, ResultType::Struct) => Some(3),
        (Convention::Z, ResultType::Struct | ResultType::LongDouble) => Some(2),
        _ => None,
    }
}

/// Whether a single stands there as a double.
fn widened(convention: Convention, argument: &Argument) -> bool {
    convention != Convention::Z
        && argument.content == Content::Float
        && argument.size == 4
        && argument.floating.count > 0
}

/// Whether a value that is not passed by reference stands at the end of its general register or of
/// its doubleword of memory. It is not asked of AIX.
fn at_the_end(convention: Convention, argument: &Argument) -> bool {
    match (convention, argument.content) {
        (_, Content::SignedInteger | Content::UnsignedInteger | Content::Float) => true,
        // a struct of less than a doubleword
        (Convention::Ppc64 | Convention::Aix | Convention::Ppc64b, Content::Other) => {
            argument.size < 8
        }
        (Convention::Z, Content::Other) => true,
    }
}

/// An argument's floating registers in the image.
fn floating(argument: &Argument) -> Range<usize> {
    let first = FLOATING + 8 * usize::from(argument.floating.first);
    first..first + 8 * usize::from(argument.floating.count)
}

/// The general registers of an argument in the image, and its part of the area; on AIX general registers
/// are taken word by word.
fn ranges(convention: Convention, argument: &Argument) -> (Range<usize>, Range<usize>) {
    let registers = argument.general;
    let image = 8 * usize::from(registers.first);
    let above = match convention {
        Convention::Z if argument.memory.words > 0 => Z_AREA,
        _ => 0,
    };
    let area = usize::from(argument.memory.offset) - above;
    (
        image..image + 8 * usize::from(registers.count),
        area..area + convention.word() * usize::from(argument.memory.words),
    )
}

/// The part that is not empty.
fn one_of<'a>(
    image: &'a [u8],
    area: &'a [u8],
    in_image: Range<usize>,
    in_area: Range<usize>,
) -> &'a [u8] {
    match in_image.is_empty() {
        true => &area[in_area],
        false => &image[in_image],
    }
}

fn one<'a>(
    image: &'a mut [u8],
    area: &'a mut [u8],
    in_image: Range<usize>,
    in_area: Range<usize>,
) -> &'a mut [u8] {
    match in_image.is_empty() {
        true => &mut area[in_area],
        false => &mut image[in_image],
    }
}

fn put_with_zeros(slot: &mut [u8], value: &[u8]) {
    let (head, tail) = slot.split_at_mut(value.len());
    head.copy_from_slice(value);
    tail.fill(0);
}

fn number(doubleword: &[u8]) -> u64 {
    u64::from_be_bytes(doubleword.try_into().expect("a doubleword has 8 bytes"))
}

fn pointed_at(address: u64, size: u16, copies: &[u8], base: u64) -> Option<&[u8]> {
    let start = usize::try_from(address.checked_sub(base)?).ok()?;
    copies.get(start..)?.get(..usize::from(size))
}

/// The machine makes a signaling NaN quiet, so NaNs are moved by hand.
fn widen(single: u32) -> u64 {
    let float = f32::from_bits(single);
    if float.is_nan() {
        let sign = u64::from(single >> 31) << 63;
        return sign | 0x7ff0_0000_0000_0000 | u64::from(single & 0x007f_ffff) << 29;
    }
    f64::from(float).to_bits()
}

fn narrow(double: u64) -> Option<u32> {
    let float = f64::from_bits(double);
    let single = if float.is_nan() {
        (double >> 32) as u32 & 0x8000_0000 | 0x7f80_0000 | (double >> 29) as u32 & 0x007f_ffff
    } else {
        (float as f32).to_bits()
    };
    (widen(single) == double).then_some(single)
}

fn refuse<T>(number: u64) -> Result<T, Refusal> {
    Err(Refusal::without_place(number))
}

#[cfg(test)]
mod tests {
    use super::*;
    use reference::float_bits;

    #[test]
    fn floats_as_the_plain_conversion() {
        for single in (0..=u32::MAX).step_by(65_521) {
            assert_eq!(widen(single), float_bits::widen(single));
            let double = u64::from(single) << 32 | u64::from(single.rotate_left(13));
            for zeros in [0, 28, 29, 40, 52] {
                let double = double >> zeros << zeros;
                assert_eq!(narrow(double), float_bits::narrow(double));
            }
            assert_eq!(narrow(widen(single)), Some(single));
        }
    }
}
