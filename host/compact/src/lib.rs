//! The second program's planner once more, as a program has it that plans often: from the bytes to the plan in one
//! pass and without trees; filling and reading by its plans; and stored plans. `reference`
//! is the one to read next to the document. These are what time is measured against,
//! and the comparisons hold them to those.

#![forbid(unsafe_code)]

use reference::{Convention, Place, Refusal, ResultPlan};

mod marshal;
mod stored;
mod table;

pub use marshal::{fill, read};
pub use stored::{check, store, store_in_two_passes, stored_length};
pub use table::{table, table_in_two_passes};

/// Registers that follow each other, on Z always one.
#[derive(Clone, Copy, Debug, Default, PartialEq, Eq)]
pub struct Registers {
    pub first: u8,
    pub count: u8,
}

/// Doublewords of memory that follow each other, on AIX words, counted as in [`Place::Memory`].
#[derive(Clone, Copy, Debug, Default, PartialEq, Eq)]
pub struct Memory {
    pub offset: u16,
    pub words: u8,
}

/// Where an argument stands: in floating registers, or else first in general ones, then in memory;
/// with an ellipsis in both.
#[derive(Clone, Copy, Debug, Default, PartialEq, Eq)]
pub struct Argument {
    pub general: Registers,
    pub floating: Registers,
    pub memory: Memory,
    /// The offset that a listing names: on PPC64 and AIX of the first word, wherever that stands.
    pub offset: Option<u16>,
    /// Where the copy starts, if the argument is passed by reference.
    pub copy: Option<u16>,
    /// The bytes of its value.
    pub size: u16,
    pub content: Content,
}

/// All that matters for how a value stands in its place, beside its size.
#[derive(Clone, Copy, Debug, Default, PartialEq, Eq)]
pub enum Content {
    SignedInteger,
    UnsignedInteger,
    Float,
    /// A long double or a struct.
    #[default]
    Other,
}

#[derive(Clone, Debug, PartialEq, Eq)]
pub struct Plan {
    pub convention: Convention,
    pub ellipsis: bool,
    pub arguments: Vec<Argument>,
    pub result: ResultType,
    pub area: usize,
    pub values: usize,
    pub copies: usize,
}

/// All that the result's places depend on.
#[derive(Clone, Copy, Debug, PartialEq, Eq)]
pub enum ResultType {
    None,
    Integer,
    /// Of 64 bits on AIX.
    WideInteger,
    Float,
    LongDouble,
    Struct,
}

/// All that places depend on.
#[derive(Clone, Copy, PartialEq, Eq)]
enum Kind {
    Integer,
    /// A single or a double.
    Float,
    LongDouble,
    Struct,
    /// A struct of one field that is a `Float` or again such a struct.
    FloatStruct,
}

#[derive(Clone, Copy)]
struct Shape {
    kind: Kind,
    size: usize,
    alignment: usize,
    content: Content,
}

/// Of all but pointers.
const INTEGER_SIZES: [usize; 8] = [1, 1, 2, 2, 4, 4, 8, 8];
const POINTER: u8 = 8;
const FLOAT_SIZES: [usize; 3] = [4, 8, 16];

/// The bytes of the parameter area, of all values and of the copies.
#[derive(Clone, Copy, Debug, PartialEq, Eq)]
pub struct Sizes {
    pub area: usize,
    pub values: usize,
    pub copies: usize,
}

/// What becomes of the arguments' places.
trait Keeper {
    /// Comes first, with the most arguments that there can be.
    fn expect(&mut self, most: usize);
    /// `item` is where the argument's item stands.
    fn keep(&mut self, argument: Argument, item: usize);
}

impl Keeper for Vec<Argument> {
    fn expect(&mut self, most: usize) {
        self.reserve_exact(most);
    }

    fn keep(&mut self, argument: Argument, _item: usize) {
        self.push(argument);
    }
}

/// Keeps none.
struct Nobody;

impl Keeper for Nobody {
    fn expect(&mut self, _most: usize) {}

    fn keep(&mut self, _argument: Argument, _item: usize) {}
}

/// Reads a signature and plans its call.
pub fn plan(bytes: &[u8]) -> Result<Plan, Refusal> {
    let mut arguments = Vec::new();
    let head = place(bytes, &mut arguments)?;
    Ok(Plan {
        convention: head.convention,
        ellipsis: head.ellipsis,
        arguments,
        result: head.result,
        area: head.sizes.area,
        values: head.sizes.values,
        copies: head.sizes.copies,
    })
}

/// The sizes of the plan alone: no place is kept.
pub fn measure(bytes: &[u8]) -> Result<Sizes, Refusal> {
    place(bytes, &mut Nobody).map(|head| head.sizes)
}

/// All of a plan but its arguments.
#[derive(Clone, Copy)]
struct Head {
    convention: Convention,
    ellipsis: bool,
    result: ResultType,
    sizes: Sizes,
}

/// A signature's bytes, the headers that have passed so far, and the convention once it is known.
struct Input<'a> {
    bytes: &'a [u8],
    passed: usize,
    convention: Convention,
    /// Where the first argument's item stands that refusal 29 is for.
    unclear: Option<usize>,
}

/// Reads a signature and places its arguments.
fn place(bytes: &[u8], keeper: &mut impl Keeper) -> Result<Head, Refusal> {
    let mut input = Input {
        bytes,
        passed: 0,
        convention: Convention::Ppc64,
        unclear: None,
    };
    if bytes.len() > 16_384 {
        return input.refuse(1, 0);
    }
    let convention_end = input.header(0, bytes.len(), |tag| tag == 0x01)?;
    let convention = match bytes[3..convention_end] {
        [1] => Convention::Ppc64,
        [2] => Convention::Z,
        [3] => Convention::Aix,
        [4] => Convention::Ppc64b,
        _ => return input.refuse_item(4, 0),
    };
    input.convention = convention;
    let result_end = input.header(convention_end, bytes.len(), |tag| tag == 0x02)?;
    let result = result_type(&mut input, convention_end + 3, result_end)?;
    let mut start = result_end;
    let mut end = input.header(start, bytes.len(), |tag| tag == 0x03 || tag == 0x04)?;
    let ellipsis = bytes[start] == 0x04;
    if ellipsis {
        if end > start + 3 {
            return input.refuse_item(4, start);
        }
        start = end;
        end = input.header(start, bytes.len(), |tag| tag == 0x03)?;
    }
    let body = start + 3;
    let sizes = match (convention, ellipsis) {
        // the width is a constant in each, so that no division is left
        (Convention::Ppc64, false) => {
            place_powerpc::<8, 0, false>(&mut input, body, end, result, keeper)?
        }
        (Convention::Ppc64, true) => {
            place_powerpc::<8, 0, true>(&mut input, body, end, result, keeper)?
        }
        (Convention::Aix, false) => {
            place_powerpc::<4, 0, false>(&mut input, body, end, result, keeper)?
        }
        (Convention::Aix, true) => {
            place_powerpc::<4, 0, true>(&mut input, body, end, result, keeper)?
        }
        (Convention::Ppc64b, false) => {
            place_powerpc::<8, 2, false>(&mut input, body, end, result, keeper)?
        }
        (Convention::Ppc64b, true) => {
            place_powerpc::<8, 2, true>(&mut input, body, end, result, keeper)?
        }
        (Convention::Z, _) => place_z(&mut input, body, end, result, keeper)?,
    };
    if end < bytes.len() {
        return input.refuse(9, end);
    }
    if let Some(place) = input.unclear {
        return Err(Refusal {
            number: 29,
            place,
            items: 0,
        });
    }
    Ok(Head {
        convention,
        ellipsis,
        result,
        sizes,
    })
}

/// By words of so many bytes; a long double takes this many floating registers, or none and words
/// as an integer does; with an ellipsis what is in floating registers has its words too.
fn place_powerpc<const WORD: usize, const LONG_DOUBLE: u8, const ELLIPSIS: bool>(
    input: &mut Input<'_>,
    body: usize,
    end: usize,
    result: ResultType,
    keeper: &mut impl Keeper,
) -> Result<Sizes, Refusal> {
    let hidden = result == ResultType::Struct;
    let mut words = usize::from(hidden);
    let mut floats = 0;
    let mut unclear = None;
    let values = arguments(input, body, end, keeper, |shape, at| {
        let first = words;
        let count = shape.size.div_ceil(WORD);
        words += count;
        let mut argument = Argument {
            offset: Some((WORD * first) as u16),
            ..Argument::default()
        };
        let wanted = match shape.kind {
            Kind::Float => 1,
            Kind::LongDouble => LONG_DOUBLE,
            _ => 0,
        };
        if wanted > 0 {
            if floats + wanted <= 13 {
                argument.floating = Registers {
                    first: floats + 1,
                    count: wanted,
                };
                floats += wanted;
                if !ELLIPSIS {
                    return argument;
                }
            } else if floats < 13 && unclear.is_none() {
                unclear = Some(at);
            }
        }
        let in_registers = match wanted > 0 && !ELLIPSIS {
            true => 0,
            false => count.min(8usize.saturating_sub(first)),
        };
        if in_registers > 0 {
            argument.general = Registers {
                first: 3 + first as u8,
                count: in_registers as u8,
            };
        }
        if in_registers < count {
            argument.memory = Memory {
                offset: (WORD * (first + in_registers)) as u16,
                words: (count - in_registers) as u8,
            };
        }
        argument
    })?;
    input.unclear = unclear;
    Ok(Sizes {
        area: WORD * words.max(8),
        values,
        copies: 0,
    })
}

fn place_z(
    input: &mut Input<'_>,
    body: usize,
    end: usize,
    result: ResultType,
    keeper: &mut impl Keeper,
) -> Result<Sizes, Refusal> {
    let hidden = matches!(result, ResultType::Struct | ResultType::LongDouble);
    let mut general = 2 + u8::from(hidden);
    let mut floating = 0;
    let mut stack: u16 = 160;
    let mut copies = 0;
    let values = arguments(input, body, end, keeper, |shape, _| {
        let mut argument = Argument::default();
        let by_reference = match shape.kind {
            Kind::LongDouble => true,
            Kind::Struct => !matches!(shape.size, 1 | 2 | 4 | 8),
            _ => false,
        };
        if by_reference {
            let start = next_multiple(copies, 8);
            argument.copy = Some(start as u16);
            copies = start + shape.size;
        }
        let as_float = matches!(shape.kind, Kind::Float | Kind::FloatStruct);
        if as_float && floating <= 6 {
            argument.floating = Registers {
                first: floating,
                count: 1,
            };
            floating += 2;
        } else if !as_float && general <= 6 {
            argument.general = Registers {
                first: general,
                count: 1,
            };
            general += 1;
        } else {
            argument.offset = Some(stack);
            argument.memory = Memory {
                offset: stack,
                words: 1,
            };
            stack += 8;
        }
        argument
    })?;
    Ok(Sizes {
        area: usize::from(stack - 160),
        values,
        copies,
    })
}

/// Hands over the arguments that stand from `body` to `end`, each placed by `place`, and gives the
/// size of their values.
fn arguments(
    input: &mut Input<'_>,
    body: usize,
    end: usize,
    keeper: &mut impl Keeper,
    mut place: impl FnMut(Shape, usize) -> Argument,
) -> Result<usize, Refusal> {
    // each takes at least four bytes
    keeper.expect(((end - body) / 4).min(128));
    let mut count = 0;
    let mut values = 0;
    let mut at = body;
    while at < end {
        if count == 128 {
            return input.refuse(7, at);
        }
        let (shape, after) = shape(input, at, end, 1)?;
        values += shape.size;
        count += 1;
        let argument = Argument {
            size: shape.size as u16,
            content: shape.content,
            ..place(shape, at)
        };
        keeper.keep(argument, at);
        at = after;
    }
    Ok(values)
}

fn result_type(input: &mut Input<'_>, body: usize, end: usize) -> Result<ResultType, Refusal> {
    if body == end {
        return Ok(ResultType::None);
    }
    let (shape, after) = shape(input, body, end, 1)?;
    if after < end {
        return input.refuse(4, after);
    }
    Ok(match shape.kind {
        Kind::Integer if shape.size > input.convention.word() => ResultType::WideInteger,
        Kind::Integer => ResultType::Integer,
        Kind::Float => ResultType::Float,
        Kind::LongDouble => ResultType::LongDouble,
        Kind::Struct | Kind::FloatStruct => ResultType::Struct,
    })
}

/// The type item at `at`, whose own depth would be `depth` if it were a struct, and its end.
fn shape(
    input: &mut Input<'_>,
    at: usize,
    limit: usize,
    depth: usize,
) -> Result<(Shape, usize), Refusal> {
    let end = input.header(at, limit, |tag| matches!(tag, 0x10..=0x12))?;
    let body = &input.bytes[at + 3..end];
    let shape = match (input.bytes[at], body) {
        (0x10, &[POINTER]) => {
            let size = input.convention.word();
            scalar(Kind::Integer, size, Content::UnsignedInteger)
        }
        (0x10, &[code @ 0..=7]) => {
            let content = match code % 2 {
                0 => Content::SignedInteger,
                _ => Content::UnsignedInteger,
            };
            scalar(Kind::Integer, INTEGER_SIZES[usize::from(code)], content)
        }
        (0x11, &[2]) if depth > 1 => return input.refuse_item(5, at),
        (0x11, &[2]) if input.convention == Convention::Aix => return input.refuse_item(25, at),
        (0x11, &[1]) if input.convention == Convention::Aix && depth > 1 => {
            return input.refuse_item(25, at)
        }
        (0x11, &[2]) => scalar(Kind::LongDouble, 16, Content::Other),
        (0x11, &[code @ 0..=1]) => {
            scalar(Kind::Float, FLOAT_SIZES[usize::from(code)], Content::Float)
        }
        (0x12, _) => struct_shape(input, at, end, depth)?,
        _ => return input.refuse_item(4, at),
    };
    Ok((shape, end))
}

fn scalar(kind: Kind, size: usize, content: Content) -> Shape {
    Shape {
        kind,
        size,
        alignment: size,
        content,
    }
}

fn struct_shape(
    input: &mut Input<'_>,
    at: usize,
    end: usize,
    depth: usize,
) -> Result<Shape, Refusal> {
    if depth > 8 {
        return input.refuse_item(6, at);
    }
    let mut next = at + 3;
    if next == end {
        return input.refuse_item(4, at);
    }
    let mut size = 0;
    let mut alignment = 1;
    let mut kind = Kind::Struct;
    while next < end {
        let (field, after) = shape(input, next, end, depth + 1)?;
        let only = next == at + 3 && after == end;
        if only && matches!(field.kind, Kind::Float | Kind::FloatStruct) {
            kind = Kind::FloatStruct;
        }
        size = next_multiple(size, field.alignment) + field.size;
        alignment = alignment.max(field.alignment);
        next = after;
    }
    size = next_multiple(size, alignment);
    if size > 256 {
        return input.refuse_item(8, at);
    }
    Ok(Shape {
        kind,
        size,
        alignment,
        content: Content::Other,
    })
}

/// Alignments are powers of two.
fn next_multiple(number: usize, alignment: usize) -> usize {
    (number + alignment - 1) & !(alignment - 1)
}

impl Input<'_> {
    /// Tests the header at `at` and gives the end of its item.
    fn header(
        &mut self,
        at: usize,
        limit: usize,
        allowed: impl Fn(u8) -> bool,
    ) -> Result<usize, Refusal> {
        let &[tag, high, low, ..] = &self.bytes[at..limit] else {
            return self.refuse(2, at);
        };
        if !allowed(tag) {
            return self.refuse(3, at);
        }
        let end = at + 3 + usize::from(u16::from_be_bytes([high, low]));
        if end > limit {
            return self.refuse(2, at);
        }
        self.passed += 1;
        Ok(end)
    }

    fn refuse<T>(&self, number: u64, place: usize) -> Result<T, Refusal> {
        Err(Refusal {
            number,
            place,
            items: self.passed,
        })
    }

    /// Refuses an item whose header has passed, and is not to be counted.
    fn refuse_item<T>(&self, number: u64, place: usize) -> Result<T, Refusal> {
        Err(Refusal {
            number,
            place,
            items: self.passed - 1,
        })
    }
}

/// As `planner` says it, for comparing the two.
impl From<Plan> for reference::Plan {
    fn from(plan: Plan) -> reference::Plan {
        reference::Plan {
            convention: plan.convention,
            ellipsis: plan.ellipsis,
            arguments: plan
                .arguments
                .iter()
                .map(|argument| argument_plan(plan.convention, argument))
                .collect(),
            result: result_plan(plan.convention, plan.result),
            area: plan.area,
            values: plan.values,
            copies: plan.copies,
        }
    }
}

fn argument_plan(convention: Convention, argument: &Argument) -> reference::ArgumentPlan {
    let numbers = |registers: Registers| {
        let first = usize::from(registers.first);
        first..first + usize::from(registers.count)
    };
    let memory = argument.memory;
    let word = convention.word();
    let offsets = (0..usize::from(memory.words)).map(|n| usize::from(memory.offset) + word * n);
    let general = numbers(argument.general).map(Place::General);
    let floating = numbers(argument.floating).map(Place::Floating);
    reference::ArgumentPlan {
        places: floating
            .chain(general)
            .chain(offsets.map(Place::Memory))
            .collect(),
        offset: argument.offset.map(usize::from),
        copy: argument.copy.map(usize::from),
    }
}

fn result_plan(convention: Convention, result: ResultType) -> ResultPlan {
    let (general, floating) = match convention {
        Convention::Ppc64 | Convention::Aix | Convention::Ppc64b => {
            (Place::General(3), Place::Floating(1))
        }
        Convention::Z => (Place::General(2), Place::Floating(0)),
    };
    match (result, convention) {
        (ResultType::None, _) => ResultPlan::None,
        (ResultType::Integer, _) => ResultPlan::Registers(vec![general]),
        (ResultType::WideInteger, _) => ResultPlan::Registers(vec![general, Place::General(4)]),
        (ResultType::Float, _) => ResultPlan::Registers(vec![floating]),
        (ResultType::LongDouble, Convention::Ppc64 | Convention::Aix | Convention::Ppc64b) => {
            ResultPlan::Registers(vec![floating, Place::Floating(2)])
        }
        (ResultType::LongDouble, Convention::Z) | (ResultType::Struct, _) => {
            ResultPlan::Hidden(general)
        }
    }
}

#[cfg(test)]
mod tests {
    use super::*;
    use reference::read;

    /// The call of figure 3-18; for AIX with a 64-bit integer in the place of the long double and of
    /// each double in a struct, which it has none of.
    fn figure_3_18(convention: u8) -> Vec<u8> {
        let integer = [0x10, 0, 1, 4];
        let double = [0x11, 0, 1, 1];
        let (long_double, field) = match convention {
            3 => ([0x10, 0, 1, 6], [0x10, 0, 1, 7]),
            _ => ([0x11, 0, 1, 2], double),
        };
        let structure = [&[0x12, 0, 8][..], &integer, &field].concat();
        let mut bytes = vec![1, 0, 1, convention, 2, 0, 4, 0x10, 0, 1, 4, 3, 0, 50];
        for argument in [
            &integer[..],
            &double,
            &integer,
            &long_double,
            &structure,
            &double,
            &structure,
            &integer,
            &double,
        ] {
            bytes.extend_from_slice(argument);
        }
        bytes
    }

    /// The signature, and the same with an ellipsis.
    fn both(bytes: Vec<u8>) -> [Vec<u8>; 2] {
        let mut with = bytes.clone();
        with.splice(11..11, [4, 0, 0]);
        [bytes, with]
    }

    #[test]
    fn plans_as_the_plain_planner() {
        for bytes in [1, 2, 3, 4].map(figure_3_18).into_iter().flat_map(both) {
            let expected = reference::plan(&read(&bytes).unwrap());
            assert_eq!(reference::Plan::from(plan(&bytes).unwrap()), expected);
            let sizes = Sizes {
                area: expected.area,
                values: expected.values,
                copies: expected.copies,
            };
            assert_eq!(measure(&bytes), Ok(sizes));
        }
    }

    #[test]
    fn refuses_as_the_plain_reader() {
        for bytes in [1, 3].map(figure_3_18).into_iter().flat_map(both) {
            for length in 0..bytes.len() {
                let part = &bytes[..length];
                assert_eq!(plan(part).map(|_| ()), read(part).map(|_| ()));
            }
            for at in 0..bytes.len() {
                for value in [
                    0x00, 0x01, 0x02, 0x03, 0x04, 0x09, 0x10, 0x11, 0x12, 0x13, 0xff,
                ] {
                    let mut changed = bytes.clone();
                    changed[at] = value;
                    assert_eq!(plan(&changed).map(|_| ()), read(&changed).map(|_| ()));
                }
            }
        }
    }
}
