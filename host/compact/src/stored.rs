//! Stored plans: `reference::stored`, as a program has it that stores and checks often. Nothing is
//! allocated.

use super::{place, Argument, Head, Keeper, ResultType};
use reference::stored::{STALE, STORED_TOO_SHORT};
use reference::{Convention, Refusal};

const MOST_ARGUMENTS: usize = 128;
const HEADER: usize = 3;
const PLACE: usize = 5;

/// As `reference::stored::length`.
pub fn stored_length(signature: &[u8]) -> Result<usize, Refusal> {
    let mut places = Places(0);
    let head = place(signature, &mut places)?;
    Ok(whole_length(signature, places, head))
}

/// As `reference::stored::store`: arguments are kept until all are known.
pub fn store(signature: &[u8], stored: &mut [u8]) -> Result<usize, Refusal> {
    let mut kept = Kept {
        arguments: [Argument::default(); MOST_ARGUMENTS],
        count: 0,
        length: Places(0),
    };
    let head = place(signature, &mut kept)?;
    let length = whole_length(signature, kept.length, head);
    let mut to = Writer::new(signature, stored, length, head.convention)?;
    for argument in &kept.arguments[..kept.count] {
        put_argument(head.convention, argument, &mut to);
    }
    put_result(head, &mut to);
    Ok(length)
}

/// The same in two passes without keeping.
pub fn store_in_two_passes(signature: &[u8], stored: &mut [u8]) -> Result<usize, Refusal> {
    let mut places = Places(0);
    let head = place(signature, &mut places)?;
    let length = whole_length(signature, places, head);
    let mut to = Writer::new(signature, stored, length, head.convention)?;
    place(signature, &mut to)?;
    put_result(head, &mut to);
    Ok(length)
}

/// As `reference::stored::check`, in one pass: each argument is compared as it comes, and the first
/// difference is kept until the whole signature is read.
pub fn check(stored: &[u8], signature: &[u8]) -> Result<(), Refusal> {
    let mut own = Comparer {
        stored,
        at: 0,
        differs: None,
        convention: convention(signature),
    };
    // one that is longer is refused
    own.put(&header(0x20, signature.len()));
    own.put(signature);
    let head = place(signature, &mut own)?;
    put_result(head, &mut own);
    let place = match own.differs {
        Some(place) => place,
        None if own.at < stored.len() => own.at,
        None => return Ok(()),
    };
    Err(Refusal {
        number: STALE,
        place,
        items: 0,
    })
}

/// Of an accepted signature, whose first item says it.
fn convention(signature: &[u8]) -> Convention {
    let code = signature.get(3).copied().unwrap_or(0);
    Convention::of_code(u64::from(code)).unwrap_or(Convention::Z)
}

fn header(tag: u8, length: usize) -> [u8; HEADER] {
    let [high, low] = (length as u16).to_be_bytes();
    [tag, high, low]
}

/// Where stored bytes go.
trait Target {
    fn put(&mut self, bytes: &[u8]);
}

struct Writer<'a> {
    to: &'a mut [u8],
    at: usize,
    convention: Convention,
}

impl<'a> Writer<'a> {
    /// With the signature written, where there is room for all.
    fn new(
        signature: &[u8],
        stored: &'a mut [u8],
        length: usize,
        convention: Convention,
    ) -> Result<Writer<'a>, Refusal> {
        let Some(to) = stored.get_mut(..length) else {
            return Err(Refusal::without_place(STORED_TOO_SHORT));
        };
        let mut writer = Writer {
            to,
            at: 0,
            convention,
        };
        writer.put(&header(0x20, signature.len()));
        writer.put(signature);
        Ok(writer)
    }
}

impl Target for Writer<'_> {
    fn put(&mut self, bytes: &[u8]) {
        self.to[self.at..self.at + bytes.len()].copy_from_slice(bytes);
        self.at += bytes.len();
    }
}

impl Keeper for Writer<'_> {
    fn expect(&mut self, _most: usize) {}

    fn keep(&mut self, argument: Argument, _item: usize) {
        put_argument(self.convention, &argument, self);
    }
}

struct Comparer<'a> {
    stored: &'a [u8],
    at: usize,
    differs: Option<usize>,
    convention: Convention,
}

impl Target for Comparer<'_> {
    fn put(&mut self, bytes: &[u8]) {
        let own = &self.stored[self.at.min(self.stored.len())..];
        if own.starts_with(bytes) {
            self.at += bytes.len();
        } else if self.differs.is_none() {
            let same = own
                .iter()
                .zip(bytes)
                .take_while(|(one, other)| one == other);
            self.differs = Some(self.at + same.count());
        }
    }
}

impl Keeper for Comparer<'_> {
    fn expect(&mut self, _most: usize) {}

    fn keep(&mut self, argument: Argument, _item: usize) {
        // no later one matters
        if self.differs.is_none() {
            put_argument(self.convention, &argument, self);
        }
    }
}

/// The bytes of the arguments' items.
struct Places(usize);

impl Keeper for Places {
    fn expect(&mut self, _most: usize) {}

    fn keep(&mut self, argument: Argument, _item: usize) {
        self.0 += HEADER + PLACE * count(&argument);
    }
}

struct Kept {
    arguments: [Argument; MOST_ARGUMENTS],
    count: usize,
    length: Places,
}

impl Keeper for Kept {
    fn expect(&mut self, _most: usize) {}

    fn keep(&mut self, argument: Argument, item: usize) {
        self.arguments[self.count] = argument;
        self.count += 1;
        self.length.keep(argument, item);
    }
}

/// An argument's places.
fn count(argument: &Argument) -> usize {
    let registers = argument.floating.count + argument.general.count;
    let copy = usize::from(argument.copy.is_some());
    usize::from(registers) + usize::from(argument.memory.words) + copy
}

fn whole_length(signature: &[u8], places: Places, head: Head) -> usize {
    let result = result_places(head).map_or(0, |(_, _, _, count)| count);
    HEADER + signature.len() + places.0 + HEADER + PLACE * usize::from(result)
}

fn put_place(kind: u8, bank: u8, number: u8, offset: u16, to: &mut impl Target) {
    let [high, low] = offset.to_be_bytes();
    to.put(&[kind, bank, number, high, low]);
}

fn put_argument(convention: Convention, argument: &Argument, to: &mut impl Target) {
    to.put(&header(0x21, PLACE * count(argument)));
    let word = convention.word() as u16;
    // on Z no register has an offset, and one argument has one place and perhaps a copy
    let first = match convention {
        Convention::Z => 0,
        _ => argument.offset.unwrap_or(0),
    };
    for number in 0..argument.floating.count {
        let offset = first + 8 * u16::from(number);
        put_place(0, 1, argument.floating.first + number, offset, to);
    }
    for number in 0..argument.general.count {
        let offset = first + word * u16::from(number);
        put_place(0, 0, argument.general.first + number, offset, to);
    }
    for number in 0..argument.memory.words {
        let offset = argument.memory.offset + word * u16::from(number);
        put_place(1, 0, 0, offset, to);
    }
    if let Some(start) = argument.copy {
        put_place(2, 0, 0, start, to);
    }
}

/// The result's kind, bank, first number and count, where there is one.
fn result_places(head: Head) -> Option<(u8, u8, u8, u8)> {
    let (general, floating) = match head.convention {
        Convention::Z => (2, 0),
        _ => (3, 1),
    };
    match (head.result, head.convention) {
        (ResultType::None, _) => None,
        (ResultType::Integer, _) => Some((0, 0, general, 1)),
        (ResultType::WideInteger, _) => Some((0, 0, general, 2)),
        (ResultType::Float, _) => Some((0, 1, floating, 1)),
        (ResultType::Struct, _) | (ResultType::LongDouble, Convention::Z) => {
            Some((3, 0, general, 1))
        }
        (ResultType::LongDouble, _) => Some((0, 1, floating, 2)),
    }
}

fn put_result(head: Head, to: &mut impl Target) {
    let (kind, bank, first, count) = result_places(head).unwrap_or((0, 0, 0, 0));
    to.put(&header(0x22, PLACE * usize::from(count)));
    for number in 0..count {
        put_place(kind, bank, first + number, 0, to);
    }
}
