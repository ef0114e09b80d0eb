//! The whole plan in words of a lent table: `reference::table`, as a program has it that plans often.

use super::{place, Argument, Head, Keeper, ResultType};
use reference::table::ENTRY;
use reference::{Convention, Refusal};

const MOST_ARGUMENTS: usize = 128;
const Z_AREA: u16 = 160;

/// As `reference::table`, with the entries in a lent table. One that is too short for all of them stays
/// as it was, and so does every table where the signature is refused: arguments are kept until all
/// are known.
pub fn table(bytes: &[u8], words: &mut [u64]) -> Result<[u64; 11], Refusal> {
    let mut kept = Kept {
        arguments: [(Argument::default(), 0); MOST_ARGUMENTS],
        count: 0,
    };
    let planned = place(bytes, &mut kept)?;
    if words.len() >= ENTRY * kept.count {
        let mut value = 0;
        let entries = words.chunks_exact_mut(ENTRY);
        for (entry, (argument, item)) in entries.zip(&kept.arguments[..kept.count]) {
            put(
                entry,
                planned.convention,
                argument,
                usize::from(*item),
                value,
            );
            value += u64::from(argument.size);
        }
    }
    Ok(head(planned, kept.count))
}

/// The same in two passes without keeping: the first finds out all that can refuse, the second writes
/// each entry as it comes.
pub fn table_in_two_passes(bytes: &[u8], words: &mut [u64]) -> Result<[u64; 11], Refusal> {
    let mut counted = Counted { count: 0 };
    let planned = place(bytes, &mut counted)?;
    if words.len() >= ENTRY * counted.count {
        let mut lent = Lent {
            convention: planned.convention,
            words,
            count: 0,
            value: 0,
        };
        place(bytes, &mut lent)?;
    }
    Ok(head(planned, counted.count))
}

struct Counted {
    count: usize,
}

impl Keeper for Counted {
    fn expect(&mut self, _most: usize) {}

    fn keep(&mut self, _argument: Argument, _item: usize) {
        self.count += 1;
    }
}

struct Kept {
    /// Each with the place of its item.
    arguments: [(Argument, u16); MOST_ARGUMENTS],
    count: usize,
}

impl Keeper for Kept {
    fn expect(&mut self, _most: usize) {}

    fn keep(&mut self, argument: Argument, item: usize) {
        self.arguments[self.count] = (argument, item as u16);
        self.count += 1;
    }
}

struct Lent<'a> {
    convention: Convention,
    words: &'a mut [u64],
    count: usize,
    value: u64,
}

impl Keeper for Lent<'_> {
    fn expect(&mut self, _most: usize) {}

    fn keep(&mut self, argument: Argument, item: usize) {
        let at = ENTRY * self.count;
        if let Some(entry) = self.words.get_mut(at..at + ENTRY) {
            put(entry, self.convention, &argument, item, self.value);
        }
        self.value += u64::from(argument.size);
        self.count += 1;
    }
}

fn put(entry: &mut [u64], convention: Convention, argument: &Argument, item: usize, value: u64) {
    let Argument {
        general,
        floating,
        memory,
        ..
    } = argument;
    let word = convention.word() as u16;
    let in_memory = word * u16::from(memory.words);
    let (start, home, home_length) = match convention {
        Convention::Ppc64 | Convention::Aix | Convention::Ppc64b => {
            let home = argument.offset.unwrap_or(0);
            (memory.offset, home, argument.size.next_multiple_of(word))
        }
        Convention::Z => {
            let start = memory.offset.saturating_sub(Z_AREA);
            (start, start, in_memory)
        }
    };
    let copy_length = match argument.copy {
        Some(_) => argument.size,
        None => 0,
    };
    let words = [
        item as u64,
        u64::from(argument.size),
        value,
        u64::from(general.first),
        u64::from(general.count),
        u64::from(floating.first),
        u64::from(floating.count),
        u64::from(home),
        u64::from(home_length),
        u64::from(start),
        u64::from(in_memory),
        u64::from(argument.copy.unwrap_or(0)),
        u64::from(copy_length),
    ];
    entry.copy_from_slice(&words);
}

fn head(planned: Head, count: usize) -> [u64; 11] {
    let Head {
        convention,
        ellipsis,
        result,
        sizes,
    } = planned;
    let (code, general, floating) = match convention {
        Convention::Ppc64 => (1, 3, 1),
        Convention::Z => (2, 2, 0),
        Convention::Aix => (3, 3, 1),
        Convention::Ppc64b => (4, 3, 1),
    };
    let [kind, gpr, gprs, fpr, fprs] = match (result, convention) {
        (ResultType::None, _) => [0; 5],
        (ResultType::Integer, _) => [1, general, 1, 0, 0],
        (ResultType::WideInteger, _) => [1, general, 2, 0, 0],
        (ResultType::Float, _) => [1, 0, 0, floating, 1],
        (ResultType::LongDouble, Convention::Ppc64 | Convention::Aix | Convention::Ppc64b) => {
            [1, 0, 0, floating, 2]
        }
        (ResultType::LongDouble, Convention::Z) | (ResultType::Struct, _) => [2, general, 1, 0, 0],
    };
    let sizes = [sizes.values, sizes.area, sizes.copies].map(|size| size as u64);
    let [values, area, copies] = sizes;
    let count = count as u64;
    [
        code,
        u64::from(ellipsis),
        count,
        values,
        area,
        copies,
        kind,
        gpr,
        gprs,
        fpr,
        fprs,
    ]
}
