//! The whole plan in 64-bit words, as the C surface tells it: what stands in `fz_planned` after its
//! answer, and an `fz_place` for each argument.

use crate::{call, Convention, Place, Plan, Refusal, ResultPlan, Type};

/// The words of an argument's entry.
pub const ENTRY: usize = 13;

#[derive(Clone, Debug, PartialEq, Eq)]
pub struct Table {
    /// The convention's code, the ellipsis, the count of arguments, the bytes of values, area and
    /// copies, what the result is, and its registers: the first general one and their count, then
    /// the floating ones.
    pub head: [u64; 11],
    pub entries: Vec<[u64; ENTRY]>,
}

/// Reads a signature and plans its call.
pub fn table(bytes: &[u8]) -> Result<Table, Refusal> {
    let (signature, plan) = call(bytes)?;
    let mut entries = Vec::new();
    let mut value = 0;
    for (number, item) in items(bytes).into_iter().enumerate() {
        let of = &signature.arguments[number];
        entries.push(entry(&plan, number, of, item, value));
        value += of.size(plan.convention);
    }
    let code = usize::from(plan.convention.code());
    let (result, places) = match &plan.result {
        ResultPlan::None => (0, vec![]),
        ResultPlan::Registers(places) => (1, places.clone()),
        ResultPlan::Hidden(place) => (2, vec![*place]),
    };
    let [gpr, gprs] = general(&places);
    let [fpr, fprs] = floating(&places);
    let count = entries.len();
    let head = [
        code,
        usize::from(plan.ellipsis),
        count,
        plan.values,
        plan.area,
        plan.copies,
        result,
        gpr,
        gprs,
        fpr,
        fprs,
    ];
    Ok(Table {
        head: head.map(|word| word as u64),
        entries,
    })
}

/// Where the arguments' items stand in an accepted signature: in its last item, one after the other.
pub fn items(bytes: &[u8]) -> Vec<usize> {
    let end = |at: usize| at + 3 + usize::from(u16::from_be_bytes([bytes[at + 1], bytes[at + 2]]));
    let mut last = end(end(0));
    if end(last) < bytes.len() {
        // an ellipsis
        last = end(last);
    }
    let mut items = Vec::new();
    let mut at = last + 3;
    while at < end(last) {
        items.push(at);
        at = end(at);
    }
    items
}

fn entry(plan: &Plan, number: usize, of: &Type, item: usize, value: usize) -> [u64; ENTRY] {
    let argument = &plan.arguments[number];
    let size = of.size(plan.convention);
    let word = plan.convention.word();
    let [gpr, gprs] = general(&argument.places);
    let [fpr, fprs] = floating(&argument.places);
    let [memory, memory_length] = memory(plan.convention, &argument.places);
    let [home, home_length] = match (plan.convention, argument.offset) {
        // each of its words has its place in the area, wherever it stands
        (Convention::Ppc64 | Convention::Aix | Convention::Ppc64b, Some(offset)) => {
            [offset, word * size.div_ceil(word)]
        }
        _ => [memory, memory_length],
    };
    let [copy, copy_length] = match argument.copy {
        Some(start) => [start, size],
        None => [0, 0],
    };
    [
        item,
        size,
        value,
        gpr,
        gprs,
        fpr,
        fprs,
        home,
        home_length,
        memory,
        memory_length,
        copy,
        copy_length,
    ]
    .map(|word| word as u64)
}

/// The first of these numbers and how many there are; 0 and 0 of none.
fn range(numbers: &[usize]) -> [usize; 2] {
    [numbers.first().copied().unwrap_or(0), numbers.len()]
}

fn general(places: &[Place]) -> [usize; 2] {
    let number = |place: &Place| match place {
        Place::General(number) => Some(*number),
        _ => None,
    };
    range(&places.iter().filter_map(number).collect::<Vec<_>>())
}

fn floating(places: &[Place]) -> [usize; 2] {
    let number = |place: &Place| match place {
        Place::Floating(number) => Some(*number),
        _ => None,
    };
    range(&places.iter().filter_map(number).collect::<Vec<_>>())
}

/// In bytes of the area, which on Z starts 160 bytes above the stack pointer.
fn memory(convention: Convention, places: &[Place]) -> [usize; 2] {
    let area = match convention {
        Convention::Ppc64 | Convention::Aix | Convention::Ppc64b => 0,
        Convention::Z => 160,
    };
    let offset = |place: &Place| match place {
        Place::Memory(offset) => Some(*offset - area),
        _ => None,
    };
    let [first, words] = range(&places.iter().filter_map(offset).collect::<Vec<_>>());
    [first, convention.word() * words]
}

#[cfg(test)]
mod tests {
    use super::*;

    /// PPC64, result long double; arguments i32, double, a struct of nine i64.
    #[test]
    fn a_straddling_struct() {
        let mut bytes = vec![1, 0, 1, 1, 2, 0, 4, 0x11, 0, 1, 2, 3, 0, 47];
        bytes.extend([0x10, 0, 1, 4, 0x11, 0, 1, 1, 0x12, 0, 36]);
        bytes.extend([0x10, 0, 1, 6].repeat(9));
        let table = table(&bytes).unwrap();
        assert_eq!(table.head, [1, 0, 3, 84, 88, 0, 1, 0, 0, 1, 2]);
        let expected = [
            [14, 4, 0, 3, 1, 0, 0, 0, 8, 0, 0, 0, 0],
            [18, 8, 4, 0, 0, 1, 1, 8, 8, 0, 0, 0, 0],
            [22, 72, 12, 5, 6, 0, 0, 16, 72, 64, 24, 0, 0],
        ];
        assert_eq!(table.entries, expected);
        assert_eq!(super::table(&bytes[..60]).unwrap_err().number, 2);
    }

    /// AIX, result struct of i8, an ellipsis; arguments i64, double, i64, double, single.
    #[test]
    fn with_an_ellipsis() {
        let mut bytes = vec![1, 0, 1, 3, 2, 0, 7, 0x12, 0, 4, 0x10, 0, 1, 0];
        bytes.extend([4, 0, 0, 3, 0, 20, 0x10, 0, 1, 6, 0x11, 0, 1, 1]);
        bytes.extend([0x10, 0, 1, 6, 0x11, 0, 1, 1, 0x11, 0, 1, 0]);
        let table = table(&bytes).unwrap();
        assert_eq!(table.head, [3, 1, 5, 36, 40, 0, 2, 3, 1, 0, 0]);
        let expected = [
            [20, 8, 0, 4, 2, 0, 0, 4, 8, 0, 0, 0, 0],
            [24, 8, 8, 6, 2, 1, 1, 12, 8, 0, 0, 0, 0],
            [28, 8, 16, 8, 2, 0, 0, 20, 8, 0, 0, 0, 0],
            [32, 8, 24, 10, 1, 2, 1, 28, 8, 32, 4, 0, 0],
            [36, 4, 32, 0, 0, 3, 1, 36, 4, 36, 4, 0, 0],
        ];
        assert_eq!(table.entries, expected);
    }
}
