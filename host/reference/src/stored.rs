//! Stored plans: document 02, No. 7. A plan in bytes that hold the signature itself, and the check of
//! such bytes against a signature of today.

use crate::{call, marshal, Convention, Place, Plan, Refusal, ResultPlan};

/// "tag 0x20 holds the signature's own bytes"
const SIGNATURE: u8 = 0x20;
/// "a tag 0x21 item for each argument its places"
const ARGUMENT: u8 = 0x21;
/// "tag 0x22 the result's (empty for none)"
const RESULT: u8 = 0x22;

/// "kind 0 register, 1 memory, 2 copy (after its address), 3 hidden"
const REGISTER: u8 = 0;
const MEMORY: u8 = 1;
const COPY: u8 = 2;
const HIDDEN: u8 = 3;

/// "bank 0 general, 1 floating"
const GENERAL: u8 = 0;
const FLOATING: u8 = 1;

/// The bytes of a floating register in every convention.
const FLOAT: usize = 8;

/// "the noes are 27"
pub const STALE: u64 = 27;
/// "Too short a buffer for it is new refusal 33, tested last."
pub const STORED_TOO_SHORT: u64 = 33;

/// The bytes of a signature's plan.
pub fn bytes(signature: &[u8]) -> Result<Vec<u8>, Refusal> {
    let (_, plan) = call(signature)?;
    let mut stored = Vec::new();
    push_item(SIGNATURE, signature, &mut stored);
    for number in 0..plan.arguments.len() {
        push_item(ARGUMENT, &argument(&plan, number), &mut stored);
    }
    push_item(RESULT, &result(&plan), &mut stored);
    Ok(stored)
}

/// The length that the writer gives.
pub fn length(signature: &[u8]) -> Result<usize, Refusal> {
    Ok(bytes(signature)?.len())
}

/// Writes a plan: "the plan's length is returned and bytes past it stay".
pub fn store(signature: &[u8], stored: &mut [u8]) -> Result<usize, Refusal> {
    let bytes = bytes(signature)?;
    let Some(place) = stored.get_mut(..bytes.len()) else {
        return Err(Refusal::without_place(STORED_TOO_SHORT));
    };
    place.copy_from_slice(&bytes);
    Ok(bytes.len())
}

/// "accepts exactly if the stored bytes are what the writer would give for that signature today"
pub fn check(stored: &[u8], signature: &[u8]) -> Result<(), Refusal> {
    // "a fresh signature that is refused gives its own refusal"
    let today = bytes(signature)?;
    if stored == today {
        return Ok(());
    }
    // "the place of the first byte that differs, or the shorter length"
    let differs = stored
        .iter()
        .zip(&today)
        .position(|(one, other)| one != other);
    Err(Refusal {
        number: STALE,
        place: differs.unwrap_or(stored.len().min(today.len())),
        items: 0,
    })
}

/// "makes this check first, then answers as plain filling"
#[allow(clippy::too_many_arguments)]
pub fn fill(
    stored: &[u8],
    signature: &[u8],
    values: &[u8],
    image: &mut [u8],
    area: &mut [u8],
    copies: &mut [u8],
    copy_base: u64,
    hidden: u64,
) -> Result<(), Refusal> {
    check(stored, signature)?;
    marshal::fill(signature, values, image, area, copies, copy_base, hidden)
}

/// "headers as in signatures"
fn push_item(tag: u8, body: &[u8], stored: &mut Vec<u8>) {
    let length = u16::try_from(body.len()).expect("a signature has at most 16,384 bytes");
    stored.push(tag);
    stored.extend(length.to_be_bytes());
    stored.extend(body);
}

/// "A place is kind, bank and number, 1 byte each, and offset, 2 bytes."
fn place(kind: u8, bank: u8, number: usize, offset: usize) -> [u8; 5] {
    let number = u8::try_from(number).expect("a register's number is below 32");
    let offset = u16::try_from(offset).expect("an area has at most 32,776 bytes");
    let [high, low] = offset.to_be_bytes();
    [kind, bank, number, high, low]
}

/// An argument's places: "each register and each doubleword (AIX: word) of memory is a place, in
/// listing order".
fn argument(plan: &Plan, number: usize) -> Vec<u8> {
    let argument = &plan.arguments[number];
    // "a PowerPC register's offset is its own in the area [..]; a Z register's is 0". A float's FPRs
    // and its words each hold all of it, from its offset on
    let first = match (plan.convention, argument.offset) {
        (Convention::Z, _) => None,
        (_, offset) => offset,
    };
    let mut floating = first;
    let mut general = first;
    let own = |counter: &mut Option<usize>, width: usize| match counter {
        Some(offset) => {
            *offset += width;
            *offset - width
        }
        None => 0,
    };
    let mut body = Vec::new();
    for &one in &argument.places {
        body.extend(match one {
            Place::Floating(number) => place(REGISTER, FLOATING, number, own(&mut floating, FLOAT)),
            Place::General(number) => {
                let word = plan.convention.word();
                place(REGISTER, GENERAL, number, own(&mut general, word))
            }
            // "offset its own, counted as in listings"
            Place::Memory(offset) => place(MEMORY, 0, 0, offset),
        });
    }
    if let Some(start) = argument.copy {
        body.extend(place(COPY, 0, 0, start));
    }
    body
}

/// "A hidden result is one place: kind 3, bank 0, its register's number, offset 0; result registers
/// have offset 0."
fn result(plan: &Plan) -> Vec<u8> {
    let in_register = |one: &Place| match *one {
        Place::General(number) => place(REGISTER, GENERAL, number, 0),
        Place::Floating(number) => place(REGISTER, FLOATING, number, 0),
        Place::Memory(_) => panic!("no result is in the parameter area"),
    };
    match &plan.result {
        ResultPlan::None => Vec::new(),
        ResultPlan::Registers(places) => places.iter().flat_map(in_register).collect(),
        ResultPlan::Hidden(Place::General(number)) => place(HIDDEN, GENERAL, *number, 0).to_vec(),
        ResultPlan::Hidden(_) => panic!("a hidden address is in a general register"),
    }
}

#[cfg(test)]
mod tests {
    use super::*;

    fn sig(code: u8, result: &[u8], ellipsis: bool, arguments: &[u8]) -> Vec<u8> {
        let mut bytes = Vec::new();
        push_item(1, &[code], &mut bytes);
        push_item(2, result, &mut bytes);
        if ellipsis {
            push_item(4, &[], &mut bytes);
        }
        push_item(3, arguments, &mut bytes);
        bytes
    }

    const I32: [u8; 4] = [0x10, 0, 1, 4];
    const I64: [u8; 4] = [0x10, 0, 1, 6];
    const SINGLE: [u8; 4] = [0x11, 0, 1, 0];
    const DOUBLE: [u8; 4] = [0x11, 0, 1, 1];
    const LONG_DOUBLE: [u8; 4] = [0x11, 0, 1, 2];

    fn structure(fields: &[[u8; 4]]) -> Vec<u8> {
        let mut bytes = Vec::new();
        push_item(0x12, &fields.concat(), &mut bytes);
        bytes
    }

    /// The items behind that of the signature, which is looked at first.
    fn places(signature: &[u8]) -> Vec<(u8, Vec<[u16; 4]>)> {
        let stored = bytes(signature).expect("an accepted signature");
        let length = u16::from_be_bytes([stored[1], stored[2]]);
        assert_eq!((stored[0], usize::from(length)), (0x20, signature.len()));
        let (own, mut rest) = stored[3..].split_at(signature.len());
        assert_eq!(own, signature);
        let mut items = Vec::new();
        while let [tag, high, low, after @ ..] = rest {
            let (body, others) = after.split_at(usize::from(u16::from_be_bytes([*high, *low])));
            assert_eq!(body.len() % 5, 0);
            let place = |bytes: &[u8]| {
                let offset = u16::from_be_bytes([bytes[3], bytes[4]]);
                [bytes[0].into(), bytes[1].into(), bytes[2].into(), offset]
            };
            items.push((*tag, body.chunks(5).map(place).collect()));
            rest = others;
        }
        assert!(rest.is_empty());
        items
    }

    /// 000's figure 3-18: "of an argument at @24 in r6 and r7, r7 has 32".
    #[test]
    fn figure_3_18() {
        let s = structure(&[I32, DOUBLE]);
        let arguments: [&[u8]; 9] = [
            &I32,
            &DOUBLE,
            &I32,
            &LONG_DOUBLE,
            &s,
            &DOUBLE,
            &s,
            &I32,
            &DOUBLE,
        ];
        let signature = sig(1, &I32, false, &arguments.concat());
        let expected: [&[[u16; 4]]; 9] = [
            &[[0, 0, 3, 0]],
            &[[0, 1, 1, 8]],
            &[[0, 0, 5, 16]],
            &[[0, 0, 6, 24], [0, 0, 7, 32]],
            &[[0, 0, 8, 40], [0, 0, 9, 48]],
            &[[0, 1, 2, 56]],
            &[[1, 0, 0, 64], [1, 0, 0, 72]],
            &[[1, 0, 0, 80]],
            &[[0, 1, 3, 88]],
        ];
        let mut items: Vec<(u8, Vec<[u16; 4]>)> =
            expected.map(|places| (0x21, places.to_vec())).to_vec();
        items.push((0x22, vec![[0, 0, 3, 0]]));
        assert_eq!(places(&signature), items);
        // by the later edition "ld is then in f2 and f3, gg in f4, hh in f5"
        let later = sig(4, &I32, false, &arguments.concat());
        items[3].1 = vec![[0, 1, 2, 24], [0, 1, 3, 32]];
        items[5].1 = vec![[0, 1, 4, 56]];
        items[8].1 = vec![[0, 1, 5, 88]];
        assert_eq!(places(&later), items);
        // "every single or double then goes in its FPR, and as well in its GPR while w < 8 and in
        // memory from w 8 on"
        let variable = sig(4, &I32, true, &arguments.concat());
        items[1].1 = vec![[0, 1, 1, 8], [0, 0, 4, 8]];
        items[3].1 = vec![[0, 1, 2, 24], [0, 1, 3, 32], [0, 0, 6, 24], [0, 0, 7, 32]];
        items[5].1 = vec![[0, 1, 4, 56], [0, 0, 10, 56]];
        items[8].1 = vec![[0, 1, 5, 88], [1, 0, 0, 88]];
        assert_eq!(places(&variable), items);
    }

    /// 001's table 10.
    #[test]
    fn table_10() {
        let arguments = [I32, I32, DOUBLE, I32, I32, I64, DOUBLE, DOUBLE, I32];
        let expected = [
            [0, 0, 2, 0],
            [0, 0, 3, 0],
            [0, 1, 0, 0],
            [0, 0, 4, 0],
            [0, 0, 5, 0],
            [0, 0, 6, 0],
            [0, 1, 2, 0],
            [0, 1, 4, 0],
            [1, 0, 0, 160],
        ];
        let mut items: Vec<(u8, Vec<[u16; 4]>)> =
            expected.map(|place| (0x21, vec![place])).to_vec();
        items.push((0x22, vec![[0, 0, 2, 0]]));
        for ellipsis in [false, true] {
            // "Z's places stay"
            assert_eq!(places(&sig(2, &I32, ellipsis, &arguments.concat())), items);
        }
    }

    #[test]
    fn a_copy_comes_after_its_address() {
        let s = structure(&[I64, I32]);
        let arguments: [&[u8]; 6] = [&LONG_DOUBLE, &I64, &s, &I64, &I64, &LONG_DOUBLE];
        let signature = sig(2, &LONG_DOUBLE, false, &arguments.concat());
        let items: Vec<(u8, Vec<[u16; 4]>)> = vec![
            (0x21, vec![[0, 0, 3, 0], [2, 0, 0, 0]]),
            (0x21, vec![[0, 0, 4, 0]]),
            (0x21, vec![[0, 0, 5, 0], [2, 0, 0, 16]]),
            (0x21, vec![[0, 0, 6, 0]]),
            (0x21, vec![[1, 0, 0, 160]]),
            (0x21, vec![[1, 0, 0, 168], [2, 0, 0, 32]]),
            (0x22, vec![[3, 0, 2, 0]]),
        ];
        assert_eq!(places(&signature), items);
    }

    #[test]
    fn on_aix_by_words() {
        let three = structure(&[I32; 3]);
        let arguments: [&[u8]; 5] = [&I64, &DOUBLE, &three, &DOUBLE, &SINGLE];
        let signature = sig(3, &I64, true, &arguments.concat());
        let items: Vec<(u8, Vec<[u16; 4]>)> = vec![
            (0x21, vec![[0, 0, 3, 0], [0, 0, 4, 4]]),
            (0x21, vec![[0, 1, 1, 8], [0, 0, 5, 8], [0, 0, 6, 12]]),
            (0x21, vec![[0, 0, 7, 16], [0, 0, 8, 20], [0, 0, 9, 24]]),
            (0x21, vec![[0, 1, 2, 28], [0, 0, 10, 28], [1, 0, 0, 32]]),
            (0x21, vec![[0, 1, 3, 36], [1, 0, 0, 36]]),
            (0x22, vec![[0, 0, 3, 0], [0, 0, 4, 0]]),
        ];
        assert_eq!(places(&signature), items);
        let hidden = sig(3, &structure(&[I32]), false, &I32);
        let items = vec![(0x21, vec![[0, 0, 4, 4]]), (0x22, vec![[3, 0, 3, 0]])];
        assert_eq!(places(&hidden), items);
    }

    #[test]
    fn a_call_of_nothing_byte_for_byte() {
        let signature = [1, 0, 1, 1, 2, 0, 0, 3, 0, 0];
        let expected = [&[0x20, 0, 10][..], &signature, &[0x22, 0, 0]].concat();
        assert_eq!(bytes(&signature), Ok(expected));
        // document 01's example
        let signature = [1, 0, 1, 1, 2, 0, 0, 3, 0, 8, 0x10, 0, 1, 4, 0x11, 0, 1, 1];
        let expected = [
            &[0x20, 0, 18][..],
            &signature,
            &[
                0x21, 0, 5, 0, 0, 3, 0, 0, 0x21, 0, 5, 0, 1, 1, 0, 8, 0x22, 0, 0,
            ],
        ]
        .concat();
        assert_eq!(bytes(&signature), Ok(expected));
    }

    /// "Result registers have offset 0", also the second.
    #[test]
    fn a_result_in_two_registers() {
        let signature = sig(1, &LONG_DOUBLE, false, &[]);
        let items = vec![(0x22, vec![[0, 1, 1, 0], [0, 1, 2, 0]])];
        assert_eq!(places(&signature), items);
    }

    #[test]
    fn writing_and_its_refusals() {
        let signature = sig(1, &[], false, &[I32, DOUBLE].concat());
        let stored = bytes(&signature).unwrap();
        assert_eq!(length(&signature), Ok(stored.len()));
        let mut room = vec![0xee; stored.len() + 2];
        assert_eq!(store(&signature, &mut room), Ok(stored.len()));
        assert_eq!(room, [&stored[..], &[0xee; 2]].concat());
        let mut short = vec![0xee; stored.len() - 1];
        let refusal = Refusal::without_place(33);
        assert_eq!(store(&signature, &mut short), Err(refusal));
        assert_eq!(short, vec![0xee; stored.len() - 1]);
        // "tested last"
        let refusal = store(&signature[..17], &mut []).unwrap_err();
        assert_eq!((refusal.number, refusal.place), (2, 7));
        let unclear = sig(
            4,
            &[],
            false,
            &[&DOUBLE.repeat(12)[..], &LONG_DOUBLE].concat(),
        );
        let refusal = store(&unclear, &mut []).unwrap_err();
        assert_eq!((refusal.number, refusal.place, refusal.items), (29, 58, 0));
    }

    #[test]
    fn the_place_of_a_difference() {
        let signature = sig(1, &[], false, &[I32, DOUBLE].concat());
        let stored = bytes(&signature).unwrap();
        assert_eq!(check(&stored, &signature), Ok(()));
        let place = |stored: &[u8]| {
            let refusal = check(stored, &signature).unwrap_err();
            assert_eq!((refusal.number, refusal.items), (27, 0));
            refusal.place
        };
        for at in 0..stored.len() {
            assert_eq!(place(&stored[..at]), at);
            let mut changed = stored.clone();
            changed[at] ^= 1;
            assert_eq!(place(&changed), at);
            // the first of two, and before the end
            changed.truncate(at + 1);
            assert_eq!(place(&changed), at);
        }
        assert_eq!(place(&[&stored[..], &[0]].concat()), stored.len());
        // the fresh signature's own refusal comes first
        let refusal = check(&stored, &signature[..17]).unwrap_err();
        assert_eq!((refusal.number, refusal.place, refusal.items), (2, 7, 2));
    }

    #[test]
    fn filling_tests_the_stored_bytes_first() {
        let signature = sig(1, &[], false, &[I32, DOUBLE].concat());
        let stored = bytes(&signature).unwrap();
        let values = [7; 12];
        let number = |stored: &[u8], signature: &[u8], values: &[u8], image: usize| {
            let answer = fill(
                stored,
                signature,
                values,
                &mut vec![0; image],
                &mut [0; 64],
                &mut [],
                0,
                0,
            );
            answer.map_or_else(|refusal| refusal.number, |()| 0)
        };
        assert_eq!(number(&stored, &signature, &values, 512), 0);
        assert_eq!(number(&stored[1..], &signature[1..], &values, 0), 3);
        assert_eq!(number(&stored[1..], &signature, &values[1..], 0), 27);
        assert_eq!(number(&stored, &signature, &values[1..], 0), 15);
        assert_eq!(number(&stored, &signature, &values[1..], 512), 10);
    }
}
