//! The walker of document 02's No. 5: it takes the arguments of a call one by one, each as the type
//! that it is asked for, from where the caller put them. A refusal leaves the walker and the value's
//! buffer as they were.

use crate::marshal::{memory_end, require, Caller, AREA_TOO_SHORT, IMAGE, IMAGE_SIZE, VALUES_SIZE};
use crate::planner::{
    is_unclear, powerpc_argument, z_argument, PowerCursor, ZCursor, UNCLEAR, Z_STACK,
};
use crate::{plan, read, read_type, ArgumentPlan, Convention, Refusal, ResultPlan, Type};

const LOST: u64 = 23;
/// "Counters over 2^32 [..] give 23."
const HIGHEST: u64 = 1 << 32;

/// Where a walk stands.
#[derive(Clone, Copy, Debug, Default, PartialEq, Eq)]
pub struct Walker {
    /// The convention's code.
    pub convention: u64,
    /// 1: the signature has an ellipsis.
    pub ellipsis: u64,
    /// 1: the result's address is a hidden first argument.
    pub hidden: u64,
    /// PowerPC: the words so far. Z: the next general register.
    pub general: u64,
    /// PowerPC: the floating registers so far. Z: the next one.
    pub floating: u64,
    /// PowerPC: 0. Z: the next stack offset.
    pub stack: u64,
}

impl Walker {
    /// The six words, in their order.
    pub fn words(&self) -> [u64; 6] {
        [
            self.convention,
            self.ellipsis,
            self.hidden,
            self.general,
            self.floating,
            self.stack,
        ]
    }

    pub fn of_words(words: [u64; 6]) -> Walker {
        let [convention, ellipsis, hidden, general, floating, stack] = words;
        Walker {
            convention,
            ellipsis,
            hidden,
            general,
            floating,
            stack,
        }
    }

    /// Where an argument of this type would stand next; nothing where 23 or 29 is given.
    pub fn next(&self, of: &Type) -> Option<ArgumentPlan> {
        let (convention, mut cursor) = cursor(self)?;
        step(convention, self.ellipsis == 1, of, &mut cursor).ok()
    }
}

/// What the counters of a walker mean.
enum Cursor {
    Power(PowerCursor),
    Z(ZCursor),
}

/// "It starts where the signature's arguments do", on any signature that is accepted.
pub fn walk_start(walker: &mut Walker, signature: &[u8]) -> Result<(), Refusal> {
    let signature = read(signature)?;
    let hidden = u64::from(matches!(plan(&signature).result, ResultPlan::Hidden(_)));
    let convention = signature.convention;
    let [general, stack] = match convention {
        Convention::Z => [2 + hidden, Z_STACK as u64],
        _ => [hidden, 0],
    };
    *walker = Walker {
        convention: u64::from(convention.code()),
        ellipsis: u64::from(signature.ellipsis),
        hidden,
        general,
        floating: 0,
        stack,
    };
    Ok(())
}

/// "Asked with one type item's bytes, it fills a value buffer of that size, else 10, and moves on."
pub fn walk(
    walker: &mut Walker,
    item: &[u8],
    value: &mut [u8],
    image: &[u8],
    area: &[u8],
    copies: &[u8],
    copy_base: u64,
) -> Result<(), Refusal> {
    let (convention, mut cursor) = cursor(walker).ok_or(Refusal::without_place(LOST))?;
    let of = read_type(convention, item)?;
    let argument = step(convention, walker.ellipsis == 1, &of, &mut cursor)?;
    require(image.len() == IMAGE, IMAGE_SIZE)?;
    require(value.len() == of.size(convention), VALUES_SIZE)?;
    // "11 counts only places in memory, and no least area"
    let end = memory_end(convention, &argument);
    require(end <= area.len(), AREA_TOO_SHORT)?;
    let caller = Caller {
        convention,
        image,
        area,
        copies,
        copy_base,
    };
    value.copy_from_slice(&caller.value(&of, &argument)?);
    let [general, floating, stack] = match cursor {
        Cursor::Power(at) => [at.words, at.floats, 0],
        Cursor::Z(at) => [at.gr, at.fr, at.stack],
    };
    walker.general = general as u64;
    walker.floating = floating as u64;
    walker.stack = stack as u64;
    Ok(())
}

/// Where an argument of this type stands next; "a walker stays put" on 29.
fn step(
    convention: Convention,
    ellipsis: bool,
    of: &Type,
    cursor: &mut Cursor,
) -> Result<ArgumentPlan, Refusal> {
    match cursor {
        Cursor::Power(at) => {
            require(!is_unclear(convention, of, at.floats), UNCLEAR)?;
            Ok(powerpc_argument(convention, ellipsis, of, at))
        }
        Cursor::Z(at) => Ok(z_argument(of, at)),
    }
}

/// What the walker's words mean; nothing where they are "counters over 2^32, or that no arguments,
/// however many, lead to".
fn cursor(walker: &Walker) -> Option<(Convention, Cursor)> {
    let Walker {
        convention,
        ellipsis,
        hidden,
        general,
        floating,
        stack,
    } = *walker;
    let convention = Convention::of_code(convention)?;
    let counters = [general, floating, stack];
    if ellipsis > 1 || hidden > 1 || counters.iter().any(|&counter| counter > HIGHEST) {
        return None;
    }
    let cursor = match convention {
        Convention::Z => {
            let registers_left = general < 7 && floating < 8;
            let reached = (2 + hidden..=7).contains(&general)
                && [0, 2, 4, 6, 8].contains(&floating)
                && stack >= Z_STACK as u64
                && stack % 8 == 0
                && !(registers_left && stack > Z_STACK as u64);
            reached.then_some(Cursor::Z(ZCursor {
                gr: general as usize,
                fr: floating as usize,
                stack: stack as usize,
                copies: 0,
            }))
        }
        _ => {
            let reached = floating <= 13 && general >= floating + hidden && stack == 0;
            reached.then_some(Cursor::Power(PowerCursor {
                words: general as usize,
                floats: floating as usize,
            }))
        }
    }?;
    Some((convention, cursor))
}

#[cfg(test)]
mod tests {
    use super::*;
    use crate::marshal;

    const I8: [u8; 4] = [0x10, 0, 1, 0];
    const I64: [u8; 4] = [0x10, 0, 1, 6];
    const SINGLE: [u8; 4] = [0x11, 0, 1, 0];
    const DOUBLE: [u8; 4] = [0x11, 0, 1, 1];
    const LONG_DOUBLE: [u8; 4] = [0x11, 0, 1, 2];
    /// A struct of i8.
    const STRUCT: [u8; 7] = [0x12, 0, 4, 0x10, 0, 1, 0];

    fn signature(code: u8, ellipsis: bool, result: &[u8], arguments: &[&[u8]]) -> Vec<u8> {
        let mut bytes = vec![1, 0, 1, code, 2, 0, result.len() as u8];
        bytes.extend_from_slice(result);
        if ellipsis {
            bytes.extend([4, 0, 0]);
        }
        let arguments = arguments.concat();
        bytes.extend([3, 0, arguments.len() as u8]);
        bytes.extend(arguments);
        bytes
    }

    fn started(signature: &[u8]) -> Walker {
        let mut walker = Walker::default();
        walk_start(&mut walker, signature).unwrap();
        walker
    }

    fn refused(number: u64) -> Result<(), Refusal> {
        Err(Refusal::without_place(number))
    }

    /// The answer of a step in buffers that it fits, and the words after it.
    fn stepped(
        words_before: [u64; 6],
        item: &[u8],
        size: usize,
    ) -> (Result<(), Refusal>, [u64; 6]) {
        let mut walker = Walker::of_words(words_before);
        let mut value = vec![0; size];
        let area = vec![0; 4096];
        let answer = walk(
            &mut walker,
            item,
            &mut value,
            &[0; 512],
            &area,
            &[0; 256],
            0,
        );
        (answer, walker.words())
    }

    #[test]
    fn a_start_is_where_the_arguments_are() {
        let start = |code, ellipsis, result: &[u8]| {
            started(&signature(code, ellipsis, result, &[&I8])).words()
        };
        assert_eq!(start(1, false, &[]), [1, 0, 0, 0, 0, 0]);
        assert_eq!(start(1, true, &DOUBLE), [1, 1, 0, 0, 0, 0]);
        assert_eq!(start(3, true, &STRUCT), [3, 1, 1, 1, 0, 0]);
        assert_eq!(start(4, false, &LONG_DOUBLE), [4, 0, 0, 0, 0, 0]);
        assert_eq!(start(2, true, &[]), [2, 1, 0, 2, 0, 160]);
        assert_eq!(start(2, false, &LONG_DOUBLE), [2, 0, 1, 3, 0, 160]);
        // a refused one leaves the walker
        let mut walker = Walker::of_words([9; 6]);
        let refusal = walk_start(&mut walker, &[1]).unwrap_err();
        assert_eq!((refusal.number, walker.words()), (2, [9; 6]));
        // "29 is no matter of its start"
        let doubles = [&DOUBLE[..]; 12];
        let unclear = signature(4, true, &[], &[&doubles[..], &[&LONG_DOUBLE]].concat());
        assert_eq!(crate::call(&unclear).unwrap_err().number, 29);
        assert_eq!(started(&unclear).words(), [4, 1, 0, 0, 0, 0]);
    }

    #[test]
    fn a_walk_over_what_was_filled() {
        let arguments: [&[u8]; 6] = [&I64, &DOUBLE, &STRUCT, &SINGLE, &I8, &DOUBLE];
        let values: Vec<u8> = (1..=30).collect();
        let sizes = [8, 8, 1, 4, 1, 8];
        for code in 1..=4 {
            for ellipsis in [false, true] {
                let of = signature(code, ellipsis, &STRUCT, &arguments);
                let mut image = [0; 512];
                let mut area = [0; 80];
                marshal::fill(&of, &values, &mut image, &mut area, &mut [], 0, 7).unwrap();
                let mut walker = started(&of);
                let mut read = Vec::new();
                for (item, size) in arguments.iter().zip(sizes) {
                    let mut value = vec![0; size];
                    walk(&mut walker, item, &mut value, &image, &area, &[], 0).unwrap();
                    read.extend(value);
                }
                assert_eq!(read, values);
            }
        }
    }

    #[test]
    fn steps_count_what_they_pass() {
        assert_eq!(
            stepped([1, 1, 0, 0, 0, 0], &DOUBLE, 8).1,
            [1, 1, 0, 1, 1, 0]
        );
        assert_eq!(
            stepped([1, 0, 1, 14, 13, 0], &SINGLE, 4).1,
            [1, 0, 1, 15, 13, 0]
        );
        assert_eq!(stepped([3, 1, 0, 7, 0, 0], &I64, 8).1, [3, 1, 0, 9, 0, 0]);
        assert_eq!(
            stepped([4, 0, 0, 11, 11, 0], &LONG_DOUBLE, 16).1,
            [4, 0, 0, 13, 13, 0]
        );
        assert_eq!(
            stepped([1, 0, 0, 11, 11, 0], &LONG_DOUBLE, 16).1,
            [1, 0, 0, 13, 11, 0]
        );
        assert_eq!(
            stepped([2, 0, 0, 2, 0, 160], &I8, 1).1,
            [2, 0, 0, 3, 0, 160]
        );
        assert_eq!(
            stepped([2, 0, 0, 2, 6, 160], &DOUBLE, 8).1,
            [2, 0, 0, 2, 8, 160]
        );
        assert_eq!(
            stepped([2, 0, 0, 2, 8, 160], &DOUBLE, 8).1,
            [2, 0, 0, 2, 8, 168]
        );
        assert_eq!(
            stepped([2, 1, 0, 7, 0, 176], &I8, 1).1,
            [2, 1, 0, 7, 0, 184]
        );
        // a copy has no counter
        assert_eq!(
            stepped([2, 0, 0, 5, 0, 160], &LONG_DOUBLE, 16).1,
            [2, 0, 0, 6, 0, 160]
        );
    }

    #[test]
    fn refusal_23_is_counters_that_no_arguments_lead_to() {
        let most = 1 << 32;
        let good = [
            [1, 0, 0, 0, 0, 0],
            [1, 1, 1, 14, 13, 0],
            [3, 1, 1, 1, 0, 0],
            [4, 0, 0, 7, 7, 0],
            [2, 0, 0, 7, 8, 160],
            [2, 0, 0, 7, 0, 168],
            [2, 1, 1, 3, 8, 160],
            [2, 1, 1, 3, 8, 168],
        ];
        for words in good {
            assert_eq!(stepped(words, &I8, 1).0, Ok(()), "{words:?}");
        }
        let bad = [
            [0, 0, 0, 0, 0, 0],
            [5, 0, 0, 0, 0, 0],
            [257, 0, 0, 0, 0, 0],
            [1, 2, 0, 0, 0, 0],
            [1, 0, 2, 2, 0, 0],
            [1, 0, 1, 0, 0, 0],
            [1, 0, 0, 3, 4, 0],
            [4, 0, 1, 4, 4, 0],
            [1, 0, 0, 100, 14, 0],
            [3, 0, 0, 100, 0, 160],
            [1, 0, 0, most + 1, 0, 0],
            [2, 0, 0, 1, 0, 160],
            [2, 0, 1, 2, 0, 160],
            [2, 0, 0, 8, 0, 160],
            [2, 0, 0, 2, 1, 160],
            [2, 0, 0, 2, 10, 160],
            [2, 0, 0, 7, 8, 152],
            [2, 0, 0, 7, 8, 164],
            [2, 0, 0, 6, 6, 168],
            [2, 0, 0, 7, 8, most + 8],
            [2, 0, 0, 7, 8, u64::MAX - 7],
        ];
        for words in bad {
            // before the item and all lengths
            assert_eq!(stepped(words, &[], 0), (refused(23), words), "{words:?}");
            assert_eq!(stepped(words, &I8, 1), (refused(23), words), "{words:?}");
        }
        // the highest counters are counters: their memory is not there
        for words in [[1, 0, 0, most, 0, 0], [2, 0, 0, 7, 8, most]] {
            assert_eq!(stepped(words, &I8, 1), (refused(11), words));
        }
        // a float in a register moves past them, and is refused from there on
        let (answer, past) = stepped([1, 0, 0, most, 0, 0], &DOUBLE, 8);
        assert_eq!((answer, past), (Ok(()), [1, 0, 0, most + 1, 1, 0]));
        assert_eq!(stepped(past, &DOUBLE, 8), (refused(23), past));
    }

    #[test]
    fn the_item_is_read_after_23_and_before_all_else() {
        let mut at = Walker::of_words([1, 1, 0, 0, 0, 0]);
        let mut ask = |item: &[u8]| {
            let refusal = walk(&mut at, item, &mut [], &[], &[], &[], 0).unwrap_err();
            (refusal.number, refusal.place, refusal.items)
        };
        assert_eq!(ask(&[]), (2, 0, 0));
        assert_eq!(ask(&[0; 16_385]), (1, 0, 0));
        assert_eq!(ask(&[3, 0, 0]), (3, 0, 0));
        assert_eq!(ask(&[0x10, 0, 1, 9]), (4, 0, 0));
        assert_eq!(ask(&[I8, I8].concat()), (4, 4, 1));
        assert_eq!(ask(&[&[0x12, 0, 4][..], &LONG_DOUBLE].concat()), (5, 3, 1));
        assert_eq!(ask(&I8), (15, 0, 0));
    }

    #[test]
    fn the_order_is_29_15_10_11_then_the_contents() {
        let mut at = Walker::of_words([4, 1, 0, 12, 12, 0]);
        let item = LONG_DOUBLE;
        assert_eq!(walk(&mut at, &item, &mut [], &[], &[], &[], 0), refused(29));
        assert_eq!(at.words(), [4, 1, 0, 12, 12, 0]);
        at.floating = 11;
        assert_eq!(walk(&mut at, &item, &mut [], &[], &[], &[], 0), refused(15));
        let image = [0; 512];
        let mut value = [0; 16];
        let mut ask =
            |value: &mut [u8], area: &[u8]| walk(&mut at, &item, value, &image, area, &[], 0);
        assert_eq!(ask(&mut [0; 15], &[]), refused(10));
        // its memory is at 96 to 112, and it is tested though the value is in registers
        assert_eq!(ask(&mut value, &[0; 111]), refused(11));
        assert_eq!(ask(&mut value, &[0; 112]), Ok(()));
        // without an ellipsis it is in registers alone
        let mut at = Walker::of_words([4, 0, 0, 12, 11, 0]);
        assert_eq!(
            walk(&mut at, &item, &mut value, &image, &[], &[], 0),
            Ok(())
        );
        // 14, then 26
        let mut image = image;
        image[264..272].copy_from_slice(&0x3ff0_0000_1000_0000u64.to_be_bytes());
        let ask = |image: &[u8]| {
            let mut at = Walker::of_words([1, 1, 0, 0, 0, 0]);
            walk(&mut at, &SINGLE, &mut [0; 4], image, &[], &[], 0)
        };
        assert_eq!(ask(&image), refused(14));
        image[264..272].copy_from_slice(&0x3ff0_0000_0000_0000u64.to_be_bytes());
        assert_eq!(ask(&image), refused(26));
        image[28..32].copy_from_slice(&0x3f80_0000u32.to_be_bytes());
        assert_eq!(ask(&image), Ok(()));
        // 13
        let mut at = Walker::of_words([2, 0, 0, 2, 0, 160]);
        let copies = [0; 15];
        assert_eq!(
            walk(&mut at, &item, &mut value, &image, &[], &copies, 0),
            refused(13)
        );
    }
}
