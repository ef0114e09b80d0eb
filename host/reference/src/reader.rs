//! The reader of signatures: document 01, "A signature's bytes" and refusals 1 to 9 of "When the
//! bridge says no", with the counts of document 02's No. 10, the limits of its No. 6, AIX of its
//! No. 1, refusal 25 with it, and the ellipsis of its No. 5. Offsets count from the signature's first
//! byte.

use crate::{Convention, Float, Integer, Refusal, Signature, Type};

const LONGEST_SIGNATURE: usize = 16_384;
const MOST_ARGUMENTS: usize = 128;
const DEEPEST_STRUCT: usize = 8;
const LARGEST_STRUCT: usize = 256;

const CONVENTION: u8 = 0x01;
const RESULT: u8 = 0x02;
const ARGUMENTS: u8 = 0x03;
const ELLIPSIS: u8 = 0x04;
const INTEGER: u8 = 0x10;
const FLOAT: u8 = 0x11;
const STRUCT: u8 = 0x12;

/// An item whose header has passed its tests: where the header stands, and the body's bounds.
struct Item {
    place: usize,
    tag: u8,
    body: usize,
    end: usize,
}

/// The bytes, and how many headers "had passed header room, tag and length room" so far,
/// "enclosing and nested ones alike".
struct Reader<'a> {
    bytes: &'a [u8],
    passed: usize,
}

/// Where a type's item stands: the end of the body around it, and what its meaning depends on.
#[derive(Clone, Copy)]
struct Around {
    convention: Convention,
    end: usize,
    /// Of a struct that stands there; "an argument or result struct has depth 1".
    depth: usize,
}

/// Reads a whole signature.
pub fn read(bytes: &[u8]) -> Result<Signature, Refusal> {
    let mut reader = Reader { bytes, passed: 0 };
    if bytes.len() > LONGEST_SIGNATURE {
        return reader.refuse(1, 0);
    }
    reader.signature()
}

/// Reads the bytes of one type item, "read as an argument's, with 1's limit; bytes after it give 4
/// there". Offsets count from the item's first byte.
pub fn read_type(convention: Convention, bytes: &[u8]) -> Result<Type, Refusal> {
    let mut reader = Reader { bytes, passed: 0 };
    if bytes.len() > LONGEST_SIGNATURE {
        return reader.refuse(1, 0);
    }
    reader.only_type(convention, 0, bytes.len())
}

impl Around {
    /// Around the type of a result or of an argument, in a body that ends there.
    fn top(convention: Convention, end: usize) -> Around {
        Around {
            convention,
            end,
            depth: 1,
        }
    }
}

impl Reader<'_> {
    fn signature(&mut self) -> Result<Signature, Refusal> {
        let end = self.bytes.len();
        let first = self.item(0, end, &[CONVENTION])?;
        let named = match self.bytes[first.body..first.end] {
            [code] => Convention::of_code(u64::from(code)),
            _ => None,
        };
        let Some(convention) = named else {
            return self.refuse_item(4, &first);
        };
        let second = self.item(first.end, end, &[RESULT])?;
        let result = self.result(convention, &second)?;
        let mut last = self.item(second.end, end, &[ARGUMENTS, ELLIPSIS])?;
        let ellipsis = last.tag == ELLIPSIS;
        if ellipsis {
            // "with a body it gives 4 at its header, a second one 3"
            if last.body < last.end {
                return self.refuse_item(4, &last);
            }
            last = self.item(last.end, end, &[ARGUMENTS])?;
        }
        let arguments = self.arguments(convention, &last)?;
        // "9 now means bytes after tag 0x03's item"
        if last.end < end {
            return self.refuse(9, last.end);
        }
        Ok(Signature {
            convention,
            result,
            ellipsis,
            arguments,
        })
    }

    /// "empty body for none, else one type item"
    fn result(&mut self, convention: Convention, item: &Item) -> Result<Option<Type>, Refusal> {
        if item.body == item.end {
            return Ok(None);
        }
        self.only_type(convention, item.body, item.end).map(Some)
    }

    /// One type item from `place` to `end`, and nothing after it.
    fn only_type(
        &mut self,
        convention: Convention,
        place: usize,
        end: usize,
    ) -> Result<Type, Refusal> {
        let (read, after) = self.type_item(place, Around::top(convention, end))?;
        if after < end {
            return self.refuse(4, after);
        }
        Ok(read)
    }

    /// "0 to 64 type items", raised "to 128"
    fn arguments(&mut self, convention: Convention, item: &Item) -> Result<Vec<Type>, Refusal> {
        let around = Around::top(convention, item.end);
        let mut arguments = Vec::new();
        let mut place = item.body;
        while place < item.end {
            if arguments.len() == MOST_ARGUMENTS {
                return self.refuse(7, place);
            }
            let (argument, after) = self.type_item(place, around)?;
            arguments.push(argument);
            place = after;
        }
        Ok(arguments)
    }

    /// The type whose item stands at `place`, and the offset after that item.
    fn type_item(&mut self, place: usize, around: Around) -> Result<(Type, usize), Refusal> {
        let item = self.item(place, around.end, &[INTEGER, FLOAT, STRUCT])?;
        let read = match item.tag {
            INTEGER => self.integer(&item)?,
            FLOAT => self.float(&item, around)?,
            _ => self.structure(&item, around)?,
        };
        Ok((read, item.end))
    }

    fn integer(&self, item: &Item) -> Result<Type, Refusal> {
        let integer = match self.bytes[item.body..item.end] {
            [0] => Integer::I8,
            [1] => Integer::U8,
            [2] => Integer::I16,
            [3] => Integer::U16,
            [4] => Integer::I32,
            [5] => Integer::U32,
            [6] => Integer::I64,
            [7] => Integer::U64,
            [8] => Integer::Pointer,
            _ => return self.refuse_item(4, item),
        };
        Ok(Type::Integer(integer))
    }

    fn float(&self, item: &Item, around: Around) -> Result<Type, Refusal> {
        let float = match self.bytes[item.body..item.end] {
            [0] => Float::Single,
            [1] => Float::Double,
            [2] => Float::LongDouble,
            _ => return self.refuse_item(4, item),
        };
        let inside_a_struct = around.depth > 1;
        if float == Float::LongDouble && inside_a_struct {
            return self.refuse_item(5, item);
        }
        // 02, No. 1: "A long double, or a double inside a struct, gives new refusal 25 at that item,
        // tested after 5."
        let not_on_aix = match float {
            Float::Single => false,
            Float::Double => inside_a_struct,
            Float::LongDouble => true,
        };
        if around.convention == Convention::Aix && not_on_aix {
            return self.refuse_item(25, item);
        }
        Ok(Type::Float(float))
    }

    fn structure(&mut self, item: &Item, around: Around) -> Result<Type, Refusal> {
        if around.depth > DEEPEST_STRUCT {
            return self.refuse_item(6, item);
        }
        if item.body == item.end {
            return self.refuse_item(4, item);
        }
        let within = Around {
            end: item.end,
            depth: around.depth + 1,
            ..around
        };
        let mut fields = Vec::new();
        let mut place = item.body;
        while place < item.end {
            let (field, after) = self.type_item(place, within)?;
            fields.push(field);
            place = after;
        }
        let structure = Type::Struct(fields);
        if structure.size(around.convention) > LARGEST_STRUCT {
            return self.refuse_item(8, item);
        }
        Ok(structure)
    }

    /// The header at `place`, in an enclosing body that ends at `end`. "At an item: header room,
    /// tag, length room."
    fn item(&mut self, place: usize, end: usize, allowed: &[u8]) -> Result<Item, Refusal> {
        if end - place < 3 {
            return self.refuse(2, place);
        }
        let tag = self.bytes[place];
        if !allowed.contains(&tag) {
            return self.refuse(3, place);
        }
        let length = usize::from(self.bytes[place + 1]) * 256 + usize::from(self.bytes[place + 2]);
        let body = place + 3;
        if length > end - body {
            return self.refuse(2, place);
        }
        self.passed += 1;
        Ok(Item {
            place,
            tag,
            body,
            end: body + length,
        })
    }

    /// A refusal at a header that has not passed, or at bytes left over, which "are no item".
    fn refuse<T>(&self, number: u64, place: usize) -> Result<T, Refusal> {
        Err(Refusal {
            number,
            place,
            items: self.passed,
        })
    }

    /// A refusal of an item whose header has passed: "the refused item's own header isn't counted",
    /// and what stands in it is.
    fn refuse_item<T>(&self, number: u64, item: &Item) -> Result<T, Refusal> {
        Err(Refusal {
            number,
            place: item.place,
            items: self.passed - 1,
        })
    }
}

#[cfg(test)]
mod tests {
    use super::*;

    /// The bytes that hexadecimal text says; spaces count for nothing.
    fn hex(text: &str) -> Vec<u8> {
        let digits: String = text.split_whitespace().collect();
        (0..digits.len())
            .step_by(2)
            .map(|at| u8::from_str_radix(&digits[at..at + 2], 16).unwrap())
            .collect()
    }

    /// An item with the length that its body has.
    fn item(tag: u8, body: &[u8]) -> Vec<u8> {
        let mut bytes = vec![tag];
        bytes.extend_from_slice(&(body.len() as u16).to_be_bytes());
        bytes.extend_from_slice(body);
        bytes
    }

    fn signature(result: &[u8], arguments: &[u8]) -> Vec<u8> {
        signature_for(Convention::Ppc64, result, arguments)
    }

    fn signature_for(convention: Convention, result: &[u8], arguments: &[u8]) -> Vec<u8> {
        [
            item(CONVENTION, &[convention.code()]),
            item(RESULT, result),
            item(ARGUMENTS, arguments),
        ]
        .concat()
    }

    /// `innermost` within structs, `count` of them.
    fn nested(count: usize, innermost: &[u8]) -> Vec<u8> {
        (0..count).fold(innermost.to_vec(), |inner, _| item(STRUCT, &inner))
    }

    /// Refused with this number, at this place, after this many headers.
    fn refused(bytes: &[u8], number: u64, place: usize, items: usize) {
        let refusal = Refusal {
            number,
            place,
            items,
        };
        assert_eq!(read(bytes), Err(refusal));
    }

    const I8_ITEM: [u8; 4] = [INTEGER, 0, 1, 0];
    const DOUBLE_ITEM: [u8; 4] = [FLOAT, 0, 1, 1];
    const LONG_DOUBLE_ITEM: [u8; 4] = [FLOAT, 0, 1, 2];
    /// Where the result's body starts in a signature.
    const RESULT_BODY: usize = 7;
    /// Where the arguments' body starts in a signature without result.
    const ARGUMENTS_BODY: usize = 10;

    #[test]
    fn the_documents_example() {
        let bytes = hex("01 0001 01 02 0000 03 0008 10 0001 04 11 0001 01");
        assert_eq!(bytes.len(), 18);
        let signature = read(&bytes).unwrap();
        assert_eq!(signature.items(), 5);
        assert_eq!(
            signature,
            Signature {
                convention: Convention::Ppc64,
                result: None,
                ellipsis: false,
                arguments: vec![Type::Integer(Integer::I32), Type::Float(Float::Double)],
            }
        );
    }

    #[test]
    fn every_code_of_every_kind() {
        let codes = [
            Integer::I8,
            Integer::U8,
            Integer::I16,
            Integer::U16,
            Integer::I32,
            Integer::U32,
            Integer::I64,
            Integer::U64,
            Integer::Pointer,
        ];
        for (code, integer) in codes.into_iter().enumerate() {
            let read = read(&signature(&item(INTEGER, &[code as u8]), &[])).unwrap();
            assert_eq!(read.result, Some(Type::Integer(integer)));
        }
        let codes = [Float::Single, Float::Double, Float::LongDouble];
        for (code, float) in codes.into_iter().enumerate() {
            let read = read(&signature(&item(FLOAT, &[code as u8]), &[])).unwrap();
            assert_eq!(read.result, Some(Type::Float(float)));
        }
        for convention in Convention::ALL {
            let read = read(&signature_for(convention, &[], &[])).unwrap();
            assert_eq!((read.convention, read.items()), (convention, 3));
        }
    }

    #[test]
    fn refusal_1_is_a_signature_over_16384_bytes_whatever_it_holds() {
        refused(&[0; 16_385], 1, 0, 0);
        refused(&[0; 16_384], 3, 0, 0);
    }

    #[test]
    fn refusal_2_is_no_room_for_a_header_or_its_length() {
        refused(&[], 2, 0, 0);
        refused(&hex("01 00"), 2, 0, 0);
        refused(&hex("01 0001"), 2, 0, 0);
        refused(&hex("01 0001 01"), 2, 4, 1);
        refused(&hex("01 0001 01 02 0000"), 2, 7, 2);
        // the enclosing end counts, not the signature's
        refused(&hex("01 0001 01 02 0003 10 0001 04 03 0000"), 2, 7, 2);
        refused(&hex("01 0001 01 02 0002 10 00 03 0000"), 2, 7, 2);
        refused(
            &signature(&[], &[INTEGER, 0, 1, 0, INTEGER, 0]),
            2,
            ARGUMENTS_BODY + 4,
            4,
        );
    }

    #[test]
    fn refusal_3_is_a_tag_not_allowed_there() {
        refused(&hex("02 0000 01"), 3, 0, 0);
        refused(&hex("01 0001 01 03 0000"), 3, 4, 1);
        refused(&hex("01 0001 01 02 0000 02 0000"), 3, 7, 2);
        refused(&signature(&item(0x13, &[0]), &[]), 3, RESULT_BODY, 2);
        refused(
            &signature(&[], &item(STRUCT, &item(0x03, &[]))),
            3,
            ARGUMENTS_BODY + 3,
            4,
        );
    }

    #[test]
    fn refusal_4_is_a_length_or_a_code_not_allowed() {
        refused(&hex("01 0001 00 02 0000 03 0000"), 4, 0, 0);
        refused(&hex("01 0001 05 02 0000 03 0000"), 4, 0, 0);
        refused(&hex("01 0000 02 0000 03 0000"), 4, 0, 0);
        refused(&hex("01 0002 01 01 02 0000 03 0000"), 4, 0, 0);
        refused(&signature(&item(INTEGER, &[9]), &[]), 4, RESULT_BODY, 2);
        refused(&signature(&item(INTEGER, &[0, 0]), &[]), 4, RESULT_BODY, 2);
        refused(&signature(&item(FLOAT, &[]), &[]), 4, RESULT_BODY, 2);
        refused(&signature(&item(FLOAT, &[3]), &[]), 4, RESULT_BODY, 2);
        refused(&signature(&[], &item(STRUCT, &[])), 4, ARGUMENTS_BODY, 3);
    }

    #[test]
    fn refusal_4_is_also_a_byte_after_the_results_one_type() {
        let two = [I8_ITEM, I8_ITEM].concat();
        refused(&signature(&two, &[]), 4, RESULT_BODY + 4, 3);
        refused(
            &signature(&[INTEGER, 0, 1, 0, 0xff], &[]),
            4,
            RESULT_BODY + 4,
            3,
        );
    }

    #[test]
    fn refusal_5_is_a_long_double_inside_a_struct() {
        refused(
            &signature(&nested(1, &LONG_DOUBLE_ITEM), &[]),
            5,
            RESULT_BODY + 3,
            3,
        );
        refused(
            &signature(&[], &nested(8, &LONG_DOUBLE_ITEM)),
            5,
            ARGUMENTS_BODY + 24,
            11,
        );
        assert!(read(&signature(&LONG_DOUBLE_ITEM, &LONG_DOUBLE_ITEM)).is_ok());
    }

    #[test]
    fn refusal_6_is_a_struct_at_depth_9() {
        assert!(read(&signature(&nested(8, &I8_ITEM), &nested(8, &I8_ITEM))).is_ok());
        refused(
            &signature(&nested(9, &I8_ITEM), &[]),
            6,
            RESULT_BODY + 24,
            10,
        );
        refused(
            &signature(&[], &nested(9, &I8_ITEM)),
            6,
            ARGUMENTS_BODY + 24,
            11,
        );
    }

    #[test]
    fn refusal_7_is_a_byte_after_the_128th_argument() {
        assert!(read(&signature(&[], &I8_ITEM.repeat(128))).is_ok());
        refused(
            &signature(&[], &I8_ITEM.repeat(129)),
            7,
            ARGUMENTS_BODY + 512,
            131,
        );
        let with_a_byte = [I8_ITEM.repeat(128), vec![0xff]].concat();
        refused(&signature(&[], &with_a_byte), 7, ARGUMENTS_BODY + 512, 131);
    }

    #[test]
    fn refusal_8_is_a_struct_over_256_bytes() {
        let doubles = DOUBLE_ITEM.repeat(32);
        assert!(read(&signature(&[], &item(STRUCT, &doubles))).is_ok());
        let more = [doubles, I8_ITEM.to_vec()].concat();
        refused(&signature(&[], &item(STRUCT, &more)), 8, ARGUMENTS_BODY, 36);
    }

    #[test]
    fn refusal_9_is_a_byte_after_the_arguments() {
        refused(&hex("01 0001 01 02 0000 03 0000 00"), 9, 10, 3);
        refused(&hex("01 0001 01 02 0000 03 0000 03 0000"), 9, 10, 3);
        refused(&hex("01 0001 01 02 0000 04 0000 03 0000 00"), 9, 13, 4);
        // an ellipsis there is no ellipsis
        refused(&hex("01 0001 01 02 0000 03 0000 04 0000"), 9, 10, 3);
    }

    #[test]
    fn an_ellipsis_stands_between_result_and_arguments() {
        for convention in Convention::ALL {
            let bytes = [
                item(CONVENTION, &[convention.code()]),
                item(RESULT, &I8_ITEM),
                item(ELLIPSIS, &[]),
                item(ARGUMENTS, &DOUBLE_ITEM),
            ];
            let read = read(&bytes.concat()).unwrap();
            assert_eq!((read.ellipsis, read.items()), (true, 6));
            assert_eq!(read.arguments, [Type::Float(Float::Double)]);
        }
        // with a body it is refused, and its own header is not counted
        refused(&hex("01 0001 01 02 0000 04 0001 00 03 0000"), 4, 7, 2);
        refused(&hex("01 0001 01 02 0000 04 0003 03 0000"), 4, 7, 2);
        // room for its header and its length come first
        refused(&hex("01 0001 01 02 0000 04 00"), 2, 7, 2);
        refused(&hex("01 0001 01 02 0000 04 0001"), 2, 7, 2);
        // a second one, and one elsewhere
        refused(&hex("01 0001 01 02 0000 04 0000 04 0000 03 0000"), 3, 10, 3);
        refused(&hex("04 0000 01 0001 01 02 0000 03 0000"), 3, 0, 0);
        refused(&hex("01 0001 01 04 0000 02 0000 03 0000"), 3, 4, 1);
        refused(&signature(&item(ELLIPSIS, &[]), &[]), 3, RESULT_BODY, 2);
        refused(&signature(&[], &item(ELLIPSIS, &[])), 3, ARGUMENTS_BODY, 3);
        // nothing after it
        refused(&hex("01 0001 01 02 0000 04 0000"), 2, 10, 3);
        refused(&hex("01 0001 01 02 0000 04 0000 03"), 2, 10, 3);
        refused(&hex("01 0001 01 02 0000 04 0000 02 0000"), 3, 10, 3);
        // the places and counts behind it are one item further on
        let faulty = "01 0001 01 02 0000 04 0000 03 0004 10 0001 09";
        refused(&hex(faulty), 4, ARGUMENTS_BODY + 3, 4);
    }

    #[test]
    fn one_type_by_itself() {
        let refused = |convention, bytes: &[u8], number, place, items| {
            let refusal = Refusal {
                number,
                place,
                items,
            };
            assert_eq!(read_type(convention, bytes), Err(refusal));
        };
        let ppc64 = Convention::Ppc64;
        let double = Type::Float(Float::Double);
        assert_eq!(read_type(ppc64, &DOUBLE_ITEM), Ok(double.clone()));
        let structure = Type::Struct(vec![double]);
        assert_eq!(read_type(ppc64, &nested(1, &DOUBLE_ITEM)), Ok(structure));
        refused(ppc64, &[], 2, 0, 0);
        refused(ppc64, &[0x10; 2], 2, 0, 0);
        refused(ppc64, &[0; 16_384], 3, 0, 0);
        refused(ppc64, &[0; 16_385], 1, 0, 0);
        refused(ppc64, &[INTEGER, 0, 2, 0], 2, 0, 0);
        refused(ppc64, &[INTEGER, 0, 1, 9], 4, 0, 0);
        refused(ppc64, &nested(1, &LONG_DOUBLE_ITEM), 5, 3, 1);
        assert!(read_type(ppc64, &nested(8, &I8_ITEM)).is_ok());
        refused(ppc64, &nested(9, &I8_ITEM), 6, 24, 8);
        refused(ppc64, &item(STRUCT, &DOUBLE_ITEM.repeat(33)), 8, 0, 33);
        refused(Convention::Aix, &LONG_DOUBLE_ITEM, 25, 0, 0);
        refused(Convention::Aix, &nested(2, &DOUBLE_ITEM), 25, 6, 2);
        // "bytes after it give 4 there", and are no item
        refused(ppc64, &[I8_ITEM, I8_ITEM].concat(), 4, 4, 1);
        refused(ppc64, &[INTEGER, 0, 1, 0, 0xff], 4, 4, 1);
        refused(ppc64, &[INTEGER, 0, 1, 9, 0xff], 4, 0, 0);
    }

    #[test]
    fn the_order_at_a_header_is_room_then_tag_then_length() {
        // two bytes with a wrong tag: no room comes first
        refused(&hex("ff ff"), 2, 0, 0);
        // a wrong tag with a length that passes the end: the tag comes first
        refused(&hex("ff ff ff"), 3, 0, 0);
        // a length that passes the end, of an item whose length is never allowed: room first
        refused(&hex("01 0005 01"), 2, 0, 0);
    }

    #[test]
    fn the_order_at_a_struct_is_length_room_depth_body_contents_size() {
        let at = RESULT_BODY + 24;
        // at depth 9 with a length that passes the end
        let long = [STRUCT, 0xff, 0xff];
        refused(&signature(&nested(8, &long), &[]), 2, at, 10);
        // at depth 9 and empty
        refused(&signature(&nested(9, &[]), &[]), 6, at, 10);
        // a faulty field of a struct that is too large
        let faulty = [DOUBLE_ITEM.repeat(33), vec![INTEGER, 0, 1, 9]].concat();
        refused(
            &signature(&item(STRUCT, &faulty), &[]),
            4,
            RESULT_BODY + 3 + 132,
            36,
        );
        // a struct that is too large makes the one around it too large: the inner one comes first
        let inner = nested(2, &DOUBLE_ITEM.repeat(33));
        refused(&signature(&inner, &[]), 8, RESULT_BODY + 3, 36);
    }

    #[test]
    fn the_order_at_a_float_is_body_then_long_double() {
        refused(
            &signature(&nested(1, &item(FLOAT, &[2, 2])), &[]),
            4,
            RESULT_BODY + 3,
            3,
        );
        refused(
            &signature(&nested(1, &item(FLOAT, &[3])), &[]),
            4,
            RESULT_BODY + 3,
            3,
        );
    }

    #[test]
    fn refusal_25_is_a_long_double_or_a_double_inside_a_struct_on_aix() {
        let aix =
            |result: &[u8], arguments: &[u8]| signature_for(Convention::Aix, result, arguments);
        // a long double by itself, as the result and as an argument
        refused(&aix(&LONG_DOUBLE_ITEM, &[]), 25, RESULT_BODY, 2);
        refused(&aix(&[], &LONG_DOUBLE_ITEM), 25, ARGUMENTS_BODY, 3);
        // a double at any depth, behind a field too
        for depth in 1..=8 {
            let inside = nested(depth, &DOUBLE_ITEM);
            refused(&aix(&inside, &[]), 25, RESULT_BODY + 3 * depth, 2 + depth);
            let behind = nested(depth, &[I8_ITEM, DOUBLE_ITEM].concat());
            let place = ARGUMENTS_BODY + 3 * depth + 4;
            refused(&aix(&[], &behind), 25, place, 4 + depth);
        }
        // inside a struct a long double gives 5, which is tested first
        let inside = nested(1, &LONG_DOUBLE_ITEM);
        refused(&aix(&inside, &[]), 5, RESULT_BODY + 3, 3);
        // the body comes before both, depth before what is inside
        refused(&aix(&item(FLOAT, &[2, 2]), &[]), 4, RESULT_BODY, 2);
        refused(&aix(&nested(9, &DOUBLE_ITEM), &[]), 6, RESULT_BODY + 24, 10);
        // before the size of the struct around it
        let large = item(STRUCT, &DOUBLE_ITEM.repeat(33));
        refused(&aix(&large, &[]), 25, RESULT_BODY + 3, 3);
        // by itself a double is as on PPC64, and so is a single anywhere
        assert!(read(&aix(&DOUBLE_ITEM, &DOUBLE_ITEM)).is_ok());
        let single = item(FLOAT, &[0]);
        assert!(read(&aix(&nested(8, &single), &nested(8, &single))).is_ok());
        for other in [Convention::Ppc64, Convention::Z] {
            let both = [&nested(1, &DOUBLE_ITEM)[..], &LONG_DOUBLE_ITEM].concat();
            assert!(read(&signature_for(other, &LONG_DOUBLE_ITEM, &both)).is_ok());
        }
    }

    #[test]
    fn on_aix_pointers_count_4_bytes_of_a_struct() {
        let pointers = |count| item(STRUCT, &item(INTEGER, &[8]).repeat(count));
        for (convention, most) in [(Convention::Ppc64, 32), (Convention::Aix, 64)] {
            let of = |count| signature_for(convention, &[], &pointers(count));
            assert!(read(&of(most)).is_ok());
            refused(&of(most + 1), 8, ARGUMENTS_BODY, 4 + most);
        }
    }

    #[test]
    fn what_stands_further_left_is_refused_first() {
        // a faulty result before what is missing after it
        refused(&hex("01 0001 01 02 0004 10 0001 09"), 4, 7, 2);
        // bytes after the result's type before a faulty third item
        refused(&hex("01 0001 01 02 0005 10 0001 00 ff ff"), 4, 11, 3);
        // a faulty result type before the bytes after it
        refused(&hex("01 0001 01 02 0005 10 0001 09 ff 03 0000"), 4, 7, 2);
        // bytes after the 128th argument before bytes after the third item
        let mut bytes = signature(&[], &[I8_ITEM.repeat(128), vec![0]].concat());
        bytes.push(0);
        refused(&bytes, 7, ARGUMENTS_BODY + 512, 131);
        // the 128th argument's own fault before bytes after it
        let faulty = [I8_ITEM.repeat(127), vec![INTEGER, 0, 1, 9, 0]].concat();
        refused(&signature(&[], &faulty), 4, ARGUMENTS_BODY + 508, 130);
    }
}
