//! The limits of documents 01 and 02, one step on either side. Each case states the answer that the
//! document gives, and both programs are held to it.

use compare::encode::{
    self, item, signature_around, signature_of, type_items, variable_signature_of, ARGUMENTS,
    CONVENTION, ELLIPSIS, FLOAT, INTEGER, RESULT, STRUCT,
};
use compare::signatures;
use flakuzhen::surface::{self, Answer};
use reference::{Convention, Float, Integer, Signature, Type};

const I8: Type = Type::Integer(Integer::I8);
const I16: Type = Type::Integer(Integer::I16);
const I64: Type = Type::Integer(Integer::I64);
const SINGLE: Type = Type::Float(Float::Single);
const DOUBLE: Type = Type::Float(Float::Double);
const LONG_DOUBLE: Type = Type::Float(Float::LongDouble);

/// Where the result's body starts.
const RESULT_BODY: usize = 7;
/// Where the arguments' body starts in a signature without result.
const ARGUMENTS_BODY: usize = 10;

fn holds(name: &str, bytes: &[u8], answer: Answer) {
    assert_eq!(
        signatures::expected(bytes),
        answer,
        "{name}: second program"
    );
    assert_eq!(surface::read_signature(bytes), answer, "{name}: library");
}

fn accepted(name: &str, bytes: &[u8], items: u64) {
    let answer = Answer {
        number: 0,
        place: 0,
        items,
    };
    holds(name, bytes, answer);
}

/// Refused at this place after this many headers.
fn refused(name: &str, bytes: &[u8], number: u64, place: usize, items: u64) {
    let answer = Answer {
        number,
        place: place as u64,
        items,
    };
    holds(name, bytes, answer);
}

fn structure(fields: &[Type]) -> Type {
    Type::Struct(fields.to_vec())
}

/// `innermost` within structs, `count` of them.
fn nested(count: usize, innermost: Type) -> Type {
    (0..count).fold(innermost, |inner, _| Type::Struct(vec![inner]))
}

/// Whether document 01's answer to a type is AIX's too: refusal 25 is for a long double, which gives
/// 5 inside a struct, and for a double inside one.
fn as_on_aix(of: &Type, inside: bool) -> bool {
    match of {
        Type::Integer(_) | Type::Float(Float::Single) => true,
        Type::Float(Float::Double) => !inside,
        Type::Float(Float::LongDouble) => inside,
        Type::Struct(fields) => fields.iter().all(|field| as_on_aix(field, true)),
    }
}

/// A signature with these types, for all conventions; for AIX where its answer is the others'.
fn every(result: Option<&Type>, arguments: &[Type]) -> Vec<Vec<u8>> {
    let types = result.into_iter().chain(arguments);
    let mut conventions = vec![Convention::Ppc64, Convention::Z];
    if types.into_iter().all(|of| as_on_aix(of, false)) {
        conventions.push(Convention::Aix);
    }
    let of = |convention| {
        encode::signature(&Signature {
            convention,
            result: result.cloned(),
            ellipsis: false,
            arguments: arguments.to_vec(),
        })
    };
    conventions.into_iter().map(of).collect()
}

/// The document's rule for a type as the result and as the first argument, for all conventions:
/// accepted with this many items of its own, or refused at an offset from its header after this many
/// headers of its own.
fn accepted_as_type(name: &str, of: &Type, items: u64) {
    for bytes in every(Some(of), &[]) {
        accepted(name, &bytes, 3 + items);
    }
    for bytes in every(None, std::slice::from_ref(of)) {
        accepted(name, &bytes, 3 + items);
    }
}

fn refused_as_type(name: &str, of: &Type, number: u64, offset: usize, items: u64) {
    for bytes in every(Some(of), &[]) {
        refused(name, &bytes, number, RESULT_BODY + offset, 2 + items);
    }
    for bytes in every(None, std::slice::from_ref(of)) {
        refused(name, &bytes, number, ARGUMENTS_BODY + offset, 3 + items);
    }
}

#[test]
fn the_documents_example() {
    let bytes = [1, 0, 1, 1, 2, 0, 0, 3, 0, 8, 0x10, 0, 1, 4, 0x11, 0, 1, 1];
    accepted("the example", &bytes, 5);
    refused("nothing at all", &[], 2, 0, 0);
}

#[test]
fn arguments_127_128_and_129() {
    for argument in [I8, SINGLE, LONG_DOUBLE, structure(&[I8, DOUBLE])] {
        let items = argument.items() as u64;
        let length = encode::type_item(&argument).len();
        for count in [127, 128] {
            for bytes in every(None, &vec![argument.clone(); count]) {
                accepted("up to 128 arguments", &bytes, 3 + count as u64 * items);
            }
        }
        for bytes in every(None, &vec![argument.clone(); 129]) {
            let place = ARGUMENTS_BODY + 128 * length;
            refused("129 arguments", &bytes, 7, place, 3 + 128 * items);
        }
    }
    // whatever the bytes after the 128th are, and before those after the third item
    let full = type_items(&vec![I8; 128]);
    for stray in [&[0x00][..], &[0x10], &[0xff, 0xff, 0xff], &[0x10, 0, 9]] {
        let mut bytes = signature_of(Convention::Z, &[], &[&full, stray].concat());
        refused(
            "bytes after the 128th",
            &bytes,
            7,
            ARGUMENTS_BODY + 512,
            131,
        );
        bytes.push(0);
        refused("and after the third", &bytes, 7, ARGUMENTS_BODY + 512, 131);
    }
    // the 128th is tested before what follows it
    let faulty = [&type_items(&vec![I8; 127])[..], &[INTEGER, 0, 1, 9, 0]].concat();
    let bytes = signature_of(Convention::Z, &[], &faulty);
    refused("a faulty 128th", &bytes, 4, ARGUMENTS_BODY + 508, 130);
}

#[test]
fn structs_of_256_bytes_and_of_more() {
    accepted_as_type("32 doubles", &structure(&vec![DOUBLE; 32]), 33);
    let mut more = vec![DOUBLE; 32];
    more.push(I8);
    refused_as_type("32 doubles and an i8", &structure(&more), 8, 0, 33);

    accepted_as_type("256 i8", &structure(&vec![I8; 256]), 257);
    refused_as_type("257 i8", &structure(&vec![I8; 257]), 8, 0, 257);

    // 249 to 256 bytes before rounding, 256 after
    for small in 1..=8 {
        let mut fields = vec![I64; 31];
        fields.extend(vec![I8; small]);
        accepted_as_type("rounded up to 256", &structure(&fields), 32 + small as u64);
    }
    // an i8 before each i64 takes 8 bytes with the gap: 16 pairs are 256 bytes
    let pairs: Vec<Type> = (0..16).flat_map(|_| [I8, I64]).collect();
    accepted_as_type("16 pairs with gaps", &structure(&pairs), 33);
    let with_one_more = [&pairs[..], &[I8]].concat();
    refused_as_type("and an i8", &structure(&with_one_more), 8, 0, 33);

    // 255 bytes of i8 and an i16: the gap makes 258
    let mut gap = vec![I8; 255];
    gap.push(I16);
    refused_as_type("255 i8 and an i16", &structure(&gap), 8, 0, 256);
    gap.remove(0);
    accepted_as_type("254 i8 and an i16", &structure(&gap), 256);
}

#[test]
fn sizes_of_structs_within_structs() {
    // a struct of 3 bytes has no gap after it, one of i16 and i8 is rounded to 4
    let three = structure(&[I8, I8, I8]);
    let fields = [vec![three.clone(); 85], vec![I8]].concat();
    accepted_as_type("85 times 3 and 1", &structure(&fields), 1 + 85 * 4 + 1);
    refused_as_type("86 times 3", &structure(&vec![three; 86]), 8, 0, 86 * 4);
    let four = structure(&[I16, I8]);
    accepted_as_type(
        "64 times 4",
        &structure(&vec![four.clone(); 64]),
        1 + 64 * 3,
    );
    refused_as_type(
        "65 times 4",
        &structure(&vec![four.clone(); 65]),
        8,
        0,
        65 * 3,
    );
    // its alignment of 2 leaves a gap after an i8
    let fields = [vec![I8], vec![four; 63], vec![I8]].concat();
    accepted_as_type(
        "2 and 63 times 4 and 2",
        &structure(&fields),
        1 + 2 + 63 * 3,
    );
    // an i64 and an i8 take 16 bytes, and what follows starts after them
    let sixteen = vec![structure(&[I64, I8])];
    let fields = [sixteen.clone(), vec![I8; 240]].concat();
    accepted_as_type("16 and 240", &structure(&fields), 1 + 3 + 240);
    let fields = [sixteen, vec![I8; 241]].concat();
    refused_as_type("16 and 241", &structure(&fields), 8, 0, 3 + 241);

    // the inner struct that is too large comes before the outer one
    let large = structure(&vec![DOUBLE; 33]);
    refused_as_type(
        "too large within one",
        &structure(std::slice::from_ref(&large)),
        8,
        3,
        1 + 33,
    );
    refused_as_type("too large within six", &nested(6, large), 8, 18, 6 + 33);
    let halves = vec![structure(&vec![DOUBLE; 16]); 2];
    accepted_as_type("two halves", &structure(&halves), 35);
    let more = [halves, vec![nested(3, I8)]].concat();
    refused_as_type("two halves and more", &structure(&more), 8, 0, 2 * 17 + 4);
}

#[test]
fn depth_8_and_9() {
    accepted_as_type("depth 8", &nested(8, I8), 9);
    refused_as_type("depth 9", &nested(9, I8), 6, 24, 8);
    refused_as_type("depth 30", &nested(30, I8), 6, 24, 8);
    // fields beside the deep one
    let beside = structure(&[I8, nested(7, DOUBLE), I8, nested(7, SINGLE)]);
    accepted_as_type("depth 8 twice", &beside, 19);
    let beside = structure(&[I8, nested(7, DOUBLE), I8, nested(8, SINGLE)]);
    // the second deep field starts after header, i8, the first deep field's 25 bytes and i8
    refused_as_type(
        "depth 9 second",
        &beside,
        6,
        3 + 4 + 25 + 4 + 21,
        1 + 1 + 8 + 1 + 7,
    );
    // depth comes before an empty body and after length room
    refused_as_type("depth 9 and empty", &nested(8, structure(&[])), 6, 24, 8);
    refused_as_type("depth 8 and empty", &nested(7, structure(&[])), 4, 21, 7);
    let mut bytes = signature_of(Convention::Ppc64, &encode::type_item(&nested(9, I8)), &[]);
    bytes[RESULT_BODY + 25] = 0xff;
    refused("depth 9 and too long", &bytes, 2, RESULT_BODY + 24, 2 + 8);
}

/// This many structs of i8, with this many fields in the first of them and one less in the others.
fn structs_of_i8(count: usize, fields: usize, first: usize) -> Vec<Type> {
    let of = |at| structure(&vec![I8; if at < first { fields } else { fields - 1 }]);
    (0..count).map(of).collect()
}

#[test]
fn a_signature_of_16383_bytes_16384_and_16385() {
    // 10 bytes for the convention and the headers of result and arguments, 18 structs' headers of
    // 3 bytes, 4,080 integers of 4 bytes
    for bytes in every(None, &structs_of_i8(18, 227, 12)) {
        assert_eq!(bytes.len(), 16_384);
        accepted("16,384 bytes", &bytes, 3 + 18 + 4_080);
        refused("and one more", &[&bytes[..], &[0]].concat(), 1, 0, 0);
        refused("all but one", &bytes[..16_383], 2, 7, 2);
    }
    // 19 structs' headers and 4,079 integers
    for bytes in every(None, &structs_of_i8(19, 215, 13)) {
        assert_eq!(bytes.len(), 16_383);
        accepted("16,383 bytes", &bytes, 3 + 19 + 4_079);
        let place = bytes.len();
        refused(
            "a byte after them",
            &[&bytes[..], &[0]].concat(),
            9,
            place,
            3 + 19 + 4_079,
        );
    }
    // well formed but for the length: 17 structs' headers and 4,081 integers
    for bytes in every(None, &structs_of_i8(17, 241, 1)) {
        assert_eq!(bytes.len(), 16_385);
        refused("16,385 bytes", &bytes, 1, 0, 0);
    }
    // 13 bytes with an ellipsis, 17 structs' headers and 4,080 integers
    for convention in Convention::ALL {
        let arguments = type_items(&structs_of_i8(17, 240, 17));
        let bytes = variable_signature_of(convention, &[], &arguments);
        assert_eq!(bytes.len(), 16_384);
        accepted("16,384 bytes", &bytes, 4 + 17 + 4_080);
        refused("and one more", &[&bytes[..], &[0]].concat(), 1, 0, 0);
        refused("all but one", &bytes[..16_383], 2, 10, 3);
    }
    refused("16,384 zeros", &[0; 16_384], 3, 0, 0);
    refused("16,385 zeros", &[0; 16_385], 1, 0, 0);
    refused("70,000 zeros", &[0; 70_000], 1, 0, 0);
}

#[test]
fn the_most_items() {
    // 256 integers of one byte, each within seven structs: 25 bytes and 8 items each
    let longest = structure(&vec![nested(7, I8); 256]);
    assert_eq!(encode::type_item(&longest).len(), 3 + 256 * 25);
    accepted_as_type("the longest type", &longest, 1 + 256 * 8);
    // two of them, and one that takes what is left: 3 and 125 times 25 and 20 times 22 bytes
    let rest = structure(&[vec![nested(7, I8); 125], vec![nested(6, I8); 20]].concat());
    let items = 3 + 2 * (1 + 256 * 8) + (1 + 125 * 8 + 20 * 7);
    for bytes in every(Some(&longest), &[longest.clone(), rest.clone()]) {
        assert_eq!(bytes.len(), 16_384);
        accepted("in the whole signature", &bytes, items);
    }
    for bytes in every(None, &[rest, longest.clone(), longest]) {
        assert_eq!(bytes.len(), 16_384);
        accepted("in the arguments", &bytes, items);
    }
}

#[test]
fn structs_of_256_fields_in_the_result_and_the_arguments() {
    let full = structure(&vec![I8; 256]);
    for bytes in every(Some(&full), &vec![full.clone(); 14]) {
        accepted("15 full structs", &bytes, 3 + 15 * 257);
    }
    for bytes in every(Some(&full), &vec![full.clone(); 15]) {
        assert_eq!(bytes.len(), 10 + 16 * 1027);
        refused("16 full structs", &bytes, 1, 0, 0);
    }
}

#[test]
fn long_doubles_in_structs_and_out_of_them() {
    accepted_as_type("alone", &LONG_DOUBLE, 1);
    refused_as_type("only field", &structure(&[LONG_DOUBLE]), 5, 3, 1);
    refused_as_type("last field", &structure(&[I8, LONG_DOUBLE]), 5, 7, 2);
    refused_as_type("first field", &structure(&[LONG_DOUBLE, I8]), 5, 3, 1);
    refused_as_type("at depth 8", &nested(8, LONG_DOUBLE), 5, 24, 8);
    // at depth 9 the struct around it is refused before it is seen
    refused_as_type("at depth 9", &nested(9, LONG_DOUBLE), 6, 24, 8);
    // before the size of the struct that it is in
    let mut large = vec![DOUBLE; 33];
    large.push(LONG_DOUBLE);
    refused_as_type(
        "in too large a struct",
        &structure(&large),
        5,
        3 + 132,
        1 + 33,
    );
    // a body that is not allowed comes first
    for body in [&[][..], &[2, 2], &[3]] {
        let faulty = item(STRUCT, &item(FLOAT, body));
        let bytes = signature_of(Convention::Z, &faulty, &[]);
        refused("with a faulty body", &bytes, 4, RESULT_BODY + 3, 3);
    }
}

/// For AIX: as the result and as the first argument.
fn refused_on_aix(name: &str, of: &Type, number: u64, offset: usize, items: u64) {
    let item = encode::type_item(of);
    let bytes = signature_of(Convention::Aix, &item, &[]);
    refused(name, &bytes, number, RESULT_BODY + offset, 2 + items);
    let bytes = signature_of(Convention::Aix, &[], &item);
    refused(name, &bytes, number, ARGUMENTS_BODY + offset, 3 + items);
}

/// 02, No. 1: "A long double, or a double inside a struct, gives new refusal 25 at that item, tested
/// after 5."
#[test]
fn long_doubles_and_doubles_in_structs_on_aix() {
    refused_on_aix("a long double alone", &LONG_DOUBLE, 25, 0, 0);
    for depth in 1..=8 {
        let offset = 3 * depth;
        refused_on_aix("a double", &nested(depth, DOUBLE), 25, offset, depth as u64);
        // 5 comes first
        let long = nested(depth, LONG_DOUBLE);
        refused_on_aix("a long double", &long, 5, offset, depth as u64);
        let single = encode::type_item(&nested(depth, SINGLE));
        let bytes = signature_of(Convention::Aix, &single, &single);
        accepted("a single", &bytes, 3 + 2 * (1 + depth as u64));
    }
    // at depth 9 the struct around it is refused before it is seen
    refused_on_aix("at depth 9", &nested(9, DOUBLE), 6, 24, 8);
    refused_on_aix("first field", &structure(&[DOUBLE, I8]), 25, 3, 1);
    refused_on_aix("last field", &structure(&[I8, SINGLE, DOUBLE]), 25, 11, 3);
    // from left to right: what comes first is refused first
    refused_on_aix(
        "and a long double",
        &structure(&[DOUBLE, LONG_DOUBLE]),
        25,
        3,
        1,
    );
    refused_on_aix(
        "after a long double",
        &structure(&[LONG_DOUBLE, DOUBLE]),
        5,
        3,
        1,
    );
    // before the size of the struct that it is in
    refused_on_aix(
        "in too large a struct",
        &structure(&vec![DOUBLE; 33]),
        25,
        3,
        1,
    );
    let mut large = vec![I64; 33];
    large.push(DOUBLE);
    refused_on_aix("and last in it", &structure(&large), 25, 3 + 132, 34);
    // a body that is not allowed comes first
    for body in [&[][..], &[1, 1], &[2, 2], &[3]] {
        let bytes = signature_of(Convention::Aix, &item(FLOAT, body), &[]);
        refused("with a faulty body", &bytes, 4, RESULT_BODY, 2);
    }
    // the 128th argument, and a 129th that is never looked at
    let full = [
        &type_items(&vec![I8; 127])[..],
        &encode::type_item(&LONG_DOUBLE),
    ]
    .concat();
    let bytes = signature_of(Convention::Aix, &[], &full);
    refused("the 128th", &bytes, 25, ARGUMENTS_BODY + 508, 130);
    let full = [
        &type_items(&vec![DOUBLE; 128])[..],
        &encode::type_item(&LONG_DOUBLE),
    ]
    .concat();
    let bytes = signature_of(Convention::Aix, &[], &full);
    refused("the 129th", &bytes, 7, ARGUMENTS_BODY + 512, 131);
}

/// 02, No. 1: "Pointers are 4 bytes", in structs with that alignment; 64-bit integers keep 8.
#[test]
fn pointers_in_structs() {
    let pointer = Type::Integer(Integer::Pointer);
    for (convention, size) in [
        (Convention::Ppc64, 8),
        (Convention::Z, 8),
        (Convention::Aix, 4),
    ] {
        let most = 256 / size;
        let pairs = vec![vec![I8, pointer.clone()]; most / 2].concat();
        for (fields, number) in [
            (vec![pointer.clone(); most], 0),
            (vec![pointer.clone(); most + 1], 8),
            // an i8 before each takes as much again
            (pairs.clone(), 0),
            ([pairs, vec![I8]].concat(), 8),
        ] {
            let items = fields.len() as u64;
            let bytes = signature_of(convention, &[], &encode::type_item(&structure(&fields)));
            match number {
                0 => accepted("pointers", &bytes, 4 + items),
                _ => refused("pointers", &bytes, number, ARGUMENTS_BODY, 3 + items),
            }
        }
        let arguments = [
            pointer.clone(),
            structure(&[I8, pointer.clone()]),
            structure(&[pointer.clone(), I64]),
        ];
        let bytes = signature_of(convention, &[], &type_items(&arguments));
        let sizes = surface::plans::measure(&bytes);
        assert_eq!(
            sizes.values,
            (size + 2 * size + 16) as u64,
            "{convention:?}"
        );
    }
}

#[test]
fn empty_structs() {
    let empty = structure(&[]);
    refused_as_type("alone", &empty, 4, 0, 0);
    refused_as_type(
        "in a struct",
        &structure(std::slice::from_ref(&empty)),
        4,
        3,
        1,
    );
    refused_as_type("after a field", &structure(&[I64, empty]), 4, 7, 2);
}

#[test]
fn bytes_after_the_arguments() {
    for stray in [
        &[0x00][..],
        &[0x01],
        &[0x03, 0, 0],
        &[0x10, 0, 1, 4],
        &[0xff; 9],
    ] {
        for bytes in every(None, &[I8, DOUBLE]) {
            let place = bytes.len();
            refused(
                "after the third item",
                &[&bytes[..], stray].concat(),
                9,
                place,
                5,
            );
        }
        // 02, No. 5: "9 now means bytes after tag 0x03's item"
        for convention in Convention::ALL {
            let bytes = variable_signature_of(convention, &[], &type_items(&[I8, DOUBLE]));
            let place = bytes.len();
            let bytes = [&bytes[..], stray].concat();
            refused("after the fourth item", &bytes, 9, place, 6);
        }
    }
}

/// 02, No. 5: "an optional tag 0x04, empty body, between result and arguments".
#[test]
fn an_ellipsis_at_its_place_and_elsewhere() {
    let arguments = type_items(&[I8, SINGLE]);
    let ellipsis = item(ELLIPSIS, &[]);
    for convention in Convention::ALL {
        let variable = variable_signature_of(convention, &[], &arguments);
        accepted("at its place", &variable, 6);
        let result = encode::type_item(&structure(&[I8, I64]));
        let with_result = variable_signature_of(convention, &result, &[]);
        accepted("after a result", &with_result, 4 + 3);
        // with a body, whatever that is
        for length in [1, 2, 3, 7] {
            let faulty = item(ELLIPSIS, &vec![ARGUMENTS; length]);
            let bytes = signature_around(convention, &[], &faulty, &arguments);
            refused("with a body", &bytes, 4, RESULT_BODY, 2);
        }
        // a length that passes the end comes before that
        for length in 1..=255 {
            let header = [ELLIPSIS, 0, length];
            let bytes = [
                &item(CONVENTION, &[convention.code()])[..],
                &item(RESULT, &[]),
                &header,
            ];
            refused("with no room for it", &bytes.concat(), 2, RESULT_BODY, 2);
        }
        let twice = [&ellipsis[..], &ellipsis].concat();
        let bytes = signature_around(convention, &[], &twice, &arguments);
        refused("twice", &bytes, 3, RESULT_BODY + 3, 3);
        let after = [&variable[..], &ellipsis].concat();
        refused("and after the arguments", &after, 9, variable.len(), 6);
        let plain = signature_of(convention, &[], &arguments);
        let after = [&plain[..], &ellipsis].concat();
        refused("after the arguments", &after, 9, plain.len(), 5);
        let before = [&plain[..4], &ellipsis, &plain[4..]].concat();
        refused("before the result", &before, 3, 4, 1);
        let first = [&ellipsis[..], &plain].concat();
        refused("first of all", &first, 3, 0, 0);
        let bytes = signature_of(convention, &ellipsis, &arguments);
        refused("in the result", &bytes, 3, RESULT_BODY, 2);
        let bytes = signature_of(convention, &[], &ellipsis);
        refused("in the arguments", &bytes, 3, ARGUMENTS_BODY, 3);
        let bytes = signature_of(convention, &[], &item(STRUCT, &ellipsis));
        refused("in a struct", &bytes, 3, ARGUMENTS_BODY + 3, 4);
        // every part of it
        for length in 0..variable.len() {
            let (place, items) = match length {
                0..=3 => (0, 0),
                4..=6 => (4, 1),
                7..=9 => (7, 2),
                _ => (10, 3),
            };
            refused("a part", &variable[..length], 2, place, items);
        }
        // what another tag gives there
        for tag in (0..=255).filter(|tag| ![ARGUMENTS, ELLIPSIS].contains(tag)) {
            let bytes = signature_around(convention, &[], &[tag, 0, 0], &arguments);
            refused("another tag", &bytes, 3, RESULT_BODY, 2);
        }
        // limits and places behind it are those of a signature without it, three bytes on
        let many = type_items(&vec![I8; 129]);
        let bytes = variable_signature_of(convention, &[], &many);
        refused("129 arguments", &bytes, 7, ARGUMENTS_BODY + 3 + 512, 132);
        let bytes = variable_signature_of(convention, &[], &many[4..]);
        accepted("128 arguments", &bytes, 4 + 128);
        let deep = encode::type_item(&nested(9, I8));
        let bytes = variable_signature_of(convention, &[], &deep);
        refused("depth 9", &bytes, 6, ARGUMENTS_BODY + 3 + 24, 4 + 8);
    }
}

#[test]
fn bytes_after_the_results_type() {
    for stray in [&[0x00][..], &[0x10, 0, 1, 4], &[0x12, 0, 0], &[0xff; 9]] {
        for (of, items) in [(I8, 1), (LONG_DOUBLE, 1), (structure(&[I8, I64]), 3)] {
            let first = encode::type_item(&of);
            let body = [&first[..], stray].concat();
            let bytes = signature_of(Convention::Ppc64, &body, &[]);
            refused(
                "after the result",
                &bytes,
                4,
                RESULT_BODY + first.len(),
                2 + items,
            );
        }
    }
    // the type itself comes first
    let bytes = signature_of(Convention::Ppc64, &[INTEGER, 0, 1, 9, 0], &[]);
    refused("a faulty type before them", &bytes, 4, RESULT_BODY, 2);
}

#[test]
fn bytes_after_a_field_or_an_argument_are_the_next_header() {
    let stray = [&encode::type_item(&I8)[..], &[0x10, 0]].concat();
    let bytes = signature_of(Convention::Z, &[], &stray);
    refused(
        "two bytes after an argument",
        &bytes,
        2,
        ARGUMENTS_BODY + 4,
        4,
    );
    let bytes = signature_of(Convention::Z, &[], &item(STRUCT, &stray));
    refused("two bytes after a field", &bytes, 2, ARGUMENTS_BODY + 7, 5);
    let stray = [&encode::type_item(&I8)[..], &[ARGUMENTS, 0, 0]].concat();
    let bytes = signature_of(Convention::Z, &[], &stray);
    refused("a tag of another level", &bytes, 3, ARGUMENTS_BODY + 4, 4);
}

#[test]
fn codes_at_their_limits() {
    for code in 0..=255 {
        let bytes = signature_of(Convention::Ppc64, &item(INTEGER, &[code]), &[]);
        match code {
            0..=8 => accepted("integer", &bytes, 4),
            _ => refused("integer", &bytes, 4, RESULT_BODY, 2),
        }
        let bytes = signature_of(Convention::Ppc64, &item(FLOAT, &[code]), &[]);
        match code {
            0..=2 => accepted("float", &bytes, 4),
            _ => refused("float", &bytes, 4, RESULT_BODY, 2),
        }
        let bytes = [1, 0, 1, code, 2, 0, 0, 3, 0, 0];
        match code {
            1..=4 => accepted("convention", &bytes, 3),
            _ => refused("convention", &bytes, 4, 0, 0),
        }
    }
}

#[test]
fn tags_at_every_position() {
    for tag in 0..=255u8 {
        let allowed_type = matches!(tag, INTEGER | FLOAT | STRUCT);
        // with length 0, so that an allowed type is refused for its body
        let number = if allowed_type { 4 } else { 3 };
        let bytes = signature_of(Convention::Z, &[tag, 0, 0], &[]);
        refused("in the result", &bytes, number, RESULT_BODY, 2);
        let bytes = signature_of(Convention::Z, &[], &[tag, 0, 0]);
        refused("in the arguments", &bytes, number, ARGUMENTS_BODY, 3);
        let bytes = signature_of(Convention::Z, &[], &item(STRUCT, &[tag, 0, 0]));
        refused("in a struct", &bytes, number, ARGUMENTS_BODY + 3, 4);
        let whole = [1, 0, 1, 1, 2, 0, 0, 3, 0, 0];
        for (passed, (place, right)) in (0..).zip([(0, 1), (4, 2), (7, 3)]) {
            let mut bytes = whole;
            bytes[place] = tag;
            match (place, tag) {
                _ if tag == right => accepted("the right tag", &bytes, 3),
                // an ellipsis, and no arguments
                (7, ELLIPSIS) => refused("an ellipsis", &bytes, 2, 10, 3),
                _ => refused("another tag", &bytes, 3, place, passed),
            }
        }
    }
}
