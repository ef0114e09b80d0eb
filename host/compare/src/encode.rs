//! Signatures as bytes: the opposite of the second program's reader, for the generators.

use reference::{Convention, Float, Integer, Signature, Type};

pub const CONVENTION: u8 = 0x01;
pub const RESULT: u8 = 0x02;
pub const ARGUMENTS: u8 = 0x03;
pub const ELLIPSIS: u8 = 0x04;
pub const INTEGER: u8 = 0x10;
pub const FLOAT: u8 = 0x11;
pub const STRUCT: u8 = 0x12;

/// The integer types, each at the index of its code.
pub const INTEGERS: [Integer; 9] = [
    Integer::I8,
    Integer::U8,
    Integer::I16,
    Integer::U16,
    Integer::I32,
    Integer::U32,
    Integer::I64,
    Integer::U64,
    Integer::Pointer,
];

/// The float types, each at the index of its code.
pub const FLOATS: [Float; 3] = [Float::Single, Float::Double, Float::LongDouble];

pub fn integer_code(integer: Integer) -> u8 {
    let code = INTEGERS.iter().position(|&other| other == integer);
    code.expect("the table has every integer type") as u8
}

pub fn float_code(float: Float) -> u8 {
    let code = FLOATS.iter().position(|&other| other == float);
    code.expect("the table has every float type") as u8
}

/// An item with its body's own length, which fits two bytes.
pub fn item(tag: u8, body: &[u8]) -> Vec<u8> {
    let mut bytes = header(tag, body.len()).to_vec();
    bytes.extend_from_slice(body);
    bytes
}

fn header(tag: u8, length: usize) -> [u8; 3] {
    let length = u16::try_from(length).expect("a body that its length can say");
    let [high, low] = length.to_be_bytes();
    [tag, high, low]
}

pub fn type_item(of: &Type) -> Vec<u8> {
    type_items(std::slice::from_ref(of))
}

pub fn type_items(of: &[Type]) -> Vec<u8> {
    let mut bytes = Vec::with_capacity(of.iter().map(type_length).sum());
    for each in of {
        write_type(each, &mut bytes);
    }
    bytes
}

/// The length of a type's item.
pub fn type_length(of: &Type) -> usize {
    match of {
        Type::Integer(_) | Type::Float(_) => 4,
        Type::Struct(fields) => 3 + fields.iter().map(type_length).sum::<usize>(),
    }
}

fn write_type(of: &Type, to: &mut Vec<u8>) {
    match of {
        Type::Integer(integer) => to.extend([INTEGER, 0, 1, integer_code(*integer)]),
        Type::Float(float) => to.extend([FLOAT, 0, 1, float_code(*float)]),
        Type::Struct(fields) => {
            to.extend(header(STRUCT, type_length(of) - 3));
            for field in fields {
                write_type(field, to);
            }
        }
    }
}

/// A signature with these bodies of its result and its arguments, well formed or not.
pub fn signature_of(convention: Convention, result: &[u8], arguments: &[u8]) -> Vec<u8> {
    signature_around(convention, result, &[], arguments)
}

/// The same with an ellipsis.
pub fn variable_signature_of(convention: Convention, result: &[u8], arguments: &[u8]) -> Vec<u8> {
    signature_around(convention, result, &item(ELLIPSIS, &[]), arguments)
}

/// The same with these bytes between result and arguments.
pub fn signature_around(
    convention: Convention,
    result: &[u8],
    between: &[u8],
    arguments: &[u8],
) -> Vec<u8> {
    [
        &item(CONVENTION, &[convention.code()])[..],
        &item(RESULT, result),
        between,
        &item(ARGUMENTS, arguments),
    ]
    .concat()
}

pub fn signature(of: &Signature) -> Vec<u8> {
    let result = of.result.as_ref().map_or(Vec::new(), type_item);
    let with = match of.ellipsis {
        true => variable_signature_of,
        false => signature_of,
    };
    with(of.convention, &result, &type_items(&of.arguments))
}
