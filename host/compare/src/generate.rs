//! Signatures at random: valid ones, valid ones with a rule broken, and bytes damaged by chance.

use crate::encode::{
    self, ARGUMENTS, CONVENTION, ELLIPSIS, FLOAT, FLOATS, INTEGER, INTEGERS, RESULT, STRUCT,
};
use crate::random::Random;
use reference::{first_unclear, struct_size, Convention, Float, Integer, Signature, Type};

const LONGEST_SIGNATURE: usize = 16_384;
pub const MOST_ARGUMENTS: usize = 128;
const DEEPEST_STRUCT: usize = 8;
const LARGEST_STRUCT: usize = 256;
/// The bytes of a signature's three headers and its convention's code, and those of an ellipsis.
const FRAME: usize = 10;
const ELLIPSIS_HEADER: usize = 3;
/// A generated signature has an ellipsis once in so many times.
const VARIABLE: usize = 3;

/// Bytes that mean something somewhere in a signature.
const TELLING_BYTES: [u8; 14] = [
    0x00, 0x01, 0x02, 0x03, 0x04, 0x08, 0x09, 0x0f, 0x10, 0x11, 0x12, 0x13, 0x80, 0xff,
];

/// A signature within all limits.
pub fn valid(random: &mut Random) -> Signature {
    let convention = random.pick(&Convention::ALL);
    valid_for(random, convention)
}

/// A signature within all limits, of this convention.
pub fn valid_for(random: &mut Random, convention: Convention) -> Signature {
    let result = random.once_in(2).then(|| valid_type(random, convention));
    let ellipsis = any_ellipsis(random);
    if random.once_in(100) {
        return longest(random, convention, result, ellipsis);
    }
    let count = match random.below(16) {
        0 => MOST_ARGUMENTS,
        1..=3 => random.below(MOST_ARGUMENTS + 1),
        _ => random.below(9),
    };
    let arguments = (0..count).map(|_| valid_type(random, convention));
    fitting(convention, result, ellipsis, arguments)
}

/// Whether a signature shall have an ellipsis.
pub fn any_ellipsis(random: &mut Random) -> bool {
    random.once_in(VARIABLE)
}

/// A signature of the longest length, or of up to three bytes less: structs of integers, and one
/// that takes what is left.
fn longest(
    random: &mut Random,
    convention: Convention,
    result: Option<Type>,
    ellipsis: bool,
) -> Signature {
    let structure = |count| Type::Struct(vec![Type::Integer(Integer::U8); count]);
    let mut room = room(result.as_ref(), ellipsis);
    let mut arguments = Vec::new();
    loop {
        // the fields of a struct that takes all that is left
        let all = (room - 3) / 4;
        let count = match all <= LARGEST_STRUCT {
            true => all,
            // what is left then is enough for one more
            false => (1 + random.below(LARGEST_STRUCT)).min(all - 2),
        };
        let next = structure(count);
        room -= encode::type_length(&next);
        arguments.push(next);
        if count == all {
            return Signature {
                convention,
                result,
                ellipsis,
                arguments,
            };
        }
    }
}

/// The bytes that the arguments' items may have.
fn room(result: Option<&Type>, ellipsis: bool) -> usize {
    let frame = FRAME + if ellipsis { ELLIPSIS_HEADER } else { 0 };
    LONGEST_SIGNATURE - frame - result.map_or(0, encode::type_length)
}

/// The signature with these types, without the arguments that would make it too long.
pub fn fitting(
    convention: Convention,
    result: Option<Type>,
    ellipsis: bool,
    arguments: impl Iterator<Item = Type>,
) -> Signature {
    let mut room = room(result.as_ref(), ellipsis);
    let fits = |argument: &Type| {
        let rest = room.checked_sub(encode::type_length(argument));
        room = rest.unwrap_or(room);
        rest.is_some()
    };
    let mut signature = Signature {
        convention,
        result,
        ellipsis,
        arguments: arguments.take_while(fits).collect(),
    };
    // up to the first argument that refusal 29 is for
    if let Some(number) = first_unclear(&signature) {
        signature.arguments.truncate(number);
    }
    signature
}

/// A signature that refusal 29 is for: a long double after twelve floats, with integers between them
/// and any arguments behind it.
pub fn unclear(random: &mut Random) -> Signature {
    let convention = Convention::Ppc64b;
    let mut arguments = Vec::new();
    for _ in 0..12 {
        if random.once_in(3) {
            arguments.push(Type::Integer(Integer::I32));
        }
        arguments.push(Type::Float(random.pick(&[Float::Single, Float::Double])));
    }
    arguments.push(Type::Float(Float::LongDouble));
    for _ in 0..random.below(4) {
        arguments.push(valid_type(random, convention));
    }
    Signature {
        convention,
        result: None,
        ellipsis: any_ellipsis(random),
        arguments,
    }
}

/// Gives a signature an ellipsis, where that does not make it too long.
pub fn add_ellipsis(signature: &mut Signature) {
    signature.ellipsis = true;
    signature.ellipsis = encode::signature(signature).len() <= LONGEST_SIGNATURE;
}

/// A type that an argument or a result may have.
pub fn valid_type(random: &mut Random, convention: Convention) -> Type {
    match random.below(16) {
        0..=7 => Type::Integer(random.pick(&INTEGERS)),
        8..=11 => Type::Float(random.pick(floats(convention))),
        12 => {
            let levels = 1 + random.below(DEEPEST_STRUCT);
            nested_struct(random, convention, levels)
        }
        13 => {
            let count = 1 + random.below(80);
            valid_struct(random, convention, count, DEEPEST_STRUCT)
        }
        _ => {
            let count = 1 + random.below(5);
            valid_struct(random, convention, count, DEEPEST_STRUCT)
        }
    }
}

/// The floats that an argument or a result may be: AIX has no long double.
fn floats(convention: Convention) -> &'static [Float] {
    match convention {
        Convention::Ppc64 | Convention::Z | Convention::Ppc64b => &FLOATS,
        Convention::Aix => &FLOATS[..2],
    }
}

/// The floats that a struct may have: on AIX no double.
pub fn field_floats(convention: Convention) -> &'static [Float] {
    match convention {
        Convention::Ppc64 | Convention::Z | Convention::Ppc64b => &FLOATS[..2],
        Convention::Aix => &FLOATS[..1],
    }
}

/// Structs within each other, this many, with a field or two beside.
fn nested_struct(random: &mut Random, convention: Convention, levels: usize) -> Type {
    let mut fields = Vec::new();
    if random.once_in(4) {
        fields.push(scalar_field(random, convention));
    }
    match levels {
        1 => fields.push(scalar_field(random, convention)),
        _ => fields.push(nested_struct(random, convention, levels - 1)),
    }
    if random.once_in(4) {
        fields.push(scalar_field(random, convention));
    }
    Type::Struct(fields)
}

/// A struct of this many fields, or as many of them as are not too large, with room for `depth`
/// levels, its own included.
pub fn valid_struct(
    random: &mut Random,
    convention: Convention,
    count: usize,
    depth: usize,
) -> Type {
    let mut fields = Vec::new();
    for _ in 0..count {
        fields.push(valid_field(random, convention, depth - 1));
        if struct_size(convention, &fields) > LARGEST_STRUCT {
            fields.pop();
            break;
        }
    }
    Type::Struct(fields)
}

/// A field with room for `depth` levels of structs.
fn valid_field(random: &mut Random, convention: Convention, depth: usize) -> Type {
    if depth > 0 && random.once_in(8) {
        let count = 1 + random.below(4);
        return valid_struct(random, convention, count, depth);
    }
    scalar_field(random, convention)
}

fn scalar_field(random: &mut Random, convention: Convention) -> Type {
    match random.below(3) {
        0 => Type::Float(random.pick(field_floats(convention))),
        _ => Type::Integer(random.pick(&INTEGERS)),
    }
}

/// An item that need not follow the rules. Lengths are made when it is turned into bytes, so that
/// breaking one rule does not break the nesting too.
#[derive(Clone)]
struct Loose {
    tag: u8,
    body: Vec<u8>,
    /// Items that follow `body` within this one.
    items: Vec<Loose>,
    /// Bytes that follow `items` within this one.
    rest: Vec<u8>,
    /// What the length is more than the true one.
    length_error: i64,
}

impl Loose {
    fn leaf(tag: u8, body: &[u8]) -> Loose {
        Loose {
            tag,
            body: body.to_vec(),
            items: Vec::new(),
            rest: Vec::new(),
            length_error: 0,
        }
    }

    fn parent(tag: u8, items: Vec<Loose>) -> Loose {
        Loose {
            items,
            ..Loose::leaf(tag, &[])
        }
    }

    fn of_type(of: &Type) -> Loose {
        match of {
            Type::Integer(integer) => Loose::leaf(INTEGER, &[encode::integer_code(*integer)]),
            Type::Float(float) => Loose::leaf(FLOAT, &[encode::float_code(*float)]),
            Type::Struct(fields) => {
                Loose::parent(STRUCT, fields.iter().map(Loose::of_type).collect())
            }
        }
    }

    /// A parent whose own header is never written: its items are the signature's three or four.
    fn of_signature(of: &Signature) -> Loose {
        let code = of.convention.code();
        let result = of.result.iter().map(Loose::of_type).collect();
        let arguments = of.arguments.iter().map(Loose::of_type).collect();
        let mut items = vec![
            Loose::leaf(CONVENTION, &[code]),
            Loose::parent(RESULT, result),
            Loose::parent(ARGUMENTS, arguments),
        ];
        if of.ellipsis {
            items.insert(2, Loose::leaf(ELLIPSIS, &[]));
        }
        Loose::parent(0, items)
    }

    fn write_content(&self, to: &mut Vec<u8>) {
        to.extend_from_slice(&self.body);
        for item in &self.items {
            item.write(to);
        }
        to.extend_from_slice(&self.rest);
    }

    fn write(&self, to: &mut Vec<u8>) {
        to.push(self.tag);
        let length_at = to.len();
        to.extend_from_slice(&[0, 0]);
        self.write_content(to);
        let length = (to.len() - length_at - 2) as i64 + self.length_error;
        let said = length.clamp(0, 0xffff) as u16;
        to[length_at..length_at + 2].copy_from_slice(&said.to_be_bytes());
    }

    /// How many items stand here, this one included.
    fn count(&self) -> usize {
        1 + self.items.iter().map(Loose::count).sum::<usize>()
    }

    /// The item with this number, where each is numbered before those within it.
    fn numbered(&mut self, number: usize) -> &mut Loose {
        if number == 0 {
            return self;
        }
        let mut left = number - 1;
        for item in &mut self.items {
            let count = item.count();
            if left < count {
                return item.numbered(left);
            }
            left -= count;
        }
        unreachable!("the number is below the count")
    }

    /// The numbers of the items that have others within them.
    fn parents(&self, own: usize, to: &mut Vec<usize>) {
        if !self.items.is_empty() {
            to.push(own);
        }
        let mut number = own + 1;
        for item in &self.items {
            item.parents(number, to);
            number += item.count();
        }
    }
}

/// A valid signature with one or two rules broken at random places.
pub fn faulty(random: &mut Random) -> Vec<u8> {
    let mut whole = Loose::of_signature(&valid(random));
    let mut rules = 1 + random.below(2);
    if random.once_in(8) {
        break_ellipsis(random, &mut whole);
        rules -= 1;
    }
    for _ in 0..rules {
        break_some(random, &mut whole);
    }
    let mut bytes = Vec::new();
    whole.write_content(&mut bytes);
    if random.once_in(40) {
        // near the longest that is read
        bytes.resize(LONGEST_SIGNATURE - 4 + random.below(9), random.byte());
    }
    bytes
}

/// The item of a type with one or two rules broken.
pub fn faulty_item(random: &mut Random, convention: Convention) -> Vec<u8> {
    let of = match random.below(3) {
        0 => valid_type(random, convention),
        1 => nested_struct(random, convention, DEEPEST_STRUCT - 1),
        _ => valid_struct(random, convention, 3, DEEPEST_STRUCT),
    };
    let mut whole = Loose::parent(0, vec![Loose::of_type(&of)]);
    for _ in 0..1 + random.below(2) {
        break_some(random, &mut whole);
    }
    let mut bytes = Vec::new();
    whole.write_content(&mut bytes);
    bytes
}

/// Breaks a rule of one of the items within this one.
fn break_some(random: &mut Random, whole: &mut Loose) {
    let mut parents = Vec::new();
    whole.parents(0, &mut parents);
    if random.once_in(2) && !parents.is_empty() {
        let number = random.pick(&parents);
        break_parent(random, whole.numbered(number));
    } else {
        let number = random.below(whole.count());
        break_item(random, whole.numbered(number));
    }
}

/// Breaks a rule that any item has.
fn break_item(random: &mut Random, item: &mut Loose) {
    match random.below(7) {
        0 => item.tag = random.pick(&TELLING_BYTES),
        1 if !item.body.is_empty() => item.body[0] = random.pick(&TELLING_BYTES),
        2 => item.body.push(random.pick(&TELLING_BYTES)),
        3 => {
            item.body.clear();
            item.items.clear();
        }
        4 => {
            for _ in 0..1 + random.below(10) {
                *item = Loose::parent(STRUCT, vec![item.clone()]);
            }
        }
        5 => item.length_error = random.pick(&[-4, -3, -2, -1, 1, 2, 3, 4, 256, 60_000]),
        _ => item.tag = random.byte(),
    }
}

/// Puts an ellipsis, or a second one, among the items of a signature: at its place or not, and with
/// a body or not.
fn break_ellipsis(random: &mut Random, whole: &mut Loose) {
    let at = random.below(whole.items.len() + 1);
    let length = random.pick(&[0, 0, 0, 1, 3]);
    let body: Vec<u8> = (0..length).map(|_| random.pick(&TELLING_BYTES)).collect();
    whole.items.insert(at, Loose::leaf(ELLIPSIS, &body));
}

/// Breaks a rule of an item with others within it.
fn break_parent(random: &mut Random, item: &mut Loose) {
    let at = random.below(item.items.len());
    match random.below(6) {
        // a long double, or a double, which AIX has not inside a struct
        0 => item
            .items
            .insert(at, Loose::leaf(FLOAT, &[random.pick(&[1, 2])])),
        1 | 2 => repeat_items(random, item),
        3 => {
            for _ in 0..1 + random.below(5) {
                item.rest.push(random.pick(&TELLING_BYTES));
            }
        }
        4 => {
            item.items.remove(at);
        }
        _ => {
            let copy = item.items[at].clone();
            item.items.push(copy);
        }
    }
}

/// Repeats the items within this one, up to about three hundred: too many arguments, a struct that
/// is too large, a signature that is too long.
fn repeat_items(random: &mut Random, item: &mut Loose) {
    let pattern = item.items.clone();
    let most = 1 + random.below(300);
    while item.items.len() < most {
        item.items.extend_from_slice(&pattern);
    }
}

/// The bytes with one to four changes that know nothing of signatures.
pub fn damaged(random: &mut Random, bytes: &[u8]) -> Vec<u8> {
    let mut bytes = bytes.to_vec();
    for _ in 0..1 + random.below(4) {
        damage(random, &mut bytes);
    }
    bytes
}

fn damage(random: &mut Random, bytes: &mut Vec<u8>) {
    let at = random.below(bytes.len() + 1);
    match random.below(6) {
        0 => bytes.truncate(at),
        1 => bytes.insert(at, random.pick(&TELLING_BYTES)),
        2 => bytes.insert(at, random.byte()),
        _ if at == bytes.len() => bytes.push(random.byte()),
        3 => bytes[at] ^= 1 << random.below(8),
        4 => bytes[at] = random.pick(&TELLING_BYTES),
        _ => {
            bytes.remove(at);
        }
    }
}

/// Up to 40 bytes of no plan at all, or of those that mean something.
pub fn noise(random: &mut Random) -> Vec<u8> {
    let telling = random.once_in(2);
    (0..random.below(41))
        .map(|_| match telling {
            true => random.pick(&TELLING_BYTES),
            false => random.byte(),
        })
        .collect()
}
