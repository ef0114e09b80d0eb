//! The types that a signature names, with their sizes and alignments (document 01, "A signature's
//! bytes"; document 02, No. 1: on AIX "pointers are 4 bytes").

/// The calling convention that a signature is for.
#[derive(Clone, Copy, Debug, PartialEq, Eq)]
pub enum Convention {
    Ppc64,
    Z,
    /// 02, No. 1: "32-bit AIX, source document 003".
    Aix,
    /// 02, No. 12: "PPC64 with that rule", by which a long double argument takes two FPRs.
    Ppc64b,
}

impl Convention {
    pub const ALL: [Convention; 4] = [
        Convention::Ppc64,
        Convention::Z,
        Convention::Aix,
        Convention::Ppc64b,
    ];

    /// The number that a signature and a machine name it by.
    pub fn code(self) -> u8 {
        match self {
            Convention::Ppc64 => 1,
            Convention::Z => 2,
            Convention::Aix => 3,
            Convention::Ppc64b => 4,
        }
    }

    /// The convention of a code, where there is one.
    pub fn of_code(code: u64) -> Option<Convention> {
        let all = Convention::ALL.into_iter();
        all.into_iter().find(|one| u64::from(one.code()) == code)
    }

    /// The bytes of a general register, in which arguments and save slots are counted: doublewords,
    /// and on AIX words ("registers are 4 bytes wide").
    pub fn word(self) -> usize {
        match self {
            Convention::Ppc64 | Convention::Z | Convention::Ppc64b => 8,
            Convention::Aix => 4,
        }
    }
}

/// Document 01's "whole number" types.
#[derive(Clone, Copy, Debug, PartialEq, Eq)]
pub enum Integer {
    I8,
    U8,
    I16,
    U16,
    I32,
    U32,
    I64,
    U64,
    Pointer,
}

#[derive(Clone, Copy, Debug, PartialEq, Eq)]
pub enum Float {
    Single,
    Double,
    LongDouble,
}

#[derive(Clone, Debug, PartialEq, Eq)]
pub enum Type {
    Integer(Integer),
    Float(Float),
    /// The fields, in order.
    Struct(Vec<Type>),
}

/// What an accepted signature says.
#[derive(Clone, Debug, PartialEq, Eq)]
pub struct Signature {
    pub convention: Convention,
    /// `None`: the function gives no result.
    pub result: Option<Type>,
    /// 02, No. 5: "an optional tag 0x04, empty body, between result and arguments, meaning an
    /// ellipsis".
    pub ellipsis: bool,
    pub arguments: Vec<Type>,
}

impl Type {
    /// The bytes that a value of this type takes.
    pub fn size(&self, convention: Convention) -> usize {
        match self {
            Type::Integer(Integer::I8 | Integer::U8) => 1,
            Type::Integer(Integer::I16 | Integer::U16) => 2,
            Type::Integer(Integer::I32 | Integer::U32) => 4,
            Type::Integer(Integer::I64 | Integer::U64) => 8,
            // as wide as a general register
            Type::Integer(Integer::Pointer) => convention.word(),
            Type::Float(Float::Single) => 4,
            Type::Float(Float::Double) => 8,
            Type::Float(Float::LongDouble) => 16,
            Type::Struct(fields) => struct_size(convention, fields),
        }
    }

    /// "Field alignment is the field's size, for a struct its largest field alignment."
    pub fn alignment(&self, convention: Convention) -> usize {
        match self {
            Type::Struct(fields) => struct_alignment(convention, fields),
            other => other.size(convention),
        }
    }

    /// The items that say this type: its own and, for a struct, those of its fields.
    pub fn items(&self) -> usize {
        match self {
            Type::Struct(fields) => 1 + fields.iter().map(Type::items).sum::<usize>(),
            _ => 1,
        }
    }
}

impl Signature {
    /// The count that an accepted reading reports: the three items of the signature itself, that of
    /// an ellipsis, and all items nested in them.
    pub fn items(&self) -> usize {
        let result = self.result.as_ref().map_or(0, Type::items);
        let arguments = self.arguments.iter().map(Type::items).sum::<usize>();
        3 + result + usize::from(self.ellipsis) + arguments
    }
}

/// The size of a struct with these fields, each at the next multiple of its alignment: "a struct's
/// size is rounded up to its alignment".
pub fn struct_size(convention: Convention, fields: &[Type]) -> usize {
    let mut end = 0;
    for field in fields {
        end = round_up(end, field.alignment(convention)) + field.size(convention);
    }
    round_up(end, struct_alignment(convention, fields))
}

fn struct_alignment(convention: Convention, fields: &[Type]) -> usize {
    let alignments = fields.iter().map(|field| field.alignment(convention));
    alignments.max().unwrap_or(1)
}

/// The next multiple of `step`, or the number itself where it is one.
pub(crate) fn round_up(number: usize, step: usize) -> usize {
    number.div_ceil(step) * step
}

#[cfg(test)]
mod tests {
    use super::*;

    const I8: Type = Type::Integer(Integer::I8);
    const I16: Type = Type::Integer(Integer::I16);
    const I32: Type = Type::Integer(Integer::I32);
    const I64: Type = Type::Integer(Integer::I64);
    const POINTER: Type = Type::Integer(Integer::Pointer);
    const DOUBLE: Type = Type::Float(Float::Double);
    const Z: Convention = Convention::Z;

    #[test]
    fn scalars_have_the_sizes_of_their_names() {
        let integers = [
            (Integer::I8, 1),
            (Integer::U8, 1),
            (Integer::I16, 2),
            (Integer::U16, 2),
            (Integer::I32, 4),
            (Integer::U32, 4),
            (Integer::I64, 8),
            (Integer::U64, 8),
        ];
        for convention in Convention::ALL {
            for (integer, size) in integers {
                let of = Type::Integer(integer);
                assert_eq!(of.size(convention), size);
                assert_eq!(of.alignment(convention), size);
            }
            for (float, size) in [
                (Float::Single, 4),
                (Float::Double, 8),
                (Float::LongDouble, 16),
            ] {
                let of = Type::Float(float);
                assert_eq!(of.size(convention), size);
                assert_eq!(of.alignment(convention), size);
            }
        }
    }

    #[test]
    fn a_pointer_has_the_size_of_a_general_register() {
        for (convention, size) in [
            (Convention::Ppc64, 8),
            (Convention::Z, 8),
            (Convention::Aix, 4),
        ] {
            assert_eq!(POINTER.size(convention), size);
            assert_eq!(POINTER.alignment(convention), size);
            let with_byte = Type::Struct(vec![I8, POINTER, I8]);
            assert_eq!(with_byte.size(convention), 3 * size);
        }
        // 64-bit integers keep their alignment
        let wide = Type::Struct(vec![I32, I64, POINTER]);
        assert_eq!(wide.size(Convention::Aix), 24);
        assert_eq!(wide.alignment(Convention::Aix), 8);
    }

    #[test]
    fn codes_name_the_conventions() {
        for (code, convention) in Convention::ALL.into_iter().enumerate() {
            assert_eq!(usize::from(convention.code()), code + 1);
            assert_eq!(Convention::of_code(code as u64 + 1), Some(convention));
        }
        for none in [0, 5, 257, u64::MAX] {
            assert_eq!(Convention::of_code(none), None);
        }
    }

    #[test]
    fn fields_stand_at_multiples_of_their_alignment() {
        assert_eq!(Type::Struct(vec![I8, I16]).size(Z), 4);
        assert_eq!(Type::Struct(vec![I8, I32, I8]).size(Z), 12);
        assert_eq!(Type::Struct(vec![I8, I64]).size(Z), 16);
        assert_eq!(Type::Struct(vec![I32, DOUBLE]).size(Z), 16);
        assert_eq!(Type::Struct(vec![I8, I8, I8]).size(Z), 3);
    }

    #[test]
    fn a_struct_within_a_struct_keeps_its_rounded_size_and_its_alignment() {
        let inner = Type::Struct(vec![I16, I8]);
        assert_eq!((inner.size(Z), inner.alignment(Z)), (4, 2));
        let outer = Type::Struct(vec![I8, inner, I8]);
        assert_eq!((outer.size(Z), outer.alignment(Z)), (8, 2));
        let wide = Type::Struct(vec![I8, Type::Struct(vec![I64, I8]), I8]);
        assert_eq!((wide.size(Z), wide.alignment(Z)), (32, 8));
    }

    #[test]
    fn items_count_the_headers_of_nested_types() {
        let deep = Type::Struct(vec![Type::Struct(vec![I8]), I8]);
        assert_eq!(deep.items(), 4);
        let signature = Signature {
            convention: Convention::Z,
            result: Some(deep.clone()),
            ellipsis: false,
            arguments: vec![I8, deep],
        };
        assert_eq!(signature.items(), 3 + 4 + 5);
        let variable = Signature {
            ellipsis: true,
            ..signature
        };
        assert_eq!(variable.items(), 3 + 4 + 1 + 5);
    }
}
