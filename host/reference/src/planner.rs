//! The planner: where each argument of a call stands, and how large the buffers around the call
//! are (document 01, "Places on PPC64" and "Places on Z"; 000, 3.2.3; 001, "Parameter passing";
//! document 02, No. 1, and 003 for AIX; No. 12 for the later edition; No. 5, and 000 under its
//! figure, for variable argument lists).

use crate::table::items;
use crate::types::round_up;
use crate::{read, Convention, Float, Integer, Refusal, Signature, Type};

/// 02, No. 12: "when only f13 is left the editions we hold aren't clear".
pub(crate) const UNCLEAR: u64 = 29;

/// Where a doubleword stands, or on AIX a word. A floating register holds all of a double.
#[derive(Clone, Copy, Debug, PartialEq, Eq)]
pub enum Place {
    /// The general register with this number.
    General(usize),
    /// The floating register with this number.
    Floating(usize),
    /// Memory at this offset: on PPC64 and AIX from the start of the parameter save area, on Z from
    /// the stack pointer, 160 bytes below the parameter area's start.
    Memory(usize),
}

/// Where an argument stands.
#[derive(Clone, Debug, PartialEq, Eq)]
pub struct ArgumentPlan {
    /// Floating registers, then the places of its doublewords, on AIX of its words, in order. Both are
    /// there only with an ellipsis, and then each holds all of it. On Z there is always one place,
    /// which holds the address of an argument that is passed by reference.
    pub places: Vec<Place>,
    /// PPC64 and AIX: the offset in the parameter save area of its first doubleword or word, which
    /// may be in a register nonetheless. Z: its offset on the stack, if it stands there.
    pub offset: Option<usize>,
    /// Where its copy starts in the copy buffer, if it is passed by reference.
    pub copy: Option<usize>,
}

/// Where the result stands.
#[derive(Clone, Debug, PartialEq, Eq)]
pub enum ResultPlan {
    /// There is no result.
    None,
    Registers(Vec<Place>),
    /// In memory of the caller's. Its address is a hidden first argument, in this register.
    Hidden(Place),
}

/// Where everything of a call stands.
#[derive(Clone, Debug, PartialEq, Eq)]
pub struct Plan {
    pub convention: Convention,
    pub ellipsis: bool,
    pub arguments: Vec<ArgumentPlan>,
    pub result: ResultPlan,
    /// The bytes of the parameter area.
    pub area: usize,
    /// The bytes of all arguments' values, without gaps.
    pub values: usize,
    /// The end of the last copy; 0 where nothing is passed by reference.
    pub copies: usize,
}

impl ArgumentPlan {
    pub fn by_reference(&self) -> bool {
        self.copy.is_some()
    }
}

/// A signature's bytes, read and planned. Refusal 29 is given "at that argument's header, after
/// reading"; it has count 0.
pub fn call(bytes: &[u8]) -> Result<(Signature, Plan), Refusal> {
    let signature = read(bytes)?;
    if let Some(number) = first_unclear(&signature) {
        return Err(Refusal {
            number: UNCLEAR,
            place: items(bytes)[number],
            items: 0,
        });
    }
    let plan = plan(&signature);
    Ok((signature, plan))
}

/// The first long double for which only f13 is left, by the later edition.
pub fn first_unclear(signature: &Signature) -> Option<usize> {
    let convention = signature.convention;
    let mut cursor = PowerCursor::default();
    for (number, argument) in signature.arguments.iter().enumerate() {
        if is_unclear(convention, argument, cursor.floats) {
            return Some(number);
        }
        powerpc_argument(convention, signature.ellipsis, argument, &mut cursor);
    }
    None
}

/// Whether only f13 is left for a long double, after so many floating registers.
pub(crate) fn is_unclear(convention: Convention, of: &Type, floats: usize) -> bool {
    floats == 12 && fprs(convention, of) == 2
}

/// Where everything of a call stands that is not refused.
pub fn plan(signature: &Signature) -> Plan {
    match signature.convention {
        Convention::Ppc64 | Convention::Aix | Convention::Ppc64b => plan_powerpc(signature),
        Convention::Z => plan_z(signature),
    }
}

/// The floating registers that an argument asks for on PowerPC: "singles and doubles take f1 to f13
/// in order"; by the later edition "a long double argument takes two successive FPRs instead of
/// GPRs".
fn fprs(convention: Convention, of: &Type) -> usize {
    match (convention, of) {
        (Convention::Z, _) => 0,
        (_, Type::Float(Float::Single | Float::Double)) => 1,
        (Convention::Ppc64b, Type::Float(Float::LongDouble)) => 2,
        _ => 0,
    }
}

/// "The value buffer holds the arguments in order without gaps."
fn values(signature: &Signature) -> usize {
    let sizes = signature.arguments.iter();
    sizes.map(|of| of.size(signature.convention)).sum()
}

/// PPC64 by doublewords and AIX by words, which 02's No. 1 counts alike.
fn plan_powerpc(signature: &Signature) -> Plan {
    let convention = signature.convention;
    let word = convention.word();
    let result = powerpc_result(convention, signature.result.as_ref());
    // "The doubleword count w starts at 0, or at 1 when the result is a struct"; on AIX "a struct
    // result is passed by a hidden first word".
    let mut cursor = PowerCursor {
        words: match result {
            ResultPlan::Hidden(_) => 1,
            _ => 0,
        },
        floats: 0,
    };
    let place = |of| powerpc_argument(convention, signature.ellipsis, of, &mut cursor);
    let arguments = signature.arguments.iter().map(place).collect();
    Plan {
        convention,
        ellipsis: signature.ellipsis,
        arguments,
        result,
        // "The area is 8 times the larger of 8 and the final w"; on AIX "4 times the larger of 8
        // and w".
        area: word * cursor.words.max(8),
        values: values(signature),
        copies: 0,
    }
}

/// What a list of arguments has used so far on PowerPC.
#[derive(Clone, Copy, Default)]
pub(crate) struct PowerCursor {
    /// "The doubleword count w", on AIX of words.
    pub words: usize,
    /// The floating registers.
    pub floats: usize,
}

/// Where the next argument stands; the cursor moves on.
pub(crate) fn powerpc_argument(
    convention: Convention,
    ellipsis: bool,
    argument: &Type,
    cursor: &mut PowerCursor,
) -> ArgumentPlan {
    let word = convention.word();
    let first = cursor.words;
    cursor.words += powerpc_words(convention, argument);
    let words = first..cursor.words;
    let in_list = words.clone().map(|w| powerpc_place(word, w));
    let wanted = fprs(convention, argument);
    let places = if wanted == 0 {
        in_list.collect()
    } else if cursor.floats + wanted <= 13 {
        // "Singles and doubles take f1 to f13 in order, skip their GPR, and aren't stored in memory."
        cursor.floats += wanted;
        let registers = cursor.floats - wanted + 1..=cursor.floats;
        let floating = registers.map(Place::Floating);
        match ellipsis {
            false => floating.collect(),
            // "in its FPR, and as well in its GPR while w < 8 and in memory from w 8 on"
            true => floating.chain(in_list).collect(),
        }
    } else if ellipsis {
        in_list.collect()
    } else {
        // "After f13, memory only."
        words.map(|w| Place::Memory(word * w)).collect()
    };
    ArgumentPlan {
        places,
        offset: Some(word * first),
        copy: None,
    }
}

/// "Sizes in doublewords: whole, single, double 1; long double 2; struct size / 8 rounded up." On
/// AIX "a double or 64-bit whole uses two words", "a single is one word", and wholes and structs fill
/// words "as they fill doublewords".
fn powerpc_words(convention: Convention, of: &Type) -> usize {
    match (convention, of) {
        (Convention::Aix, Type::Integer(Integer::I64 | Integer::U64)) => 2,
        (Convention::Aix, Type::Float(Float::Double)) => 2,
        (_, Type::Integer(_) | Type::Float(Float::Single | Float::Double)) => 1,
        (_, Type::Float(Float::LongDouble)) => 2,
        (_, Type::Struct(_)) => of.size(convention).div_ceil(convention.word()),
    }
}

/// "Each doubleword of a whole, struct or long double goes to r(3+w) while w < 8, then to memory."
fn powerpc_place(word: usize, w: usize) -> Place {
    match w {
        0..=7 => Place::General(3 + w),
        _ => Place::Memory(word * w),
    }
}

/// "Results: whole r3; single or double f1; long double f1, f2." On AIX "r3, 64-bit wholes r3 and
/// r4, floats f1".
fn powerpc_result(convention: Convention, of: Option<&Type>) -> ResultPlan {
    let registers = |places: &[Place]| ResultPlan::Registers(places.to_vec());
    match (convention, of) {
        (_, None) => ResultPlan::None,
        (Convention::Aix, Some(Type::Integer(Integer::I64 | Integer::U64))) => {
            registers(&[Place::General(3), Place::General(4)])
        }
        (_, Some(Type::Integer(_))) => registers(&[Place::General(3)]),
        (_, Some(Type::Float(Float::Single | Float::Double))) => registers(&[Place::Floating(1)]),
        (_, Some(Type::Float(Float::LongDouble))) => {
            registers(&[Place::Floating(1), Place::Floating(2)])
        }
        (_, Some(Type::Struct(_))) => ResultPlan::Hidden(Place::General(3)),
    }
}

/// What is next, in the words of 001's algorithm.
pub(crate) struct ZCursor {
    /// The number of the next general register.
    pub gr: usize,
    /// The number of the next floating register.
    pub fr: usize,
    /// The offset of the next stack argument.
    pub stack: usize,
    /// The end of the last copy.
    pub copies: usize,
}

/// Where the stack arguments start.
pub(crate) const Z_STACK: usize = 160;

fn plan_z(signature: &Signature) -> Plan {
    let result = z_result(signature.result.as_ref());
    // "Counters start at gr 2 (3 with a hidden result address in r2 [..]), fr 0, stack offset 160."
    let mut cursor = ZCursor {
        gr: match result {
            ResultPlan::Hidden(_) => 3,
            _ => 2,
        },
        fr: 0,
        stack: Z_STACK,
        copies: 0,
    };
    let place = |argument| z_argument(argument, &mut cursor);
    let arguments = signature.arguments.iter().map(place).collect();
    Plan {
        convention: Convention::Z,
        // "Z's places stay"
        ellipsis: signature.ellipsis,
        arguments,
        result,
        // "The area is the stack bytes used, possibly 0."
        area: cursor.stack - Z_STACK,
        values: values(signature),
        copies: cursor.copies,
    }
}

/// Where the next argument stands; the cursor moves on.
pub(crate) fn z_argument(argument: &Type, cursor: &mut ZCursor) -> ArgumentPlan {
    let mut copy = None;
    if z_by_reference(argument) {
        // "at the next multiple of 8 in the copy buffer"
        let start = round_up(cursor.copies, 8);
        cursor.copies = start + argument.size(Convention::Z);
        copy = Some(start);
    }
    let place = if float_equivalent(argument).is_some() && cursor.fr <= 6 {
        cursor.fr += 2;
        Place::Floating(cursor.fr - 2)
    } else if float_equivalent(argument).is_none() && cursor.gr <= 6 {
        cursor.gr += 1;
        Place::General(cursor.gr - 1)
    } else {
        cursor.stack += 8;
        Place::Memory(cursor.stack - 8)
    };
    let offset = match place {
        Place::Memory(offset) => Some(offset),
        _ => None,
    };
    ArgumentPlan {
        places: vec![place],
        offset,
        copy,
    }
}

/// "Structs of 1, 2, 4 or 8 bytes go by value; other structs and long double go by pointer to a
/// copy."
fn z_by_reference(of: &Type) -> bool {
    match of {
        Type::Struct(_) => !matches!(of.size(Convention::Z), 1 | 2 | 4 | 8),
        Type::Float(Float::LongDouble) => true,
        _ => false,
    }
}

/// The float that an argument is placed as on Z: "Single, double, or a struct with one field that
/// is either or again such a struct."
pub fn float_equivalent(of: &Type) -> Option<Float> {
    match of {
        Type::Float(Float::LongDouble) | Type::Integer(_) => None,
        Type::Float(float) => Some(*float),
        Type::Struct(fields) => match fields.as_slice() {
            [only] => float_equivalent(only),
            _ => None,
        },
    }
}

/// "Results: whole r2; single or double f0"; else hidden, "for struct or long double".
fn z_result(of: Option<&Type>) -> ResultPlan {
    match of {
        None => ResultPlan::None,
        Some(Type::Integer(_)) => ResultPlan::Registers(vec![Place::General(2)]),
        Some(Type::Float(Float::Single | Float::Double)) => {
            ResultPlan::Registers(vec![Place::Floating(0)])
        }
        Some(Type::Float(Float::LongDouble) | Type::Struct(_)) => {
            ResultPlan::Hidden(Place::General(2))
        }
    }
}

#[cfg(test)]
mod tests {
    use super::Place::{Floating, General, Memory};
    use super::*;

    const I8: Type = Type::Integer(Integer::I8);
    const I32: Type = Type::Integer(Integer::I32);
    const I64: Type = Type::Integer(Integer::I64);
    const U8: Type = Type::Integer(Integer::U8);
    const I16: Type = Type::Integer(Integer::I16);
    const U16: Type = Type::Integer(Integer::U16);
    const U64: Type = Type::Integer(Integer::U64);
    const POINTER: Type = Type::Integer(Integer::Pointer);
    const SINGLE: Type = Type::Float(Float::Single);
    const DOUBLE: Type = Type::Float(Float::Double);
    const LONG_DOUBLE: Type = Type::Float(Float::LongDouble);

    fn structure(fields: &[Type]) -> Type {
        Type::Struct(fields.to_vec())
    }

    fn plan_of(convention: Convention, result: Option<Type>, arguments: &[Type]) -> Plan {
        plan(&Signature {
            convention,
            result,
            ellipsis: false,
            arguments: arguments.to_vec(),
        })
    }

    fn variable(convention: Convention, arguments: &[Type]) -> Plan {
        plan(&Signature {
            convention,
            result: None,
            ellipsis: true,
            arguments: arguments.to_vec(),
        })
    }

    fn ppc64(arguments: &[Type]) -> Plan {
        plan_of(Convention::Ppc64, None, arguments)
    }

    fn z(arguments: &[Type]) -> Plan {
        plan_of(Convention::Z, None, arguments)
    }

    fn aix(arguments: &[Type]) -> Plan {
        plan_of(Convention::Aix, None, arguments)
    }

    /// The places of each argument.
    fn places(plan: &Plan) -> Vec<&[Place]> {
        let arguments = plan.arguments.iter();
        arguments
            .map(|argument| argument.places.as_slice())
            .collect()
    }

    /// The one place of each argument of a plan for Z.
    fn only_places(plan: &Plan) -> Vec<Place> {
        let arguments = plan.arguments.iter();
        arguments.map(|argument| argument.places[0]).collect()
    }

    #[test]
    fn figure_3_18() {
        let s = structure(&[I32, DOUBLE]);
        let plan = plan_of(
            Convention::Ppc64,
            Some(I32),
            &[
                I32,
                DOUBLE,
                I32,
                LONG_DOUBLE,
                s.clone(),
                DOUBLE,
                s,
                I32,
                DOUBLE,
            ],
        );
        let expected: [&[Place]; 9] = [
            &[General(3)],
            &[Floating(1)],
            &[General(5)],
            &[General(6), General(7)],
            &[General(8), General(9)],
            &[Floating(2)],
            &[Memory(64), Memory(72)],
            &[Memory(80)],
            &[Floating(3)],
        ];
        assert_eq!(places(&plan), expected);
        let offsets: Vec<_> = plan.arguments.iter().map(|one| one.offset).collect();
        assert_eq!(
            offsets,
            [0, 8, 16, 24, 40, 56, 64, 80, 88].map(Some).to_vec()
        );
        assert_eq!(plan.result, ResultPlan::Registers(vec![General(3)]));
        assert_eq!((plan.area, plan.values, plan.copies), (96, 84, 0));
    }

    #[test]
    fn table_10() {
        let plan = plan_of(
            Convention::Z,
            Some(I32),
            &[I32, I32, DOUBLE, I32, I32, I64, DOUBLE, DOUBLE, I32],
        );
        let expected = [
            General(2),
            General(3),
            Floating(0),
            General(4),
            General(5),
            General(6),
            Floating(2),
            Floating(4),
            Memory(160),
        ];
        assert_eq!(only_places(&plan), expected);
        assert_eq!(plan.result, ResultPlan::Registers(vec![General(2)]));
        assert_eq!((plan.area, plan.values, plan.copies), (8, 52, 0));
    }

    #[test]
    fn on_ppc64_a_float_uses_up_its_general_register() {
        let plan = ppc64(&[SINGLE, I8, DOUBLE, I8]);
        let expected: [&[Place]; 4] =
            [&[Floating(1)], &[General(4)], &[Floating(2)], &[General(6)]];
        assert_eq!(places(&plan), expected);
    }

    #[test]
    fn on_ppc64_the_fourteenth_float_is_in_memory_alone() {
        let plan = ppc64(&[DOUBLE; 15]);
        assert_eq!(plan.arguments[12].places, [Floating(13)]);
        assert_eq!(plan.arguments[13].places, [Memory(104)]);
        assert_eq!(plan.arguments[14].places, [Memory(112)]);
        assert_eq!(plan.area, 120);
    }

    #[test]
    fn on_ppc64_one_argument_may_straddle() {
        let plan = ppc64(&[structure(&[I64; 7]), LONG_DOUBLE, I8]);
        assert_eq!(plan.arguments[1].places, [General(10), Memory(64)]);
        assert_eq!(plan.arguments[1].offset, Some(56));
        assert_eq!(plan.arguments[2].places, [Memory(72)]);
        assert_eq!((plan.area, plan.values), (80, 73));
        let plan = ppc64(&[structure(&[I64; 7]), structure(&[I64, I64, I8])]);
        let expected = [General(10), Memory(64), Memory(72)];
        assert_eq!(plan.arguments[1].places, expected);
    }

    #[test]
    fn on_ppc64_a_struct_of_one_float_is_a_struct() {
        let plan = ppc64(&[structure(&[DOUBLE]), DOUBLE]);
        let expected: [&[Place]; 2] = [&[General(3)], &[Floating(1)]];
        assert_eq!(places(&plan), expected);
    }

    #[test]
    fn results_on_ppc64() {
        let of = |result| plan_of(Convention::Ppc64, result, &[I8]);
        assert_eq!(of(None).result, ResultPlan::None);
        let registers = |places: &[Place]| ResultPlan::Registers(places.to_vec());
        assert_eq!(of(Some(I8)).result, registers(&[General(3)]));
        assert_eq!(of(Some(SINGLE)).result, registers(&[Floating(1)]));
        assert_eq!(of(Some(DOUBLE)).result, registers(&[Floating(1)]));
        let long_double = of(Some(LONG_DOUBLE));
        assert_eq!(long_double.result, registers(&[Floating(1), Floating(2)]));
        assert_eq!(long_double.arguments[0].places, [General(3)]);
        let hidden = of(Some(structure(&[SINGLE])));
        assert_eq!(hidden.result, ResultPlan::Hidden(General(3)));
        assert_eq!(hidden.arguments[0].places, [General(4)]);
        assert_eq!(hidden.arguments[0].offset, Some(8));
    }

    #[test]
    fn the_smallest_areas() {
        assert_eq!(ppc64(&[]).area, 64);
        assert_eq!(ppc64(&[I8; 8]).area, 64);
        assert_eq!(ppc64(&[I8; 9]).area, 72);
        let hidden = plan_of(Convention::Ppc64, Some(structure(&[I8])), &[I8; 8]);
        assert_eq!(hidden.area, 72);
        assert_eq!(hidden.arguments[7].places, [Memory(64)]);
        assert_eq!(z(&[]).area, 0);
        assert_eq!(z(&[I8; 5]).area, 0);
        assert_eq!(z(&[I8; 6]).area, 8);
        assert_eq!(z(&[SINGLE; 4]).area, 0);
    }

    #[test]
    fn on_z_floats_have_even_numbers_and_their_own_count() {
        let plan = z(&[SINGLE, I8, DOUBLE, SINGLE, DOUBLE, SINGLE, I8, DOUBLE]);
        let expected = [
            Floating(0),
            General(2),
            Floating(2),
            Floating(4),
            Floating(6),
            Memory(160),
            General(3),
            Memory(168),
        ];
        assert_eq!(only_places(&plan), expected);
        assert_eq!(plan.area, 16);
    }

    #[test]
    fn on_z_a_struct_of_one_float_is_placed_as_that_float() {
        assert_eq!(float_equivalent(&SINGLE), Some(Float::Single));
        let nested = structure(&[structure(&[DOUBLE])]);
        assert_eq!(float_equivalent(&nested), Some(Float::Double));
        for other in [
            I32,
            LONG_DOUBLE,
            structure(&[I32]),
            structure(&[SINGLE, SINGLE]),
            structure(&[structure(&[SINGLE]), I8]),
        ] {
            assert_eq!(float_equivalent(&other), None);
        }
        let plan = z(&[nested, structure(&[SINGLE]), structure(&[SINGLE, SINGLE])]);
        assert_eq!(only_places(&plan), [Floating(0), Floating(2), General(2)]);
        assert_eq!(plan.copies, 0);
    }

    #[test]
    fn on_z_structs_of_1_2_4_and_8_bytes_go_by_value_and_others_by_reference() {
        for size in 1..=17 {
            let plan = z(&[structure(&vec![I8; size])]);
            let by_value = [1, 2, 4, 8].contains(&size);
            assert_eq!(plan.arguments[0].by_reference(), !by_value, "{size}");
            assert_eq!(plan.copies, if by_value { 0 } else { size });
            assert_eq!(plan.values, size);
            assert_eq!(only_places(&plan), [General(2)]);
        }
    }

    #[test]
    fn on_z_copies_start_at_multiples_of_8_and_the_end_is_not_rounded() {
        let plan = z(&[
            structure(&[I8; 3]),
            I8,
            LONG_DOUBLE,
            structure(&[I8; 9]),
            structure(&[I8; 5]),
        ]);
        let copies: Vec<_> = plan.arguments.iter().map(|one| one.copy).collect();
        assert_eq!(copies, [Some(0), None, Some(8), Some(24), Some(40)]);
        assert_eq!((plan.copies, plan.values, plan.area), (45, 34, 0));
        let plan = z(&[LONG_DOUBLE; 6]);
        assert_eq!(plan.arguments[5].places, [Memory(160)]);
        assert_eq!(plan.arguments[5].copy, Some(80));
    }

    #[test]
    fn results_on_z() {
        let of = |result| plan_of(Convention::Z, result, &[I8]);
        assert_eq!(of(None).result, ResultPlan::None);
        let registers = |place| ResultPlan::Registers(vec![place]);
        assert_eq!(of(Some(I8)).result, registers(General(2)));
        assert_eq!(of(Some(SINGLE)).result, registers(Floating(0)));
        assert_eq!(of(Some(DOUBLE)).result, registers(Floating(0)));
        // every struct is hidden, also small and float-like ones
        for of_memory in [LONG_DOUBLE, structure(&[I8]), structure(&[DOUBLE])] {
            let hidden = of(Some(of_memory));
            assert_eq!(hidden.result, ResultPlan::Hidden(General(2)));
            assert_eq!(only_places(&hidden), [General(3)]);
        }
    }

    /// 004's worked example, which "passes" c1 in GPR10 and s2 "in the parameter area".
    #[test]
    fn on_aix_the_moo_func_of_004() {
        let arguments = [I32, SINGLE, DOUBLE, I16, DOUBLE, U8, U16, SINGLE, I32];
        let plan = aix(&arguments);
        let expected: [&[Place]; 9] = [
            &[General(3)],
            &[Floating(1)],
            &[Floating(2)],
            &[General(7)],
            &[Floating(3)],
            &[General(10)],
            &[Memory(32)],
            &[Floating(4)],
            &[Memory(40)],
        ];
        assert_eq!(places(&plan), expected);
        let offsets: Vec<_> = plan.arguments.iter().map(|one| one.offset).collect();
        assert_eq!(
            offsets,
            [0, 4, 8, 16, 20, 28, 32, 36, 40].map(Some).to_vec()
        );
        assert_eq!((plan.area, plan.values, plan.copies), (44, 37, 0));
    }

    #[test]
    fn on_aix_a_double_or_a_64_bit_integer_uses_two_words_and_a_pointer_one() {
        let plan = aix(&[POINTER, I64, DOUBLE, I8, U64, U16]);
        let expected: [&[Place]; 6] = [
            &[General(3)],
            // the next two words, no even pair
            &[General(4), General(5)],
            &[Floating(1)],
            &[General(8)],
            &[General(9), General(10)],
            &[Memory(32)],
        ];
        assert_eq!(places(&plan), expected);
        assert_eq!((plan.area, plan.values), (36, 31));
    }

    #[test]
    fn on_aix_one_argument_may_straddle() {
        let plan = aix(&[structure(&[I32; 7]), I64, I8]);
        let expected: [&[Place]; 3] = [
            &[
                General(3),
                General(4),
                General(5),
                General(6),
                General(7),
                General(8),
                General(9),
            ],
            &[General(10), Memory(32)],
            &[Memory(36)],
        ];
        assert_eq!(places(&plan), expected);
        assert_eq!(plan.arguments[1].offset, Some(28));
        // a struct of 5 bytes takes two words
        let plan = aix(&[structure(&[I32; 7]), structure(&[I8; 5])]);
        assert_eq!(plan.arguments[1].places, [General(10), Memory(32)]);
        assert_eq!((plan.area, plan.values), (36, 33));
    }

    #[test]
    fn on_aix_the_fourteenth_float_is_in_memory_alone() {
        let plan = aix(&[&[SINGLE; 13][..], &[DOUBLE, SINGLE]].concat());
        assert_eq!(plan.arguments[12].places, [Floating(13)]);
        assert_eq!(plan.arguments[13].places, [Memory(52), Memory(56)]);
        assert_eq!(plan.arguments[14].places, [Memory(60)]);
        assert_eq!(plan.area, 64);
        // a double that lies on either side of the eighth word has its register
        let plan = aix(&[structure(&[I32; 7]), DOUBLE, I8]);
        assert_eq!(plan.arguments[1].places, [Floating(1)]);
        assert_eq!(plan.arguments[2].places, [Memory(36)]);
    }

    #[test]
    fn results_on_aix() {
        let of = |result| plan_of(Convention::Aix, result, &[I8]);
        assert_eq!(of(None).result, ResultPlan::None);
        let registers = |places: &[Place]| ResultPlan::Registers(places.to_vec());
        for narrow in [I8, I32, POINTER] {
            assert_eq!(of(Some(narrow)).result, registers(&[General(3)]));
        }
        for wide in [I64, U64] {
            assert_eq!(of(Some(wide)).result, registers(&[General(3), General(4)]));
        }
        for float in [SINGLE, DOUBLE] {
            assert_eq!(of(Some(float)).result, registers(&[Floating(1)]));
        }
        let hidden = of(Some(structure(&[SINGLE])));
        assert_eq!(hidden.result, ResultPlan::Hidden(General(3)));
        assert_eq!(hidden.arguments[0].places, [General(4)]);
        assert_eq!(hidden.arguments[0].offset, Some(4));
        let hidden = plan_of(Convention::Aix, Some(structure(&[I8])), &[I8; 8]);
        assert_eq!(hidden.arguments[7].places, [Memory(32)]);
        assert_eq!(
            (hidden.area, aix(&[]).area, aix(&[I8; 8]).area),
            (36, 32, 32)
        );
    }

    #[test]
    fn figure_3_18_by_the_later_edition() {
        let sparm = || structure(&[I32, DOUBLE]);
        let arguments = [
            I32,
            DOUBLE,
            I32,
            LONG_DOUBLE,
            sparm(),
            DOUBLE,
            sparm(),
            I32,
            DOUBLE,
        ];
        let plan = plan_of(Convention::Ppc64b, Some(I32), &arguments);
        // "ld is then in f2 and f3, gg in f4, hh in f5"
        let places = |number: usize| &plan.arguments[number].places[..];
        assert_eq!(places(3), [Floating(2), Floating(3)]);
        assert_eq!(places(4), [General(8), General(9)]);
        assert_eq!(places(5), [Floating(4)]);
        assert_eq!(places(8), [Floating(5)]);
        assert_eq!(plan.area, 96);
    }

    #[test]
    fn only_f13_left_for_a_long_double() {
        let signature = |floats: usize| Signature {
            convention: Convention::Ppc64b,
            result: None,
            ellipsis: false,
            arguments: [&vec![DOUBLE; floats][..], &[LONG_DOUBLE, DOUBLE]].concat(),
        };
        assert_eq!(first_unclear(&signature(11)), None);
        assert_eq!(first_unclear(&signature(12)), Some(12));
        assert_eq!(first_unclear(&signature(13)), None);
        // "with no FPR left it is memory only"
        let plan = plan(&signature(13));
        assert_eq!(plan.arguments[13].places, [Memory(8 * 13), Memory(8 * 14)]);
        let earlier = Signature {
            convention: Convention::Ppc64,
            ..signature(12)
        };
        assert_eq!(first_unclear(&earlier), None);
    }

    /// "In addition to the above, ff is passed in r4 and gg is passed in r10. The floating point
    /// argument hh is passed in two places: the value is stored both in f3 and on the stack."
    #[test]
    fn figure_3_18_with_an_ellipsis() {
        let sparm = || structure(&[I32, DOUBLE]);
        let arguments = [
            I32,
            DOUBLE,
            I32,
            LONG_DOUBLE,
            sparm(),
            DOUBLE,
            sparm(),
            I32,
            DOUBLE,
        ];
        let plan = variable(Convention::Ppc64, &arguments);
        let without = ppc64(&arguments);
        for (number, argument) in plan.arguments.iter().enumerate() {
            let expected = match number {
                1 => vec![Floating(1), General(4)],
                5 => vec![Floating(2), General(10)],
                8 => vec![Floating(3), Memory(88)],
                _ => without.arguments[number].places.clone(),
            };
            assert_eq!(argument.places, expected);
            assert_eq!(argument.offset, without.arguments[number].offset);
        }
        assert_eq!((plan.area, plan.values), (without.area, without.values));
        // "with an ellipsis each doubleword also goes in its GPR while its own w is below 8"
        let later = variable(Convention::Ppc64b, &arguments);
        let expected = [Floating(2), Floating(3), General(6), General(7)];
        assert_eq!(later.arguments[3].places, expected);
        assert_eq!(later.arguments[5].places, [Floating(4), General(10)]);
        assert_eq!(later.arguments[8].places, [Floating(5), Memory(88)]);
    }

    #[test]
    fn with_an_ellipsis_a_float_is_in_its_word_too() {
        // from w 8 on in memory, after f13 there alone
        for convention in [Convention::Ppc64, Convention::Ppc64b, Convention::Aix] {
            let plan = variable(convention, &[SINGLE; 15]);
            let word = convention.word();
            for (w, argument) in plan.arguments.iter().enumerate() {
                let expected = match w {
                    0..=7 => vec![Floating(w + 1), General(w + 3)],
                    8..=12 => vec![Floating(w + 1), Memory(word * w)],
                    _ => vec![Memory(word * w)],
                };
                assert_eq!(argument.places, expected);
            }
        }
        // a double of AIX has two words, which may straddle
        let plan = variable(
            Convention::Aix,
            &[I8, DOUBLE, DOUBLE, DOUBLE, DOUBLE, DOUBLE],
        );
        let doubles: [&[Place]; 5] = [
            &[Floating(1), General(4), General(5)],
            &[Floating(2), General(6), General(7)],
            &[Floating(3), General(8), General(9)],
            &[Floating(4), General(10), Memory(32)],
            &[Floating(5), Memory(36), Memory(40)],
        ];
        assert_eq!(places(&plan)[1..], doubles);
        // a long double of the later edition too
        let arguments = [structure(&[I64; 7]), LONG_DOUBLE];
        let plan = variable(Convention::Ppc64b, &arguments);
        let straddling = [Floating(1), Floating(2), General(10), Memory(64)];
        assert_eq!(plan.arguments[1].places, straddling);
        // the earlier edition has it in words alone
        let plan = variable(Convention::Ppc64, &arguments);
        assert_eq!(plan.arguments[1].places, [General(10), Memory(64)]);
    }

    #[test]
    fn an_ellipsis_changes_nothing_on_z_nor_of_results() {
        let arguments = [
            DOUBLE,
            SINGLE,
            I8,
            LONG_DOUBLE,
            DOUBLE,
            structure(&[SINGLE]),
            DOUBLE,
        ];
        let plan = variable(Convention::Z, &arguments);
        assert_eq!(plan.arguments, z(&arguments).arguments);
        for result in [I32, DOUBLE, LONG_DOUBLE, structure(&[DOUBLE])] {
            for convention in [Convention::Ppc64, Convention::Z, Convention::Ppc64b] {
                let signature = Signature {
                    convention,
                    result: Some(result.clone()),
                    ellipsis: true,
                    arguments: vec![I8],
                };
                let without = plan_of(convention, signature.result.clone(), &[I8]);
                let with = super::plan(&signature);
                assert!(with.ellipsis && !without.ellipsis);
                assert_eq!(with.result, without.result);
                assert_eq!(with.arguments, without.arguments);
            }
        }
    }
}
