//! A plan in print (document 01, "Sums to check against").

use crate::{call, Convention, Place, Plan, Refusal, ResultPlan};

/// The listing of a signature's plan, or the line that says why it is refused.
pub fn listing(bytes: &[u8]) -> String {
    match call(bytes) {
        Ok((_, plan)) => listing_of(&plan),
        Err(refusal) => refusal_line(&refusal),
    }
}

/// "The printed line becomes `refused 2 at 0 after 0`", and a newline as after every line.
pub fn refusal_line(refusal: &Refusal) -> String {
    let Refusal {
        number,
        place,
        items,
    } = refusal;
    format!("refused {number} at {place} after {items}\n")
}

/// A plan in print.
pub fn listing_of(plan: &Plan) -> String {
    let convention = match plan.convention {
        Convention::Ppc64 => "PPC64",
        Convention::Z => "Z",
        Convention::Aix => "AIX",
        Convention::Ppc64b => "PPC64B",
    };
    let count = plan.arguments.len();
    // "adds ` var` at the end of its first line"
    let var = if plan.ellipsis { " var" } else { "" };
    let mut text = format!("{convention} args {count} area {}{var}\n", plan.area);
    for (number, argument) in plan.arguments.iter().enumerate() {
        text.push_str(&number.to_string());
        push_places(&argument.places, &mut text);
        if let Some(offset) = argument.offset {
            text.push_str(&format!(" @{offset}"));
        }
        if argument.by_reference() {
            text.push_str(" ref");
        }
        text.push('\n');
    }
    text.push_str("result");
    match &plan.result {
        ResultPlan::None => text.push_str(" none"),
        ResultPlan::Registers(places) => push_places(places, &mut text),
        ResultPlan::Hidden(place) => {
            text.push_str(" hidden");
            push_places(&[*place], &mut text);
        }
    }
    text.push('\n');
    text
}

/// The registers, "FPRs before GPRs before `mem`", which comes once, however many doublewords or words
/// lie in memory.
fn push_places(places: &[Place], text: &mut String) {
    let mut in_memory = false;
    for place in places {
        match place {
            Place::General(number) => text.push_str(&format!(" r{number}")),
            Place::Floating(number) => text.push_str(&format!(" f{number}")),
            Place::Memory(_) => in_memory = true,
        }
    }
    // whatever lies in memory lies behind what is in registers
    if in_memory {
        text.push_str(" mem");
    }
}

#[cfg(test)]
mod tests {
    use super::*;
    use crate::{Float, Integer, Signature, Type};

    const I32: Type = Type::Integer(Integer::I32);
    const I64: Type = Type::Integer(Integer::I64);
    const DOUBLE: Type = Type::Float(Float::Double);
    const LONG_DOUBLE: Type = Type::Float(Float::LongDouble);

    fn printed(convention: Convention, result: Option<Type>, arguments: Vec<Type>) -> String {
        listing_of(&crate::plan(&Signature {
            convention,
            result,
            ellipsis: false,
            arguments,
        }))
    }

    #[test]
    fn figure_3_18_as_the_document_prints_it() {
        let s = Type::Struct(vec![I32, DOUBLE]);
        let arguments = vec![
            I32,
            DOUBLE,
            I32,
            LONG_DOUBLE,
            s.clone(),
            DOUBLE,
            s,
            I32,
            DOUBLE,
        ];
        let expected = "\
PPC64 args 9 area 96
0 r3 @0
1 f1 @8
2 r5 @16
3 r6 r7 @24
4 r8 r9 @40
5 f2 @56
6 mem @64
7 mem @80
8 f3 @88
result r3
";
        assert_eq!(printed(Convention::Ppc64, Some(I32), arguments), expected);
    }

    #[test]
    fn table_10() {
        let arguments = vec![I32, I32, DOUBLE, I32, I32, I64, DOUBLE, DOUBLE, I32];
        let expected = "\
Z args 9 area 8
0 r2
1 r3
2 f0
3 r4
4 r5
5 r6
6 f2
7 f4
8 mem @160
result r2
";
        assert_eq!(printed(Convention::Z, Some(I32), arguments), expected);
    }

    #[test]
    fn an_argument_that_straddles_names_its_first_doublewords_offset() {
        let arguments = vec![
            Type::Struct(vec![I64; 7]),
            Type::Struct(vec![I64; 3]),
            LONG_DOUBLE,
        ];
        let expected = "\
PPC64 args 3 area 96
0 r3 r4 r5 r6 r7 r8 r9 @0
1 r10 mem @56
2 mem @80
result none
";
        assert_eq!(printed(Convention::Ppc64, None, arguments), expected);
    }

    #[test]
    fn by_reference_on_z() {
        let mut arguments = vec![LONG_DOUBLE, I32, Type::Struct(vec![I64; 2])];
        arguments.extend([DOUBLE, I64, I64, LONG_DOUBLE]);
        let expected = "\
Z args 7 area 16
0 r3 ref
1 r4
2 r5 ref
3 f0
4 r6
5 mem @160
6 mem @168 ref
result hidden r2
";
        let result = Some(LONG_DOUBLE);
        assert_eq!(printed(Convention::Z, result, arguments), expected);
    }

    #[test]
    fn the_other_results() {
        let last = |convention, result| {
            let text = printed(convention, result, vec![]);
            text.lines().last().map(str::to_string).unwrap()
        };
        let structure = || Some(Type::Struct(vec![I32]));
        assert_eq!(last(Convention::Ppc64, None), "result none");
        assert_eq!(last(Convention::Ppc64, Some(DOUBLE)), "result f1");
        assert_eq!(last(Convention::Ppc64, Some(LONG_DOUBLE)), "result f1 f2");
        assert_eq!(last(Convention::Ppc64, structure()), "result hidden r3");
        assert_eq!(last(Convention::Z, None), "result none");
        assert_eq!(last(Convention::Z, Some(DOUBLE)), "result f0");
        assert_eq!(last(Convention::Z, structure()), "result hidden r2");
    }

    #[test]
    fn on_aix_by_words() {
        let arguments = vec![
            I64,
            DOUBLE,
            Type::Struct(vec![I32; 3]),
            I64,
            Type::Struct(vec![I32; 2]),
        ];
        let expected = "\
AIX args 5 area 44
0 r3 r4 @0
1 f1 @8
2 r7 r8 r9 @16
3 r10 mem @28
4 mem @36
result r3 r4
";
        assert_eq!(printed(Convention::Aix, Some(I64), arguments), expected);
        let hidden = printed(Convention::Aix, Some(Type::Struct(vec![I32])), vec![I32]);
        assert_eq!(hidden, "AIX args 1 area 32\n0 r4 @4\nresult hidden r3\n");
    }

    #[test]
    fn with_an_ellipsis() {
        let variable = |convention, arguments| {
            listing_of(&crate::plan(&Signature {
                convention,
                result: Some(I32),
                ellipsis: true,
                arguments,
            }))
        };
        let s = Type::Struct(vec![I32, DOUBLE]);
        let arguments = vec![
            I32,
            DOUBLE,
            I32,
            LONG_DOUBLE,
            s.clone(),
            DOUBLE,
            s,
            I32,
            DOUBLE,
        ];
        let expected = "\
PPC64B args 9 area 96 var
0 r3 @0
1 f1 r4 @8
2 r5 @16
3 f2 f3 r6 r7 @24
4 r8 r9 @40
5 f4 r10 @56
6 mem @64
7 mem @80
8 f5 mem @88
result r3
";
        assert_eq!(variable(Convention::Ppc64b, arguments), expected);
        let arguments = vec![I64, I32, DOUBLE, I64, DOUBLE];
        let expected = "\
AIX args 5 area 36 var
0 r3 r4 @0
1 r5 @8
2 f1 r6 r7 @12
3 r8 r9 @20
4 f2 r10 mem @28
result r3
";
        assert_eq!(variable(Convention::Aix, arguments), expected);
        let expected = "Z args 2 area 0 var\n0 f0\n1 r2\nresult r2\n";
        assert_eq!(variable(Convention::Z, vec![DOUBLE, I32]), expected);
    }

    #[test]
    fn a_refusal() {
        assert_eq!(listing(&[]), "refused 2 at 0 after 0\n");
        assert_eq!(listing(&[0; 16_385]), "refused 1 at 0 after 0\n");
        let bytes = [1, 0, 1, 1, 2, 0, 0, 3, 0, 0, 0];
        assert_eq!(listing(&bytes), "refused 9 at 10 after 3\n");
    }

    #[test]
    fn a_signature_without_arguments() {
        let bytes = [1, 0, 1, 1, 2, 0, 0, 3, 0, 0];
        assert_eq!(listing(&bytes), "PPC64 args 0 area 64\nresult none\n");
    }
}
