//! Filling and reading on the calls of `data/compiled-calls.txt`, on which code compiled by gcc and
//! clang agreed, for AIX by clang alone: fill makes the registers, area and copies of each byte for
//! byte, read gives its values, and so does a walk over its arguments. Both programs are held to them.

use compare::calls::{Call, Operation};
use compare::compiled_calls::{self, CompiledCall};
use compare::walks::{self, Step};
use compare::{encode, marshal};
use reference::walker::Walker;
use reference::{Convention, Integer, Signature, Type};

/// What both programs do with a call.
fn compared(operation: Operation, name: &str, call: &Call) -> Call {
    match marshal::compare(operation, call, 0) {
        Ok((part, after)) => {
            assert_eq!(part.answer.number, 0, "{operation:?}: {name}");
            after
        }
        Err(difference) => panic!("{name}\n{difference}"),
    }
}

/// What the second program alone does with a call.
fn expected(operation: Operation, name: &str, call: &Call) -> Call {
    let mut after = call.clone();
    let part = marshal::expected(operation, &mut after);
    assert_eq!(part.answer.number, 0, "{operation:?}: {name}");
    after
}

/// Fills the call and reads its values back, with one program or both.
fn holds(call: &CompiledCall, with: fn(Operation, &str, &Call) -> Call) {
    let filled = with(Operation::Fill, &call.name, &call.before);
    assert_eq!(filled, call.after, "{}", call.name);
    let mut to_read = call.after.clone();
    to_read.values.fill(0xa7);
    let read = with(Operation::Read, &call.name, &to_read);
    assert_eq!(read, call.after, "{}", call.name);
}

#[test]
fn the_second_program_alone() {
    for call in compiled_calls::all() {
        holds(&call, expected);
    }
}

#[test]
fn both_programs() {
    for call in compiled_calls::all() {
        holds(&call, compared);
    }
}

/// A walk from the first argument on, with the types of all of them.
#[test]
fn walked_one_by_one() {
    let mut walked = 0;
    for call in compiled_calls::all() {
        let signature = reference::read(&call.after.signature).expect("an accepted signature");
        let start = walks::compare_start(&Walker::default(), &call.after.signature);
        let (_, walker) = start.unwrap_or_else(|difference| panic!("{difference}"));
        let mut step = Step {
            walker,
            call: call.after.clone(),
        };
        let mut values = Vec::new();
        for of in &signature.arguments {
            step.call.signature = encode::type_item(of);
            step.call.values = vec![0xa7; of.size(signature.convention)];
            let (answer, after) = match walks::compare(&step, 0) {
                Ok(compared) => compared,
                Err(difference) => panic!("{}: {difference}", call.name),
            };
            assert_eq!(answer.number, 0, "{}", call.name);
            values.extend_from_slice(&after.call.values);
            step = after;
            walked += 1;
        }
        assert_eq!(values, call.after.values, "{}", call.name);
    }
    assert!(walked > 2_000, "only {walked} arguments");
}

/// Calls described as `docs/COMPILERS.md` advises for long doubles, and as it advised for small
/// structs until they stood as compilers have them.
#[test]
fn described_for_compilers() {
    let calls = compiled_calls::described();
    assert_eq!(calls.len(), 92);
    for call in calls {
        holds(&call, expected);
        holds(&call, compared);
    }
}

/// A call with small structs is filled in the same way where these are described as integers.
#[test]
fn small_structs_and_their_description_as_integers() {
    let described = compiled_calls::described();
    let mut both = 0;
    for call in compiled_calls::all() {
        let this = &call.after;
        let as_integers = |other: &&CompiledCall| {
            other.text == call.text && other.after.signature != this.signature
        };
        let Some(other) = described.iter().find(as_integers) else {
            continue;
        };
        let other = &other.after;
        assert_eq!(this.image, other.image, "{}", call.name);
        assert_eq!(this.area, other.area, "{}", call.name);
        both += 1;
    }
    assert_eq!(both, 19);
}

/// Fills a call of PPC64 whose last argument is of this type, after `before` pointers, and homes it:
/// its registers and area, the values that are read, and where the view of the last argument is.
fn filled(of: Type, value: &[u8], before: usize) -> (Call, Vec<u8>, [u64; 2]) {
    let index = before as u64;
    let signature = Signature {
        convention: Convention::Ppc64,
        result: None,
        ellipsis: false,
        arguments: [vec![Type::Integer(Integer::Pointer); before], vec![of]].concat(),
    };
    let name = format!("{:?} after {before} pointers", signature.arguments[before]);
    let call = Call {
        signature: encode::signature(&signature),
        values: [&vec![0x5a; 8 * before][..], value].concat(),
        image: vec![0xa7; 512],
        area: vec![0xa7; 128],
        index,
        ..Call::default()
    };
    let filled = compared(Operation::Fill, &name, &call);
    let read = compared(Operation::Read, &name, &filled);
    let homed = compared(Operation::Home, &name, &filled);
    let (part, _) = marshal::compare(Operation::View, &homed, 0).expect("no difference");
    assert_eq!(part.answer.number, 0, "{name}");
    let own = part.start as usize..(part.start + part.length) as usize;
    assert_eq!(&homed.area[own], value, "{name}");
    (homed, read.values, [part.start, part.length])
}

/// A struct of 1, 2 or 4 bytes and an unsigned integer of that size are one and the same in every
/// register and in memory; one of 3, 5, 6 or 7 has the bytes of a `u64` with zeros above them.
#[test]
fn a_small_struct_is_passed_as_an_unsigned_integer() {
    let bytes = [0x81, 0x92, 0xa3, 0xb4, 0xc5, 0xd6, 0xe7];
    for size in 1..=7 {
        let value = &bytes[..size];
        let (integer, as_integer) = match size {
            1 => (Integer::U8, value.to_vec()),
            2 => (Integer::U16, value.to_vec()),
            4 => (Integer::U32, value.to_vec()),
            _ => (Integer::U64, [&vec![0; 8 - size][..], value].concat()),
        };
        for before in [0, 1, 7, 8, 9] {
            let of = Type::Struct(vec![Type::Integer(Integer::U8); size]);
            let (this, values, part) = filled(of, value, before);
            let of = Type::Integer(integer);
            let (other, other_values, other_part) = filled(of, &as_integer, before);
            assert_eq!(this.image, other.image);
            assert_eq!(this.area, other.area);
            if as_integer.len() == size {
                assert_eq!((values, part), (other_values, other_part));
            }
        }
    }
}

#[test]
fn the_file_has_what_it_is_for() {
    let calls = compiled_calls::all();
    let conventions = |of: Convention| {
        let of_this = |call: &&CompiledCall| {
            let signature = reference::read(&call.before.signature).expect("an accepted signature");
            signature.convention == of
        };
        calls.iter().filter(of_this).count()
    };
    // of the prototypes, and of those with an ellipsis or not in scope
    assert_eq!(conventions(Convention::Ppc64), 44 + 19 + 25);
    assert_eq!(conventions(Convention::Z), 84 + 25);
    assert_eq!(conventions(Convention::Aix), 79 + 18);
    assert_eq!(conventions(Convention::Ppc64b), 51 + 22 + 31);
    let count = |of: fn(&CompiledCall) -> bool| calls.iter().filter(|call| of(call)).count();
    assert_eq!(count(|call| !call.before.copies.is_empty()), 55 + 18);
    assert!(count(|call| call.before.hidden != 0) >= 20);
    assert!(count(|call| call.before.area != call.after.area) >= 40);
}
