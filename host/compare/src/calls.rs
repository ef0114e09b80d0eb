//! Calls at random: what filling, from stored bytes too, reading, home and view are lent, all in order or with faults of
//! which it is known in which order they are tested.

use crate::encode;
use crate::generate;
use crate::plans;
use crate::random::Random;
use crate::stored;
use reference::float_bits::{narrow, widen};
use reference::{ArgumentPlan, Convention, Float, Place, Plan, ResultPlan, Signature, Type};
use std::collections::BTreeSet;
use std::ops::Range;

const IMAGE: usize = 512;
/// Where the floating registers start in an image.
const FLOATING: usize = 256;
/// Where Z's parameter area starts on the stack.
const Z_STACK: usize = 160;

#[derive(Clone, Copy, Debug, PartialEq, Eq, PartialOrd, Ord)]
pub enum Operation {
    Fill,
    Read,
    Home,
    View,
    FillStored,
}

/// All that one of the operations may be lent. None of them takes everything.
#[derive(Clone, Debug, Default, PartialEq, Eq)]
pub struct Call {
    pub stored: Vec<u8>,
    pub signature: Vec<u8>,
    pub values: Vec<u8>,
    pub image: Vec<u8>,
    pub area: Vec<u8>,
    pub copies: Vec<u8>,
    pub base: u64,
    pub hidden: u64,
    pub index: u64,
}

/// What is wrong with a call, in the order in which it is tested.
#[derive(Clone, Copy, Debug, PartialEq, Eq, PartialOrd, Ord)]
pub enum Fault {
    /// Refusals 1 to 9, 25 and 29.
    Signature,
    /// Stored bytes that are not those of the signature's plan.
    Stale,
    /// Home or view of Z.
    ForZ,
    /// A view of an argument that is not there.
    NoArgument,
    ImageSize,
    ValuesSize,
    AreaTooShort,
    CopiesTooShort,
    /// A base of the copies that is no multiple of 8.
    BaseUnaligned,
    /// Copies that end past the last address.
    BaseTooHigh,
    /// A hidden address on AIX that is needed and has more than 32 bits.
    HiddenTooHigh,
    /// An address that points outside of the copies.
    OutsideCopies,
    /// Other bytes in a float's general registers, at an argument before the one that is no widened
    /// single.
    DiffersBefore,
    NotWidened,
    /// The same at that argument or behind it.
    Differs,
}

impl Fault {
    /// The refusal's number, where there is but one.
    pub fn number(self) -> Option<u64> {
        Some(match self {
            Fault::Signature => return None,
            Fault::Stale => 27,
            Fault::ForZ | Fault::NoArgument => 24,
            Fault::ImageSize => 15,
            Fault::ValuesSize => 10,
            Fault::AreaTooShort => 11,
            Fault::CopiesTooShort
            | Fault::BaseUnaligned
            | Fault::BaseTooHigh
            | Fault::HiddenTooHigh => 12,
            Fault::OutsideCopies => 13,
            Fault::NotWidened => 14,
            Fault::DiffersBefore | Fault::Differs => 26,
        })
    }
}

impl Operation {
    pub const ALL: [Operation; 5] = [
        Operation::Fill,
        Operation::Read,
        Operation::Home,
        Operation::View,
        Operation::FillStored,
    ];

    /// Whether it puts values.
    pub fn fills(self) -> bool {
        matches!(self, Operation::Fill | Operation::FillStored)
    }

    /// The faults that this operation tests, in its order.
    pub fn faults(self) -> &'static [Fault] {
        match self {
            Operation::Fill => &[
                Fault::Signature,
                Fault::ImageSize,
                Fault::ValuesSize,
                Fault::AreaTooShort,
                Fault::CopiesTooShort,
                Fault::BaseUnaligned,
                Fault::BaseTooHigh,
                Fault::HiddenTooHigh,
            ],
            Operation::FillStored => &[
                Fault::Signature,
                Fault::Stale,
                Fault::ImageSize,
                Fault::ValuesSize,
                Fault::AreaTooShort,
                Fault::CopiesTooShort,
                Fault::BaseUnaligned,
                Fault::BaseTooHigh,
                Fault::HiddenTooHigh,
            ],
            Operation::Read => &[
                Fault::Signature,
                Fault::ImageSize,
                Fault::ValuesSize,
                Fault::AreaTooShort,
                Fault::OutsideCopies,
                Fault::DiffersBefore,
                Fault::NotWidened,
                Fault::Differs,
            ],
            Operation::Home => &[
                Fault::Signature,
                Fault::ForZ,
                Fault::ImageSize,
                Fault::AreaTooShort,
                Fault::NotWidened,
            ],
            Operation::View => &[
                Fault::Signature,
                Fault::ForZ,
                Fault::NoArgument,
                Fault::AreaTooShort,
            ],
        }
    }
}

/// A call with what is known of it.
pub struct Case {
    pub call: Call,
    /// What the call's bytes are made for; with `Fault::Signature` the call has another.
    pub signature: Signature,
    pub plan: Plan,
    pub faults: BTreeSet<Fault>,
    /// What is at an edge, and the fault for which it matters; none where it must be accepted.
    pub edges: BTreeSet<(Option<Fault>, &'static str)>,
}

/// A call of this operation, with up to three faults.
pub fn case(random: &mut Random, operation: Operation) -> Case {
    let mut faults = BTreeSet::new();
    for _ in 0..random.pick(&[0, 0, 0, 1, 1, 2, 3]) {
        faults.insert(random.pick(operation.faults()));
    }
    let (signature, plan) = signature_for(random, operation, &mut faults);
    let mut case = Case {
        call: Call {
            signature: encode::signature(&signature),
            values: values(random, &signature),
            image: bytes(random, IMAGE),
            area: bytes(random, plan.area),
            hidden: random.number(),
            ..Call::default()
        },
        signature,
        plan,
        faults,
        edges: BTreeSet::new(),
    };
    match operation {
        Operation::Fill | Operation::FillStored => {
            note_singles(&mut case);
            make_copies_to_fill(random, &mut case);
            make_hidden(random, &mut case);
        }
        Operation::Read => {
            make_contents_to_read(random, &mut case);
        }
        Operation::Home => {
            let not_widened = wrong_floats(random, &mut case).not_widened;
            make_slots_to_read(random, &mut case, &not_widened);
        }
        Operation::View => make_index(random, &mut case),
    }
    make_lengths(random, &mut case);
    if operation == Operation::FillStored {
        make_stored(random, &mut case);
    }
    if case.faults.contains(&Fault::Signature) {
        break_signature(random, &mut case.call);
    }
    case
}

/// A signature for a call with these faults, and its plan. Faults that its calls cannot have are
/// taken away, and those that they must have are added.
fn signature_for(
    random: &mut Random,
    operation: Operation,
    faults: &mut BTreeSet<Fault>,
) -> (Signature, Plan) {
    let mut tries = 0;
    loop {
        let convention = random.pick(conventions_for(operation, faults));
        let mut signature = match random.below(3) {
            0 => generate::valid_for(random, convention),
            _ => plans::interesting_for(random, convention),
        };
        if faults.contains(&Fault::DiffersBefore) || faults.contains(&Fault::Differs) {
            generate::add_ellipsis(&mut signature);
        }
        let plan = reference::plan(&signature);
        let cannot = |fault: &Fault| !can_have(*fault, &signature, &plan);
        tries += 1;
        if tries < 8 && faults.iter().any(cannot) {
            continue;
        }
        faults.retain(|fault| can_have(*fault, &signature, &plan));
        if operation == Operation::View && signature.arguments.is_empty() {
            faults.insert(Fault::NoArgument);
        }
        return (signature, plan);
    }
}

/// The conventions without which the operation cannot have the faults, or must have others.
fn conventions_for(operation: Operation, faults: &BTreeSet<Fault>) -> &'static [Convention] {
    let of_copies = [
        Fault::CopiesTooShort,
        Fault::BaseUnaligned,
        Fault::BaseTooHigh,
        Fault::OutsideCopies,
    ];
    if faults.contains(&Fault::ForZ) {
        return &[Convention::Z];
    }
    if matches!(operation, Operation::Home | Operation::View) {
        return &[Convention::Ppc64, Convention::Aix, Convention::Ppc64b];
    }
    let of_floats = [Fault::DiffersBefore, Fault::NotWidened, Fault::Differs];
    if of_floats.iter().any(|fault| faults.contains(fault)) {
        return &[Convention::Ppc64, Convention::Aix, Convention::Ppc64b];
    }
    if of_copies.iter().any(|fault| faults.contains(fault)) {
        return &[Convention::Z];
    }
    match faults.contains(&Fault::HiddenTooHigh) {
        true => &[Convention::Aix],
        false => &Convention::ALL,
    }
}

/// Whether a call of this signature can have this fault.
fn can_have(fault: Fault, signature: &Signature, plan: &Plan) -> bool {
    match fault {
        Fault::Signature
        | Fault::Stale
        | Fault::ImageSize
        | Fault::ValuesSize
        | Fault::NoArgument => true,
        Fault::ForZ => signature.convention == Convention::Z,
        Fault::AreaTooShort => plan.area > 0,
        Fault::CopiesTooShort | Fault::BaseUnaligned | Fault::OutsideCopies => plan.copies > 0,
        // 8 below 2^64 is the highest multiple of 8
        Fault::BaseTooHigh => plan.copies >= 8,
        Fault::HiddenTooHigh => signature.convention == Convention::Aix && is_hidden(&plan.result),
        Fault::NotWidened => !singles(signature, plan).is_empty(),
        Fault::DiffersBefore | Fault::Differs => !twofold(plan).is_empty(),
    }
}

fn is_hidden(result: &ResultPlan) -> bool {
    matches!(result, ResultPlan::Hidden(_))
}

/// Bytes of no pattern at all.
pub fn bytes(random: &mut Random, length: usize) -> Vec<u8> {
    let mut bytes = Vec::with_capacity(length + 7);
    while bytes.len() < length {
        bytes.extend_from_slice(&random.number().to_be_bytes());
    }
    bytes.truncate(length);
    bytes
}

/// The values of all arguments.
pub fn values(random: &mut Random, signature: &Signature) -> Vec<u8> {
    let mut values = Vec::new();
    for argument in &signature.arguments {
        let size = argument.size(signature.convention);
        let value = match argument {
            Type::Float(Float::Single) => single(random).to_be_bytes().to_vec(),
            Type::Integer(_) if random.once_in(4) => {
                let mut value = vec![random.pick(&[0x00, 0xff]); size];
                value[0] = random.pick(&[0x00, 0x7f, 0x80, 0xff]);
                value
            }
            _ => bytes(random, size),
        };
        values.extend(value);
    }
    values
}

/// A single's bits: of any exponent, or subnormal, or infinite or no number.
fn single(random: &mut Random) -> u32 {
    let bits = random.number() as u32;
    match random.below(4) {
        0 => bits & 0x8000_0000 | (bits & 0x007f_ffff) >> random.below(24),
        1 => bits & 0x803f_ffff | 0x7f80_0000,
        2 => random.pick(&[0, 0x8000_0000, 0x7f80_0000, 0xff80_0000, 0x7f7f_ffff, 1]),
        _ => bits,
    }
}

/// A double's bits that no single widens to.
fn not_widened(random: &mut Random) -> u64 {
    loop {
        let bits = match random.below(4) {
            0 => random.pick(&[0x3ff0_0000_1000_0000, 0x3690_0000_0000_0000]),
            1 => widen(single(random)) ^ 1 << random.below(64),
            2 => widen(single(random)) | 1 << random.below(29),
            _ => random.number(),
        };
        if narrow(bits).is_none() {
            return bits;
        }
    }
}

/// The copy buffer and its base for a call that is filled.
fn make_copies_to_fill(random: &mut Random, case: &mut Case) {
    let end = case.plan.copies;
    if end == 0 {
        // nothing about them is tested
        let length = random.below(20);
        case.call.copies = bytes(random, length);
        case.call.base = random.number();
        return;
    }
    let length = match case.faults.contains(&Fault::CopiesTooShort) {
        true => shorter(random, end),
        false => end + random.pick(&[0, 0, 0, 1, 7, 100]),
    };
    case.call.copies = bytes(random, length);
    if length == end {
        case.edges.insert((None, "copies that just fit"));
    } else if length + 1 == end {
        let edge = "copies that are too short by one";
        case.edges.insert((Some(Fault::CopiesTooShort), edge));
    }
    make_base_to_fill(random, case);
}

fn make_base_to_fill(random: &mut Random, case: &mut Case) {
    // the highest base that leaves the end at most at 2^64 - 1
    let last = u64::MAX - case.plan.copies as u64;
    let highest = last / 8 * 8;
    let (mut base, edge) = match random.below(4) {
        0 => (highest, Some((None, "the highest base"))),
        1 => (0, Some((None, "base 0"))),
        2 => (highest - 8 * (1 + random.below(100) as u64), None),
        _ => (random.number() % highest / 8 * 8, None),
    };
    case.edges.extend(edge);
    if case.faults.contains(&Fault::BaseTooHigh) {
        base = highest + 8;
        if random.once_in(2) {
            let edge = "the lowest base that is too high";
            case.edges.insert((Some(Fault::BaseTooHigh), edge));
        } else {
            base += random.number() % (u64::MAX - base + 1) / 8 * 8;
        }
    }
    if case.faults.contains(&Fault::BaseUnaligned) {
        base = base.max(8) - 1 - random.below(7) as u64;
        if base <= last {
            case.faults.remove(&Fault::BaseTooHigh);
        } else {
            case.faults.insert(Fault::BaseTooHigh);
        }
    }
    case.call.base = base;
}

/// The hidden address: on AIX, where it is needed, of 32 bits.
fn make_hidden(random: &mut Random, case: &mut Case) {
    if case.signature.convention != Convention::Aix {
        return;
    }
    if !is_hidden(&case.plan.result) {
        if case.call.hidden > u64::from(u32::MAX) {
            let edge = "a hidden address over 32 bits that is not needed";
            case.edges.insert((None, edge));
        }
        return;
    }
    let (hidden, edge) = match case.faults.contains(&Fault::HiddenTooHigh) {
        true => match random.below(3) {
            0 => {
                let edge = "the lowest hidden address that is too high";
                (1 << 32, Some((Some(Fault::HiddenTooHigh), edge)))
            }
            1 => (random.number() | 1 << 63, None),
            _ => (1 << 32 | random.number(), None),
        },
        false => match random.below(2) {
            0 => {
                let edge = "the highest hidden address";
                (u64::from(u32::MAX), Some((None, edge)))
            }
            _ => (random.number() >> 32, None),
        },
    };
    case.call.hidden = hidden;
    case.edges.extend(edge);
}

/// The stored bytes of the call's signature, or others.
fn make_stored(random: &mut Random, case: &mut Case) {
    let own =
        reference::stored::bytes(&case.call.signature).expect("a signature within all limits");
    if case.faults.contains(&Fault::Stale) {
        let (stale, edge) = stored::stale(random, &case.signature, &own);
        case.call.stored = stale;
        case.edges.insert((Some(Fault::Stale), edge));
    } else {
        case.call.stored = own;
    }
}

/// What a call that is read finds in its registers, area and copies.
pub(crate) fn make_contents_to_read(random: &mut Random, case: &mut Case) {
    make_copies_to_read(random, case);
    let wrong = wrong_floats(random, case);
    make_slots_to_read(random, case, &wrong.not_widened);
    make_general_to_read(random, case, &wrong);
}

/// A copy buffer and a base for a call that is read: of any length and at any address.
fn make_copies_to_read(random: &mut Random, case: &mut Case) {
    let arguments = case.signature.arguments.iter().zip(&case.plan.arguments);
    let by_reference = arguments.filter(|(_, argument)| argument.by_reference());
    let convention = case.signature.convention;
    let sizes = by_reference.map(|(of, _)| of.size(convention));
    let largest = sizes.max().unwrap_or(0);
    let length = match random.below(4) {
        0 if case.faults.contains(&Fault::OutsideCopies) => random.below(largest),
        0 => largest,
        1 => largest + random.below(20),
        2 => case.plan.copies,
        _ => case.plan.copies + random.below(20),
    };
    case.call.copies = bytes(random, length);
    case.call.base = match random.below(5) {
        0 => 0,
        // the buffer's end near 2^64 or past it
        1 => u64::MAX - random.below(2 * length + 2) as u64,
        2 => random.number() / 8 * 8,
        _ => random.number(),
    };
}

/// The arguments whose slots are tested: those with addresses, or the singles in floating registers of
/// PPC64 and AIX.
fn tested(signature: &Signature, plan: &Plan) -> Vec<usize> {
    let arguments = signature.arguments.iter().zip(&plan.arguments).enumerate();
    let tested = arguments.filter(|(_, (of, argument))| {
        argument.by_reference() || is_widened(signature, of, argument)
    });
    tested.map(|(number, _)| number).collect()
}

/// The singles in floating registers of PPC64 and AIX.
fn singles(signature: &Signature, plan: &Plan) -> Vec<usize> {
    match signature.convention {
        Convention::Z => Vec::new(),
        _ => tested(signature, plan),
    }
}

/// The arguments that stand in floating and in general registers, with an ellipsis.
fn twofold(plan: &Plan) -> Vec<usize> {
    let has = |argument: &ArgumentPlan, of: fn(&Place) -> bool| argument.places.iter().any(of);
    let arguments = plan.arguments.iter().enumerate();
    let twofold = arguments.filter(|(_, argument)| {
        has(argument, |place| matches!(place, Place::Floating(_)))
            && has(argument, |place| matches!(place, Place::General(_)))
    });
    twofold.map(|(number, _)| number).collect()
}

/// The arguments that are wrong in a call: those whose floating register is no widened single, and
/// those whose general registers differ from it.
struct WrongFloats {
    not_widened: Vec<usize>,
    differ: Vec<usize>,
}

/// Chooses them for the faults that the call shall have, and drops those that it cannot have at once:
/// the first of these must come before the others.
fn wrong_floats(random: &mut Random, case: &mut Case) -> WrongFloats {
    let singles = singles(&case.signature, &case.plan);
    let twofold = twofold(&case.plan);
    let wants = |fault: Fault| case.faults.contains(&fault);
    let any = usize::MAX;
    // one of these from the least on and below the end, where the call shall have the fault
    let choose = |random: &mut Random, fault, of: &[usize], least: usize, end: usize| {
        let range = of.iter().filter(|&&number| least <= number && number < end);
        let range: Vec<usize> = range.copied().collect();
        (wants(fault) && !range.is_empty()).then(|| random.pick(&range))
    };
    let last_single = match wants(Fault::NotWidened) {
        true => singles.last().copied().unwrap_or(0),
        false => any,
    };
    let early = choose(random, Fault::DiffersBefore, &twofold, 0, last_single);
    let after_early = early.map_or(0, |number| number + 1);
    let single = choose(random, Fault::NotWidened, &singles, after_early, any);
    let least = single.or(early).unwrap_or(0);
    // often at the very same argument
    let same = single.filter(|number| twofold.contains(number));
    let late = match same {
        Some(_) if wants(Fault::Differs) && random.once_in(2) => same,
        _ => choose(random, Fault::Differs, &twofold, least, any),
    };
    for (fault, chosen) in [
        (Fault::DiffersBefore, early),
        (Fault::NotWidened, single),
        (Fault::Differs, late),
    ] {
        if chosen.is_none() {
            case.faults.remove(&fault);
        }
    }
    if single.is_some() && single == late {
        let edge = "other bytes beside what is no widened single";
        case.edges.insert((Some(Fault::NotWidened), edge));
    }
    // once in a while it is so of all that come later, too
    let everywhere = random.once_in(8);
    let all_from = |chosen: Option<usize>, of: &[usize]| -> Vec<usize> {
        let wrong = |number: &usize| match chosen {
            Some(first) => *number == first || (everywhere && *number > first),
            None => false,
        };
        of.iter().copied().filter(wrong).collect()
    };
    let mut differ = all_from(early, &twofold);
    differ.extend(all_from(late, &twofold));
    WrongFloats {
        not_widened: all_from(single, &singles),
        differ,
    }
}

/// Gives the general registers of each float the bytes of its floating register, but for the faults
/// that the call shall have; the bytes around a single are any, and memory is not looked at.
fn make_general_to_read(random: &mut Random, case: &mut Case, wrong: &WrongFloats) {
    let convention = case.signature.convention;
    for number in twofold(&case.plan) {
        let places = case.plan.arguments[number].places.clone();
        let size = case.signature.arguments[number].size(convention);
        let mut value = Vec::new();
        let mut general = Vec::new();
        for place in places {
            match place {
                Place::Floating(_) => {
                    value.extend_from_slice(slot(&mut case.call, convention, place))
                }
                Place::General(register) => general.push(register),
                Place::Memory(_) => {
                    let edge = "a float in general registers and in memory";
                    case.edges.insert((None, edge));
                }
            }
        }
        if size == 4 {
            let double = u64::from_be_bytes(value.try_into().expect("8 bytes"));
            let single = narrow(double).unwrap_or(double as u32);
            value = single.to_be_bytes().to_vec();
        }
        // each register has as much of the value, at its end
        let own = convention.word().min(size);
        for (register, part) in general.iter().zip(value.chunks(own)) {
            let end = 8 * register + 8;
            case.call.image[end - own..end].copy_from_slice(part);
        }
        if wrong.differ.contains(&number) {
            let register = random.pick(&general);
            let byte = random.below(own);
            case.call.image[8 * register + 8 - own + byte] ^= 1 << random.below(8);
            for fault in [Fault::DiffersBefore, Fault::Differs] {
                if register == 10 && own * general.len() < size {
                    let edge = "other bytes in r10 of a float that goes on in memory";
                    case.edges.insert((Some(fault), edge));
                }
                if general.len() > 1 && register != general[0] {
                    let edge = "other bytes in a float's second register";
                    case.edges.insert((Some(fault), edge));
                }
            }
        }
    }
}

/// Whether the argument is a single in a floating register of PPC64 or AIX.
fn is_widened(signature: &Signature, of: &Type, argument: &ArgumentPlan) -> bool {
    signature.convention != Convention::Z
        && *of == Type::Float(Float::Single)
        && matches!(argument.places[0], Place::Floating(_))
}

/// Puts addresses that point into the copies or widened singles where they are tested, but for
/// the faults that the call shall have, of which `wrong` has the singles.
fn make_slots_to_read(random: &mut Random, case: &mut Case, wrong: &[usize]) {
    let convention = case.signature.convention;
    let tested = tested(&case.signature, &case.plan);
    // an address is wrong at one of them, or once in a while at each
    let everywhere = random.once_in(8);
    let chosen = random.below(tested.len().max(1));
    for (number, &argument) in tested.iter().enumerate() {
        let place = case.plan.arguments[argument].places[0];
        let size = case.signature.arguments[argument].size(convention);
        let faulty = number == chosen || everywhere;
        let bits = match convention {
            Convention::Ppc64 | Convention::Aix | Convention::Ppc64b
                if wrong.contains(&argument) =>
            {
                not_widened(random)
            }
            Convention::Ppc64 | Convention::Aix | Convention::Ppc64b => {
                let single = single(random);
                note_single(case, single);
                widen(single)
            }
            Convention::Z if size > case.call.copies.len() => {
                let edge = "copies shorter than an argument";
                case.edges.insert((Some(Fault::OutsideCopies), edge));
                case.call.base
            }
            Convention::Z if faulty && case.faults.contains(&Fault::OutsideCopies) => {
                outside(random, case, size)
            }
            Convention::Z => inside(random, case, size),
        };
        slot(&mut case.call, convention, place).copy_from_slice(&bits.to_be_bytes());
    }
}

/// Notes the singles that are to be filled into floating registers of PPC64 and AIX.
fn note_singles(case: &mut Case) {
    let mut start = 0;
    let mut singles = Vec::new();
    for (of, argument) in case.signature.arguments.iter().zip(&case.plan.arguments) {
        if is_widened(&case.signature, of, argument) {
            let bytes = case.call.values[start..start + 4].try_into();
            singles.push(u32::from_be_bytes(bytes.expect("four bytes")));
        }
        start += of.size(case.signature.convention);
    }
    for single in singles {
        note_single(case, single);
    }
}

fn note_single(case: &mut Case, single: u32) {
    let edge = match (single >> 23 & 0xff, single & 0x007f_ffff) {
        (0, 1..) => "a subnormal single in a floating register",
        (255, 0) => "an infinite single in a floating register",
        (255, 1..=0x003f_ffff) => "a signaling NaN in a floating register",
        _ => return,
    };
    case.edges.insert((None, edge));
}

/// An address at which this many bytes lie in the copies.
fn inside(random: &mut Random, case: &mut Case, size: usize) -> u64 {
    let (base, length) = (case.call.base, case.call.copies.len());
    let highest = usize::try_from(u64::MAX - base).unwrap_or(usize::MAX);
    let last = (length - size).min(highest);
    let start = match random.below(4) {
        0 => 0,
        1 => last,
        _ => random.below(last + 1),
    };
    if start == length - size {
        case.edges.insert((None, "a copy at the buffer's end"));
    }
    if start % 8 != 0 {
        case.edges.insert((None, "a copy between multiples of 8"));
    }
    if base.checked_add((start + size) as u64).is_none() {
        case.edges.insert((None, "a copy that reaches past 2^64"));
    }
    base + start as u64
}

/// An address at which this many bytes do not all lie in the copies.
fn outside(random: &mut Random, case: &mut Case, size: usize) -> u64 {
    let (base, length) = (case.call.base, case.call.copies.len());
    let past = (length - size) as u64 + 1;
    loop {
        let (address, edge) = match random.below(6) {
            0 => (base.wrapping_sub(1), "an address just below the copies"),
            1 => (base.wrapping_add(past), "an address one too high"),
            2 => {
                let address = base.wrapping_add(length as u64);
                (address, "an address just past the copies")
            }
            3 => (random.below(length + 1) as u64, "a low address"),
            4 => {
                let address = base.wrapping_sub(random.number() % 512);
                (address, "an address below the copies")
            }
            _ => (random.number(), "an address anywhere"),
        };
        let end = u128::from(address) + size as u128;
        if address < base || end > u128::from(base) + length as u128 {
            case.edges.insert((Some(Fault::OutsideCopies), edge));
            return address;
        }
    }
}

/// The 8 bytes of a place whose content is tested: no place of AIX in memory is.
fn slot(call: &mut Call, convention: Convention, place: Place) -> &mut [u8] {
    let part = |start: usize| -> Range<usize> { start..start + 8 };
    match place {
        Place::General(number) => &mut call.image[part(8 * number)],
        Place::Floating(number) => &mut call.image[part(FLOATING + 8 * number)],
        Place::Memory(offset) => match convention {
            Convention::Ppc64 | Convention::Aix | Convention::Ppc64b => {
                &mut call.area[part(offset)]
            }
            Convention::Z => &mut call.area[part(offset - Z_STACK)],
        },
    }
}

/// The index of an argument to view.
fn make_index(random: &mut Random, case: &mut Case) {
    let count = case.signature.arguments.len();
    let (index, edge) = match case.faults.contains(&Fault::NoArgument) {
        false => match random.below(4) {
            0 => (count as u64 - 1, Some((None, "the last argument"))),
            _ => (random.below(count) as u64, None),
        },
        true => match random.below(6) {
            0 => {
                let edge = "the index after the last argument's";
                (count as u64, Some((Some(Fault::NoArgument), edge)))
            }
            1 => (generate::MOST_ARGUMENTS as u64, None),
            2 => {
                // an index that is there, with a bit above it
                let index = random.below(count.max(1)) as u64 | 1 << (8 + random.below(56));
                let edge = "an index of an argument with a bit above";
                (index, Some((Some(Fault::NoArgument), edge)))
            }
            3 => (u64::MAX, None),
            4 => (random.number() | 1 << 63, None),
            _ => ((count + 1 + random.below(10)) as u64, None),
        },
    };
    case.call.index = index;
    case.edges.extend(edge);
}

/// Lengthens the area, and makes the lengths wrong that shall be.
fn make_lengths(random: &mut Random, case: &mut Case) {
    let Call {
        values,
        image,
        area,
        ..
    } = &mut case.call;
    if case.faults.contains(&Fault::ImageSize) {
        resize(random, image, &[0, 8, 256, 504, 511, 513, 520, 1024]);
    }
    if case.faults.contains(&Fault::ValuesSize) {
        let right = values.len();
        let length = match random.below(3) {
            0 if right > 0 => shorter(random, right),
            1 => right + 1,
            _ => right + 1 + random.below(300),
        };
        resize(random, values, &[length]);
        if length + 1 == right || length == right + 1 {
            let edge = "values of one byte too many or too few";
            case.edges.insert((Some(Fault::ValuesSize), edge));
        }
    }
    let right = area.len();
    if case.faults.contains(&Fault::AreaTooShort) {
        let length = shorter(random, right);
        area.truncate(length);
        if length + 1 == right {
            let edge = "an area that is too short by one";
            case.edges.insert((Some(Fault::AreaTooShort), edge));
        }
    } else {
        resize(
            random,
            area,
            &[right, right, right + 1, right + 8, right + 100],
        );
        if area.len() == right {
            case.edges.insert((None, "an area that just fits"));
        }
    }
}

/// A length below `length`, which is above 0: by one, by a doubleword, or by any number.
fn shorter(random: &mut Random, length: usize) -> usize {
    match random.below(4) {
        0 => length.saturating_sub(8),
        1 => random.below(length),
        _ => length - 1,
    }
}

/// Makes the buffer as long as one of these.
fn resize(random: &mut Random, buffer: &mut Vec<u8>, lengths: &[usize]) {
    let length = random.pick(lengths);
    let more = bytes(random, length.saturating_sub(buffer.len()));
    buffer.truncate(length);
    buffer.extend(more);
}

/// Gives the call a signature that is refused: mostly its own with some damage.
fn break_signature(random: &mut Random, call: &mut Call) {
    loop {
        let broken = match random.below(9) {
            0 | 1 => generate::faulty(random),
            // refusal 29
            2 => encode::signature(&generate::unclear(random)),
            3 => of_another_convention(random, &call.signature),
            _ => generate::damaged(random, &call.signature),
        };
        if reference::call(&broken).is_err() {
            call.signature = broken;
            return;
        }
    }
}

/// The same signature with another convention's code: AIX refuses what the others take.
fn of_another_convention(random: &mut Random, signature: &[u8]) -> Vec<u8> {
    let mut other = signature.to_vec();
    other[3] = random.pick(&Convention::ALL).code();
    other
}
