//! The walker compared: answers, its six words, and every byte that is lent, on single steps of any
//! walker, with faults of which it is known in which order they are tested, and on whole walks over
//! what was filled and past it.

use crate::calls::{self, Call, Case, Fault as Content};
use crate::encode;
use crate::generate;
use crate::marshal::Lent;
use crate::met::Met;
use crate::plans;
use crate::random::Random;
use crate::signatures::{hex, refused, ACCEPTED};
use crate::Difference;
use flakuzhen::surface::walker as surface;
use flakuzhen::surface::Answer;
use reference::walker::{self as second, Walker};
use reference::{
    ArgumentPlan, Convention, Float, Place, Plan, Refusal, ResultPlan, Signature, Type,
};
use std::collections::BTreeSet;
use std::fmt;
use std::hint::black_box;

/// The highest counter.
const HIGHEST: u64 = 1 << 32;
/// The largest area that is lent.
const LARGEST_AREA: usize = 40_000;

/// What is wrong with a step, in the order in which it is tested.
#[derive(Clone, Copy, Debug, PartialEq, Eq, PartialOrd, Ord)]
pub enum Fault {
    /// Counters that no arguments lead to.
    Lost,
    /// Refusals 1 to 6, 8 and 25 of the item.
    Item,
    /// By code 4 a long double for which only f13 is left.
    Unclear,
    ImageSize,
    ValueSize,
    AreaTooShort,
    OutsideCopies,
    NotWidened,
    Differs,
}

impl Fault {
    pub const ALL: [Fault; 9] = [
        Fault::Lost,
        Fault::Item,
        Fault::Unclear,
        Fault::ImageSize,
        Fault::ValueSize,
        Fault::AreaTooShort,
        Fault::OutsideCopies,
        Fault::NotWidened,
        Fault::Differs,
    ];

    /// The refusal's number, where there is but one.
    fn number(self) -> Option<u64> {
        Some(match self {
            Fault::Lost => 23,
            Fault::Item => return None,
            Fault::Unclear => 29,
            Fault::ImageSize => 15,
            Fault::ValueSize => 10,
            Fault::AreaTooShort => 11,
            Fault::OutsideCopies => 13,
            Fault::NotWidened => 14,
            Fault::Differs => 26,
        })
    }

    /// Whether one step can have both, the other being the later one.
    pub fn together(self, other: Fault) -> bool {
        let of_z = [Fault::OutsideCopies];
        let of_power = [Fault::Unclear, Fault::NotWidened, Fault::Differs];
        let mixed = |one: Fault, two: Fault| of_z.contains(&one) && of_power.contains(&two);
        // an unclear argument is a long double
        let unclear = self == Fault::Unclear
            && matches!(
                other,
                Fault::AreaTooShort | Fault::NotWidened | Fault::Differs
            );
        // what is not read has neither type nor places
        !mixed(self, other) && !mixed(other, self) && !unclear
    }
}

/// What is lent to a step; the call's signature is the item, and its values are the value.
#[derive(Clone, Debug, PartialEq, Eq)]
pub struct Step {
    pub walker: Walker,
    pub call: Call,
}

/// A step with what is known of it.
pub struct StepCase {
    pub step: Step,
    pub faults: BTreeSet<Fault>,
    /// What is at an edge, and the fault for which it matters; none where it must be accepted.
    pub edges: BTreeSet<(Option<Fault>, &'static str)>,
}

/// What was seen of steps.
#[derive(Clone, Default)]
pub struct Histogram {
    /// Yes at 0, each refusal at its number.
    pub answers: [u64; 30],
    /// How many of each had a count of items, and how many a place.
    pub counted: [u64; 30],
    pub placed: [u64; 30],
    pub met: Met<Fault>,
    /// Whole walks, and their steps over declared types and past them.
    pub walks: u64,
    pub declared: u64,
    pub past: u64,
    /// Starts.
    pub starts: [u64; 30],
}

impl Histogram {
    pub fn steps(&self) -> u64 {
        self.answers.iter().sum()
    }

    fn count(&mut self, answer: Answer) {
        let number = answer.number as usize;
        self.answers[number] += 1;
        self.counted[number] += u64::from(answer.items > 0);
        self.placed[number] += u64::from(answer.place > 0);
    }
}

impl fmt::Display for Histogram {
    fn fmt(&self, to: &mut fmt::Formatter<'_>) -> fmt::Result {
        let numbers = |of: &[u64; 30]| -> String {
            let given = of.iter().enumerate().filter(|(_, count)| **count > 0);
            let told = given.map(|(number, count)| format!(" {number}: {count}"));
            told.collect()
        };
        write!(to, "{} steps:{}", self.steps(), numbers(&self.answers))?;
        write!(to, "\n  with a count of items:{}", numbers(&self.counted))?;
        write!(to, "\n  with a place:{}", numbers(&self.placed))?;
        write!(
            to,
            "\n  {} walks with {} steps over declared types and {} past them",
            self.walks, self.declared, self.past
        )?;
        write!(to, "\n  starts:{}", numbers(&self.starts))?;
        write!(to, "{}", self.met)
    }
}

fn answer_of(result: Result<(), Refusal>) -> Answer {
    match result {
        Ok(()) => ACCEPTED,
        Err(refusal) => refused(&refusal),
    }
}

/// Has the second program take a step.
pub fn expected(step: &mut Step) -> Answer {
    let Step { walker, call } = step;
    let Call {
        signature: item,
        values: value,
        image,
        area,
        copies,
        base,
        ..
    } = call;
    answer_of(second::walk(
        walker, item, value, image, area, copies, *base,
    ))
}

/// Has the second program start.
pub fn expected_start(walker: &mut Walker, signature: &[u8]) -> Answer {
    answer_of(second::walk_start(walker, signature))
}

fn words_of(walker: &Walker) -> surface::Walker {
    let [convention, ellipsis, hidden, general, floating, stack] = walker.words();
    surface::Walker {
        convention,
        ellipsis,
        hidden,
        general,
        floating,
        stack,
    }
}

fn walker_of(walker: &surface::Walker) -> Walker {
    Walker::of_words([
        walker.convention,
        walker.ellipsis,
        walker.hidden,
        walker.general,
        walker.floating,
        walker.stack,
    ])
}

/// A walker between others that no call may change.
fn guarded(walker: &Walker) -> [surface::Walker; 3] {
    let guard = words_of(&Walker::of_words([0xc5c5; 6]));
    [guard, words_of(walker), guard]
}

/// Has the library take a step. Nothing where it changed what it was not lent.
fn given(step: &mut Step, shift: usize) -> Option<Answer> {
    let lend = |bytes: &[u8]| Lent::new(bytes, shift);
    let call = &mut step.call;
    let mut walkers = guarded(&step.walker);
    let mut item = lend(&call.signature);
    let mut value = lend(&call.values);
    let mut image = lend(&call.image);
    let mut area = lend(&call.area);
    let mut copies = lend(&call.copies);
    let answer = surface::walk(
        &mut walkers[1],
        item.part(),
        value.part(),
        image.part(),
        area.part(),
        copies.part(),
        call.base,
    );
    call.signature = black_box(item).content()?;
    call.values = black_box(value).content()?;
    call.image = black_box(image).content()?;
    call.area = black_box(area).content()?;
    call.copies = black_box(copies).content()?;
    let walkers = black_box(walkers);
    step.walker = walker_of(&walkers[1]);
    (walkers == guarded(&step.walker)).then_some(answer)
}

/// Compares the two on one step, and gives what they share.
pub fn compare(step: &Step, shift: usize) -> Result<(Answer, Step), Difference> {
    let mut expected_step = step.clone();
    let expected = expected(&mut expected_step);
    let mut given_step = step.clone();
    let Some(given) = given(&mut given_step, shift) else {
        return Err(told(step, "the library changes what it is not lent"));
    };
    if given != expected {
        let what = format!("the library answers {given:?}\nthe second program {expected:?}");
        return Err(told(step, &what));
    }
    if given_step != expected_step {
        let what = format!(
            "the library leaves {:?} and the value {}\nthe second program {:?} and {}",
            given_step.walker,
            hex(&given_step.call.values),
            expected_step.walker,
            hex(&expected_step.call.values),
        );
        return Err(told(step, &what));
    }
    // "Counters over 2^32" are the next call's matter, and a refused step leaves all
    if given.number != 0 && given_step != *step {
        return Err(told(step, "both change what must stay"));
    }
    Ok((given, given_step))
}

/// Compares the two on a start.
pub fn compare_start(before: &Walker, signature: &[u8]) -> Result<(Answer, Walker), Difference> {
    let mut expected_walker = *before;
    let expected = expected_start(&mut expected_walker, signature);
    let mut walkers = guarded(before);
    let given = surface::walk_start(&mut walkers[1], signature);
    let walkers = black_box(walkers);
    let right = given == expected && walkers == guarded(&expected_walker);
    if !right {
        let what = format!(
            "the library starts {walkers:?} and answers {given:?}\nthe second program \
             {expected_walker:?} and {expected:?}\nfor the signature {}",
            hex(signature)
        );
        return Err(Difference(what));
    }
    Ok((given, expected_walker))
}

/// A difference with all of its step.
fn told(step: &Step, what: &str) -> Difference {
    let Step { walker, call } = step;
    Difference(format!(
        "{what}\nwalker {walker:?}\nitem {}\nvalue {}\nimage {}\narea {}\ncopies {}\nbase {:#x}",
        hex(&call.signature),
        hex(&call.values),
        hex(&call.image),
        hex(&call.area),
        hex(&call.copies),
        call.base,
    ))
}

/// A walker that some arguments lead to.
pub fn reached(random: &mut Random, convention: Convention) -> Walker {
    let hidden = random.below(2) as u64;
    let mut walker = Walker {
        convention: u64::from(convention.code()),
        ellipsis: random.below(2) as u64,
        hidden,
        ..Walker::default()
    };
    if convention == Convention::Z {
        walker.general = 2 + hidden + random.below(6 - hidden as usize) as u64;
        walker.floating = 2 * random.below(5) as u64;
        match random.below(4) {
            0 => walker.general = 7,
            1 => walker.floating = 8,
            _ => {}
        }
        walker.stack = 160;
        if walker.general == 7 || walker.floating == 8 {
            walker.stack += 8 * further(random, (HIGHEST - 160) / 8);
        }
    } else {
        walker.floating = random.pick(&[0, 0, 1, 5, 11, 12, 12, 13]);
        if random.once_in(2) {
            walker.floating = random.below(14) as u64;
        }
        let least = walker.floating + hidden;
        walker.general = least + further(random, HIGHEST - least);
        // at the last general register
        if least <= 7 && random.once_in(6) {
            walker.general = 7;
        }
    }
    walker
}

/// How far a counter is past the least: mostly near it, once in a while at the highest.
fn further(random: &mut Random, most: u64) -> u64 {
    match random.below(16) {
        0 => most,
        1 => most - random.below(4) as u64,
        2 => random.number() % most,
        3..=4 => random.below(200) as u64,
        _ => random.below(10) as u64,
    }
}

/// Makes the counters such that no arguments lead to them. What it does is by the rules' own words,
/// so that none of them need be asked whether it did.
fn lose(random: &mut Random, walker: &mut Walker) -> &'static str {
    let is_z = walker.convention == 2;
    let large = random.number() | HIGHEST << 1;
    loop {
        match random.below(13) {
            0 => {
                walker.convention = random.pick(&[0, 5, 257, large]);
                return "a convention that is none";
            }
            1 => {
                walker.ellipsis = random.pick(&[2, 256, large]);
                return "a mark of an ellipsis over 1";
            }
            2 => {
                walker.hidden = random.pick(&[2, 256, large]);
                return "a mark of a hidden address over 1";
            }
            3 => {
                walker.general = random.pick(&[HIGHEST + 1, large]);
                return match is_z {
                    true => "a general register that is none",
                    false => "words over 2^32",
                };
            }
            4 if !is_z && walker.floating + walker.hidden > 0 => {
                let least = walker.floating + walker.hidden;
                walker.general = random.pick(&[0, least - 1, least - 1]);
                return "fewer words than registers need";
            }
            5 | 6 if !is_z => {
                walker.floating = random.pick(&[14, 14, 15, HIGHEST, large]);
                walker.general = walker.general.max(100);
                return "more than 13 floating registers";
            }
            7 if !is_z => {
                walker.stack = random.pick(&[1, 8, 160, large]);
                return "a stack of PowerPC";
            }
            8 if is_z => {
                walker.general = random.pick(&[0, 1, 1 + walker.hidden, 8, 8]);
                return "a general register that is none";
            }
            9 if is_z => {
                walker.floating = random.pick(&[1, 3, 5, 7, 9, 10, 10, large]);
                return "a floating register that is none";
            }
            10 if is_z => {
                walker.stack = random.pick(&[0, 152, 159, 161, 164, HIGHEST + 8, large]);
                return "a stack offset that is none";
            }
            11 | 12 if is_z && walker.general < 7 && walker.floating < 8 => {
                walker.stack = 168 + 8 * random.below(3) as u64;
                return "a stack while registers are left";
            }
            _ => {}
        }
    }
}

/// A type to ask for: mostly scalars and small structs.
fn any_type(random: &mut Random, convention: Convention) -> Type {
    match random.below(4) {
        0 => generate::valid_type(random, convention),
        1 => Type::Float(random.pick(match convention {
            Convention::Aix => &[Float::Single, Float::Double][..],
            _ => &[Float::Single, Float::Double, Float::LongDouble],
        })),
        _ => plans::any_argument(random, convention),
    }
}

/// A step with up to three faults.
pub fn case(random: &mut Random) -> StepCase {
    let mut wanted = BTreeSet::new();
    for _ in 0..random.pick(&[0, 0, 0, 1, 1, 2, 3]) {
        wanted.insert(random.pick(&Fault::ALL));
    }
    let (walker, of, argument) = asked(random, &wanted);
    let convention = Convention::of_code(walker.convention).expect("a walker that can be");
    let size = of.size(convention);
    let mut faults = wanted.clone();
    let mut edges = BTreeSet::new();

    let end = argument.as_ref().map_or(0, |of| end(convention, of));
    // no area reaches so far
    if end > LARGEST_AREA {
        faults.insert(Fault::AreaTooShort);
    }
    let mut content = contents(random, walker, of, argument, &mut faults);
    let call = &mut content.call;

    if end == 0 {
        faults.remove(&Fault::AreaTooShort);
        let length = random.pick(&[0, 0, 1, 7, 64]);
        call.area = calls::bytes(random, length);
        if length == 0 {
            edges.insert((None, "an argument in registers and no area"));
        }
    } else if faults.contains(&Fault::AreaTooShort) {
        let most = end.min(LARGEST_AREA) - 1;
        let any = random.below(most + 1);
        let length = random.pick(&[0, most, most, most, any]);
        call.area.truncate(length);
        if length + 1 == end {
            let edge = "an area that is too short by one";
            edges.insert((Some(Fault::AreaTooShort), edge));
        }
        if walker.general >= HIGHEST - 3 || walker.stack >= HIGHEST - 24 {
            let edge = "memory at the highest counters";
            edges.insert((Some(Fault::AreaTooShort), edge));
        }
    } else if random.once_in(2) {
        let more = random.below(100);
        let more = calls::bytes(random, more);
        call.area.extend(more);
    } else {
        edges.insert((None, "an area that just fits"));
    }
    if faults.contains(&Fault::ImageSize) {
        let length = random.pick(&[0, 8, 256, 504, 511, 513, 1024]);
        call.image.resize(length, 0xa7);
    }
    let longer = size + 1 + random.below(300);
    let length = match faults.contains(&Fault::ValueSize) {
        true => random.pick(&[0, size - 1, size + 1, longer]),
        false => size,
    };
    call.values = calls::bytes(random, length);
    let mut step = Step {
        walker,
        call: std::mem::take(call),
    };
    if faults.contains(&Fault::Item) {
        step.call.signature = broken_item(random, convention, &step.call.signature);
    }
    if faults.contains(&Fault::Lost) {
        let edge = lose(random, &mut step.walker);
        edges.insert((Some(Fault::Lost), edge));
    }
    let contents = content
        .edges
        .into_iter()
        .filter_map(|(fault, edge)| match fault {
            None => Some((None, edge)),
            Some(fault) => content_fault(fault).map(|fault| (Some(fault), edge)),
        });
    edges.extend(contents);
    StepCase {
        step,
        faults,
        edges,
    }
}

/// The step's name for a fault of what a call is read from.
fn content_fault(fault: Content) -> Option<Fault> {
    match fault {
        Content::OutsideCopies => Some(Fault::OutsideCopies),
        Content::NotWidened => Some(Fault::NotWidened),
        Content::Differs => Some(Fault::Differs),
        _ => None,
    }
}

/// A walker, a type to ask it for and where that stands, or nothing where it is unclear. Some tries
/// are made to have the faults that are wanted.
fn asked(random: &mut Random, wanted: &BTreeSet<Fault>) -> (Walker, Type, Option<ArgumentPlan>) {
    let wants = |fault: Fault| wanted.contains(&fault);
    let mut tries = 0;
    loop {
        tries += 1;
        let convention = random.pick(match () {
            () if wants(Fault::Unclear) => &[Convention::Ppc64b][..],
            () if wants(Fault::NotWidened) || wants(Fault::Differs) => {
                &[Convention::Ppc64, Convention::Aix, Convention::Ppc64b]
            }
            () if wants(Fault::OutsideCopies) => &[Convention::Z],
            () => &Convention::ALL,
        });
        let mut walker = reached(random, convention);
        let mut of = any_type(random, convention);
        if wants(Fault::Unclear) {
            walker.floating = 12;
            walker.general = walker.general.max(12 + walker.hidden);
            of = Type::Float(Float::LongDouble);
            return (walker, of, None);
        }
        if wants(Fault::NotWidened) {
            of = Type::Float(Float::Single);
        }
        if wants(Fault::Differs) {
            // a float that has a general register
            walker.ellipsis = 1;
            walker.general = walker.hidden.max(random.below(8) as u64);
            walker.floating = walker.floating.min(walker.general - walker.hidden);
        }
        let Some(argument) = walker.next(&of) else {
            continue;
        };
        let end = end(convention, &argument);
        let right = (!wants(Fault::AreaTooShort) || end > 0)
            && (!wants(Fault::OutsideCopies) || argument.by_reference())
            && (!wants(Fault::NotWidened) || matches!(argument.places[0], Place::Floating(_)))
            && (!wants(Fault::Differs) || is_twofold(&argument));
        if right || tries >= 16 {
            return (walker, of, Some(argument));
        }
    }
}

fn is_twofold(argument: &ArgumentPlan) -> bool {
    let general = |place: &Place| matches!(place, Place::General(_));
    matches!(argument.places[0], Place::Floating(_)) && argument.places.iter().any(general)
}

/// Where the argument's memory ends in the area, 0 where it has none.
fn end(convention: Convention, argument: &ArgumentPlan) -> usize {
    let start = if convention == Convention::Z { 160 } else { 0 };
    let ends = argument.places.iter().map(|place| match place {
        Place::Memory(offset) => offset - start + convention.word(),
        _ => 0,
    });
    ends.max().unwrap_or(0)
}

/// The item, and what the argument is read from, as for a call of one argument that stands there.
/// Faults of it that cannot be are taken away.
fn contents(
    random: &mut Random,
    walker: Walker,
    of: Type,
    argument: Option<ArgumentPlan>,
    faults: &mut BTreeSet<Fault>,
) -> Case {
    let convention = Convention::of_code(walker.convention).expect("a walker that can be");
    let size = of.size(convention);
    let by_reference = argument.as_ref().is_some_and(ArgumentPlan::by_reference);
    let end = argument.as_ref().map_or(0, |of| end(convention, of));
    // what lies outside of every area is never read
    let readable = end <= LARGEST_AREA;
    let arguments: Vec<ArgumentPlan> = argument.into_iter().filter(|_| readable).collect();
    let in_float = |of: &ArgumentPlan| matches!(of.places[0], Place::Floating(_));
    let single = of == Type::Float(Float::Single) && arguments.iter().any(in_float);
    let can = [
        (
            Fault::OutsideCopies,
            Content::OutsideCopies,
            by_reference && readable,
        ),
        (
            Fault::NotWidened,
            Content::NotWidened,
            single && convention != Convention::Z,
        ),
        (
            Fault::Differs,
            Content::Differs,
            arguments.iter().any(is_twofold),
        ),
    ];
    let mut wrong = BTreeSet::new();
    for (fault, content, possible) in can {
        if !possible {
            faults.remove(&fault);
        } else if faults.contains(&fault) {
            wrong.insert(content);
        }
    }
    let mut case = Case {
        call: Call {
            signature: encode::type_item(&of),
            image: calls::bytes(random, 512),
            area: calls::bytes(random, end.min(LARGEST_AREA)),
            ..Call::default()
        },
        signature: Signature {
            convention,
            result: None,
            ellipsis: walker.ellipsis == 1,
            arguments: vec![of; arguments.len()],
        },
        plan: Plan {
            convention,
            ellipsis: walker.ellipsis == 1,
            copies: if by_reference { size } else { 0 },
            arguments,
            result: ResultPlan::None,
            area: end,
            values: size,
        },
        faults: wrong,
        edges: BTreeSet::new(),
    };
    calls::make_contents_to_read(random, &mut case);
    case
}

/// Bytes that are no type's item: mostly this one with some damage.
fn broken_item(random: &mut Random, convention: Convention, item: &[u8]) -> Vec<u8> {
    loop {
        let broken = match random.below(8) {
            0 => generate::noise(random),
            1 => encode::type_item(&Type::Float(Float::LongDouble)),
            4 | 5 => generate::faulty_item(random, convention),
            // near the longest that is read
            2 => {
                let length = 16_381 + random.below(8);
                let mut longest = item.to_vec();
                longest.resize(length, random.byte());
                longest
            }
            3 => [item, &[random.byte()]].concat(),
            _ => generate::damaged(random, item),
        };
        if reference::read_type(convention, &broken).is_err() {
            return broken;
        }
    }
}

/// Compares the two on a generated step, and both with the fault that comes first in it.
fn compare_case(random: &mut Random, seen: &mut Histogram) -> Result<(), Difference> {
    let case = case(random);
    let (answer, _) = compare(&case.step, random.below(8))?;
    let answered = case.faults.first().copied();
    let right = match answered {
        None => answer.number == 0,
        Some(fault) => fault
            .number()
            .map_or(matches!(answer.number, 1..=6 | 8 | 25), |only| {
                only == answer.number && answer.place == 0 && answer.items == 0
            }),
    };
    if !right {
        let what = format!("both answer {answer:?} to the faults {:?}", case.faults);
        return Err(told(&case.step, &what));
    }
    seen.count(answer);
    seen.met.count(&case.faults, &case.edges);
    Ok(())
}

/// Compares the two on a walk over what was filled, which must give the values that plain reading
/// gives, and on some steps past it, of any type, on whatever stands there.
fn compare_walk(random: &mut Random, seen: &mut Histogram) -> Result<(), Difference> {
    let signature = match random.below(3) {
        0 => generate::valid(random),
        _ => plans::interesting(random),
    };
    let bytes = encode::signature(&signature);
    let convention = signature.convention;
    let sizes = reference::plan(&signature);
    let mut call = Call {
        signature: bytes.clone(),
        values: calls::values(random, &signature),
        image: calls::bytes(random, 512),
        area: calls::bytes(random, sizes.area),
        copies: calls::bytes(random, sizes.copies),
        base: 8 * (random.number() >> 8),
        hidden: random.number() >> 32,
        ..Call::default()
    };
    let Call {
        values,
        image,
        area,
        copies,
        base,
        hidden,
        ..
    } = &mut call;
    let filled = reference::marshal::fill(&bytes, values, image, area, copies, *base, *hidden);
    assert_eq!(filled, Ok(()), "a call in order");
    let (answer, walker) = compare_start(&Walker::of_words([random.number(); 6]), &bytes)?;
    assert_eq!(answer.number, 0, "an accepted signature");
    seen.walks += 1;

    let values = std::mem::take(&mut call.values);
    let mut rest = &values[..];
    let mut step = Step { walker, call };
    for of in &signature.arguments {
        let (value, others) = rest.split_at(of.size(convention));
        rest = others;
        step.call.signature = encode::type_item(of);
        step.call.values = vec![0xa7; value.len()];
        let (answer, after) = compare(&step, random.below(8))?;
        seen.count(answer);
        seen.declared += 1;
        if answer.number != 0 || after.call.values != value {
            return Err(told(&step, "a declared argument is not what was filled"));
        }
        step = after;
    }
    // what stands behind is anything
    let more = random.pick(&[0, 8, 40, 200]);
    let more = calls::bytes(random, more);
    step.call.area.extend(more);
    for _ in 0..random.below(6) {
        let of = any_type(random, convention);
        step.call.signature = encode::type_item(&of);
        step.call.values = vec![0xa7; of.size(convention)];
        let (answer, after) = compare(&step, random.below(8))?;
        seen.count(answer);
        seen.past += 1;
        step = after;
    }
    Ok(())
}

/// Compares the two on starts with signatures of every kind.
fn compare_starts(random: &mut Random, seen: &mut Histogram) -> Result<(), Difference> {
    let valid = encode::signature(&generate::valid(random));
    let chosen = encode::signature(&plans::interesting(random));
    let damaged = generate::damaged(random, &chosen);
    let faulty = generate::faulty(random);
    let noise = generate::noise(random);
    let unclear = unclear_signature(random);
    for bytes in [valid, chosen, damaged, faulty, noise, unclear] {
        let before = Walker::of_words([random.number(); 6]);
        let (answer, _) = compare_start(&before, &bytes)?;
        seen.starts[answer.number as usize] += 1;
        if reference::call(&bytes).is_err_and(|refusal| refusal.number == 29) {
            assert_eq!(answer.number, 0, "29 is no matter of a start");
            seen.met.edge("a start on a signature that 29 refuses");
        }
    }
    Ok(())
}

/// A signature of code 4 whose plan 29 refuses.
fn unclear_signature(random: &mut Random) -> Vec<u8> {
    let before = random.below(8);
    let mut arguments = vec![Type::Integer(reference::Integer::I32); before];
    arguments.extend(vec![Type::Float(Float::Double); 12]);
    arguments.push(Type::Float(Float::LongDouble));
    encode::signature(&Signature {
        convention: Convention::Ppc64b,
        result: None,
        ellipsis: random.once_in(2),
        arguments,
    })
}

/// Compares the two on this many generated steps, on a sixth as many walks, and on starts.
pub fn run(seed: u64, steps: u64) -> Result<Histogram, Difference> {
    let mut random = Random::new(seed);
    let mut seen = Histogram::default();
    for number in 0..steps {
        compare_case(&mut random, &mut seen)?;
        if number % 6 == 0 {
            compare_walk(&mut random, &mut seen)?;
            compare_starts(&mut random, &mut seen)?;
        }
    }
    Ok(seen)
}
