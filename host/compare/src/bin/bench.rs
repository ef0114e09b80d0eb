//! The time that the proved library takes beside ordinary Rust, on the same inputs, in turns, in one
//! process: `bench [JOB..]`, all jobs where none is named. The exit status is 1 where the two differ
//! on an input, or a row of whole plans passes twice the time of ordinary Rust, and 2 for a job that
//! is none.

#![forbid(unsafe_code)]

use compare::calls::{self, Call};
use compare::machines;
use compare::random::Random;
use compare::timing::{self, Quartiles};
use compare::usual::{self, Group};
use flakuzhen::surface::{machine, marshal, plans, stored, walker};
use reference::Convention;
use std::cell::RefCell;
use std::hint::black_box;
use std::process::ExitCode;

const SIGNATURES: usize = 10_000;
/// For each number of arguments that is measured by itself.
const OF_A_COUNT: usize = 400;
const ROUNDS: usize = 31;
/// What a whole plan may take, in times of ordinary Rust.
const BAR: f64 = 2.0;
/// The words of a table for the most arguments.
const TABLE: usize = 128 * plans::PLACE_WORDS;
/// More than any stored plan takes.
const LONGEST: usize = 65_536;
const BASE: u64 = 0x10000;

/// A job by its name, what the two sides do, and how a group of signatures is timed: the library
/// first, then the others. `None` where they differ.
struct Job {
    name: &'static str,
    sides: &'static str,
    time: fn(&mut Random, &Group) -> Option<Vec<Quartiles>>,
    /// Whether the bar is asserted.
    barred: bool,
}

const JOBS: [Job; 9] = [
    Job {
        name: "plan",
        sides: "\
library        fz_plan: reads and tests the signature's bytes, and every argument's and the result's places in a lent
               table, which stays as it was where the signature is refused or the table too short
ordinary Rust  the same with the same promise, from the same bytes, the quicker of two: compact::table keeps
               arguments until all are known, compact::table_in_two_passes reads twice",
        time: plan,
        barred: true,
    },
    Job {
        name: "sizes",
        sides: "\
library        fz_measure: reads and tests, places every argument and gives the sizes of the three buffers
ordinary Rust  compact::measure: the same, in one pass and without trees",
        time: sizes,
        barred: false,
    },
    Job {
        name: "store",
        sides: "\
library        fz_store_plan: reads and tests, plans the call and writes its plan to a lent buffer, which stays as it
               was where the signature is refused or the buffer too short
ordinary Rust  the same with the same promise, nothing allocated, the quicker of two: compact::store keeps arguments
               until all are known, compact::store_in_two_passes reads twice",
        time: store,
        barred: false,
    },
    Job {
        name: "check",
        sides: "\
library        fz_check_plan: reads and tests, plans the call and compares it with the stored bytes, which are fresh
ordinary Rust  compact::check: the same in one pass, compared as the arguments come",
        time: check,
        barred: false,
    },
    Job {
        name: "anew",
        sides: "\
library        fz_check_plan, as above
planning anew  fz_plan of the library: nothing is compared",
        time: anew,
        barred: false,
    },
    Job {
        name: "fill",
        sides: "\
library        fz_fill: reads and tests, tests the buffers, and puts the values into them
ordinary Rust  compact::fill: the same without trees, by a plan that is kept in one vector, and with the machine's
               conversion of floats",
        time: fill,
        barred: false,
    },
    Job {
        name: "read",
        sides: "\
library        fz_read: reads and tests, tests the buffers and every argument, and takes the values back
ordinary Rust  compact::read: the same, as for fill",
        time: read,
        barred: false,
    },
    Job {
        name: "walk",
        sides: "\
library        fz_walk_start, and fz_walk for each argument's item
second program the plain one, by trees: it is not made for speed",
        time: walk,
        barred: false,
    },
    Job {
        name: "libffi",
        sides: "\
library        fz_plan, as above
libffi         ffi_prep_cif of a like call for this machine, from types in memory: it gives no places",
        time: libffi_preparation,
        barred: false,
    },
];

/// What the frame machine's calls are called here.
const FRAMES: &str = "frames";

fn main() -> ExitCode {
    let asked: Vec<String> = std::env::args().skip(1).collect();
    let known = |name: &String| name == FRAMES || JOBS.iter().any(|job| job.name == name);
    if let Some(unknown) = asked.iter().find(|name| !known(name)) {
        let names: Vec<&str> = JOBS.iter().map(|job| job.name).collect();
        eprintln!(
            "bench: {unknown:?} is none of: {}, {FRAMES}",
            names.join(", ")
        );
        return ExitCode::from(2);
    }
    let wanted = |name: &str| asked.is_empty() || asked.iter().any(|one| one == name);
    let seed = compare::seed();
    let groups = usual::groups(seed, SIGNATURES);
    let single_counts = usual::single_counts(seed, OF_A_COUNT);
    println!(
        "{SIGNATURES} different accepted signatures, spread evenly over 0 to 128 arguments, the four\n\
         conventions, with and without an ellipsis: medians of {ROUNDS} rounds in which the sides take\n\
         turns, in nanoseconds a call, with the quartiles; ratios are of the medians."
    );
    let mut passed = true;
    for job in JOBS.iter().filter(|job| wanted(job.name)) {
        if job.name == "libffi" && !libffi::found() {
            println!("\nlibffi: not installed");
            continue;
        }
        match rows_of(job, seed, &groups, &single_counts) {
            Some(worst) => passed &= !job.barred || worst <= BAR,
            None => {
                eprintln!("{}: the two differ on a call of seed {seed:#x}", job.name);
                return ExitCode::FAILURE;
            }
        }
    }
    if wanted(FRAMES) && !frames(seed) {
        eprintln!("{FRAMES}: the two differ, seed {seed:#x}");
        return ExitCode::FAILURE;
    }
    match passed {
        true => ExitCode::SUCCESS,
        false => {
            eprintln!("a whole plan takes more than {BAR} times what ordinary Rust takes");
            ExitCode::FAILURE
        }
    }
}

/// What the calls of a row took together.
#[derive(Clone, Default)]
struct Row {
    calls: f64,
    own: Quartiles,
    others: Vec<Quartiles>,
}

impl Row {
    fn of(group: &Group, sides: &[Quartiles]) -> Row {
        Row {
            calls: group.signatures.len() as f64,
            own: sides[0],
            others: sides[1..].to_vec(),
        }
    }

    /// All of them together; of nothing where there are none.
    fn sum<'a>(rows: impl Iterator<Item = &'a Row>) -> Row {
        let mut sum = Row::default();
        for row in rows {
            sum.calls += row.calls;
            sum.own += row.own;
            sum.others.resize(row.others.len(), Quartiles::default());
            for (all, more) in sum.others.iter_mut().zip(&row.others) {
                *all += *more;
            }
        }
        sum
    }

    /// The quickest of the others.
    fn other(&self) -> Quartiles {
        let by_median = |one: &&Quartiles, two: &&Quartiles| one.median.total_cmp(&two.median);
        *self.others.iter().min_by(by_median).expect("another side")
    }

    fn ratio(&self) -> f64 {
        self.own.median / self.other().median
    }

    fn print(&self, name: &str) {
        let told = |of: Quartiles| {
            let [lower, median, upper] =
                [of.lower, of.median, of.upper].map(|time| time / self.calls);
            format!("{median:>6.0} ({lower:>5.0} {upper:>5.0})")
        };
        println!(
            "{name:>9}  {:>6}  {}  {}  {:>5.2}",
            self.calls,
            told(self.own),
            told(self.other()),
            self.ratio()
        );
    }
}

/// Prints a job's tables, by number of arguments and by convention; the largest ratio of any row.
fn rows_of(job: &Job, seed: u64, groups: &[Group], single_counts: &[Group]) -> Option<f64> {
    let mut random = Random::new(seed);
    let mut timed = |groups: &[Group]| {
        let rows = groups
            .iter()
            .map(|group| Some(Row::of(group, &(job.time)(&mut random, group)?)));
        rows.collect::<Option<Vec<Row>>>()
    };
    let rows = timed(groups)?;
    let alone = timed(single_counts)?;
    println!("\n{}\n{}\n", job.name, job.sides);
    println!("arguments   calls  library               other                 ratio");
    let mut worst: f64 = 0.0;
    let mut print = |name: &str, row: Row| {
        row.print(name);
        worst = worst.max(row.ratio());
    };
    let both = || groups.iter().zip(&rows);
    for counts in usual::COUNTS {
        let of_counts = both().filter(|(group, _)| group.counts == counts);
        print(
            &usual::told(&counts),
            Row::sum(of_counts.map(|(_, row)| row)),
        );
    }
    print(&usual::told(&usual::ALL), Row::sum(rows.iter()));
    println!();
    for convention in Convention::ALL {
        let of_convention = both().filter(|(group, _)| group.convention == convention);
        print(
            &format!("{convention:?}"),
            Row::sum(of_convention.map(|(_, row)| row)),
        );
    }
    println!();
    let of_one = single_counts.iter().zip(&alone).collect::<Vec<_>>();
    for of_count in of_one.chunks(Convention::ALL.len()) {
        let (group, _) = of_count[0];
        print(
            &usual::told(&group.counts),
            Row::sum(of_count.iter().map(|(_, row)| *row)),
        );
    }
    Some(worst)
}

/// A side of what is done with each input.
fn each<T>(run: impl Fn(&T)) -> impl Fn(&[T]) {
    move |batch| batch.iter().for_each(&run)
}

fn plan(_: &mut Random, group: &Group) -> Option<Vec<Quartiles>> {
    if !group.signatures.iter().all(|bytes| same_plan(bytes)) {
        return None;
    }
    let table = RefCell::new([0; TABLE]);
    let own = each(|bytes: &Vec<u8>| {
        black_box(plans::plan(black_box(bytes), &mut *table.borrow_mut()));
    });
    let kept = each(|bytes: &Vec<u8>| {
        let _ = black_box(compact::table(black_box(bytes), &mut *table.borrow_mut()));
    });
    let twice = each(|bytes: &Vec<u8>| {
        let table = &mut *table.borrow_mut();
        let _ = black_box(compact::table_in_two_passes(black_box(bytes), table));
    });
    Some(timing::turns(&group.signatures, ROUNDS, [&own, &kept, &twice]).into())
}

/// All three accept the signature and leave the same table.
fn same_plan(bytes: &[u8]) -> bool {
    let mut tables = [[0; TABLE]; 3];
    let [own, kept, twice] = &mut tables;
    plans::plan(bytes, own).answer.number == 0
        && compact::table(bytes, kept).is_ok()
        && compact::table_in_two_passes(bytes, twice).is_ok()
        && own == kept
        && own == twice
}

fn sizes(_: &mut Random, group: &Group) -> Option<Vec<Quartiles>> {
    let same = |bytes: &Vec<u8>| {
        let own = plans::measure(bytes);
        let second = compact::measure(bytes);
        own.answer.number == 0
            && second.is_ok_and(|second| {
                let sizes = [second.values, second.area, second.copies];
                [own.values, own.area, own.copies] == sizes.map(|size| size as u64)
            })
    };
    if !group.signatures.iter().all(same) {
        return None;
    }
    let own = each(|bytes: &Vec<u8>| {
        black_box(plans::measure(black_box(bytes)));
    });
    let second = each(|bytes: &Vec<u8>| {
        let _ = black_box(compact::measure(black_box(bytes)));
    });
    Some(timing::turns(&group.signatures, ROUNDS, [&own, &second]).into())
}

/// A signature with its stored plan.
struct Kept<'a> {
    signature: &'a [u8],
    stored: Vec<u8>,
}

/// The group's signatures with their plans. Nothing where the sides do not agree on one.
fn kept(group: &Group) -> Option<Vec<Kept<'_>>> {
    let mut buffers = [vec![0; LONGEST], vec![0; LONGEST], vec![0; LONGEST]];
    let mut all = Vec::new();
    for signature in &group.signatures {
        let [own, once, twice] = &mut buffers;
        let length = stored::store(signature, own).length as usize;
        let agreed = compact::store(signature, once) == Ok(length)
            && compact::store_in_two_passes(signature, twice) == Ok(length)
            && own[..length] == once[..length]
            && own[..length] == twice[..length]
            && stored::check(&own[..length], signature).number == 0
            && compact::check(&own[..length], signature) == Ok(());
        if !agreed {
            return None;
        }
        let stored = own[..length].to_vec();
        all.push(Kept { signature, stored });
    }
    Some(all)
}

fn store(_: &mut Random, group: &Group) -> Option<Vec<Quartiles>> {
    let plans = kept(group)?;
    let buffer = RefCell::new(vec![0; LONGEST]);
    let own = each(|one: &Kept| {
        let buffer = &mut buffer.borrow_mut();
        black_box(stored::store(black_box(one.signature), buffer));
    });
    let once = each(|one: &Kept| {
        let buffer = &mut buffer.borrow_mut();
        let _ = black_box(compact::store(black_box(one.signature), buffer));
    });
    let twice = each(|one: &Kept| {
        let buffer = &mut buffer.borrow_mut();
        let signature = black_box(one.signature);
        let _ = black_box(compact::store_in_two_passes(signature, buffer));
    });
    Some(timing::turns(&plans, ROUNDS, [&own, &once, &twice]).into())
}

fn check_by_library(one: &Kept) {
    black_box(stored::check(
        black_box(&one.stored),
        black_box(one.signature),
    ));
}

fn check(_: &mut Random, group: &Group) -> Option<Vec<Quartiles>> {
    let plans = kept(group)?;
    let second = each(|one: &Kept| {
        let _ = black_box(compact::check(
            black_box(&one.stored),
            black_box(one.signature),
        ));
    });
    Some(timing::turns(&plans, ROUNDS, [&each(check_by_library), &second]).into())
}

fn anew(_: &mut Random, group: &Group) -> Option<Vec<Quartiles>> {
    let kept = kept(group)?;
    let table = RefCell::new([0; TABLE]);
    let plan = each(|one: &Kept| {
        let table = &mut *table.borrow_mut();
        black_box(plans::plan(black_box(one.signature), table));
    });
    Some(timing::turns(&kept, ROUNDS, [&each(check_by_library), &plan]).into())
}

fn fill(random: &mut Random, group: &Group) -> Option<Vec<Quartiles>> {
    let calls = filled(random, group)?;
    let own = each(|call: &RefCell<Call>| {
        fill_by_library(&mut call.borrow_mut());
    });
    let second = each(|call: &RefCell<Call>| {
        fill_by_second(&mut call.borrow_mut());
    });
    Some(timing::turns(&calls, ROUNDS, [&own, &second]).into())
}

fn read(random: &mut Random, group: &Group) -> Option<Vec<Quartiles>> {
    let calls = filled(random, group)?;
    let own = each(|call: &RefCell<Call>| {
        read_by_library(&mut call.borrow_mut());
    });
    let second = each(|call: &RefCell<Call>| {
        read_by_second(&mut call.borrow_mut());
    });
    Some(timing::turns(&calls, ROUNDS, [&own, &second]).into())
}

/// Calls of the group's signatures, filled. Nothing where the two do not agree on one.
fn filled(random: &mut Random, group: &Group) -> Option<Vec<RefCell<Call>>> {
    let mut calls = Vec::new();
    for bytes in &group.signatures {
        let signature = reference::read(bytes).ok()?;
        let plan = reference::plan(&signature);
        let mut call = Call {
            stored: Vec::new(),
            signature: bytes.clone(),
            values: calls::values(random, &signature),
            image: vec![0; 512],
            area: vec![0; plan.area],
            copies: vec![0; plan.copies],
            base: BASE,
            // of 32 bits, which AIX's hidden address has
            hidden: random.number() >> 32,
            index: 0,
        };
        let mut other = call.clone();
        let accepted = fill_by_library(&mut call) && fill_by_second(&mut other);
        if !accepted || call != other {
            return None;
        }
        let values = call.values.clone();
        call.values.fill(0);
        other.values.fill(0);
        let accepted = read_by_library(&mut call) && read_by_second(&mut other);
        if !accepted || call.values != values || other.values != values {
            return None;
        }
        calls.push(RefCell::new(call));
    }
    Some(calls)
}

fn fill_by_library(call: &mut Call) -> bool {
    let answer = marshal::fill(
        black_box(&call.signature),
        black_box(&call.values),
        black_box(&mut call.image),
        black_box(&mut call.area),
        black_box(&mut call.copies),
        call.base,
        call.hidden,
    );
    black_box(answer).number == 0
}

fn fill_by_second(call: &mut Call) -> bool {
    let answer = compact::fill(
        black_box(&call.signature),
        black_box(&call.values),
        black_box(&mut call.image),
        black_box(&mut call.area),
        black_box(&mut call.copies),
        call.base,
        call.hidden,
    );
    black_box(answer).is_ok()
}

fn read_by_library(call: &mut Call) -> bool {
    let answer = marshal::read(
        black_box(&call.signature),
        black_box(&mut call.values),
        black_box(&call.image),
        black_box(&call.area),
        black_box(&call.copies),
        call.base,
    );
    black_box(answer).number == 0
}

fn read_by_second(call: &mut Call) -> bool {
    let answer = compact::read(
        black_box(&call.signature),
        black_box(&mut call.values),
        black_box(&call.image),
        black_box(&call.area),
        black_box(&call.copies),
        call.base,
    );
    black_box(answer).is_ok()
}

/// A call that was filled, with its arguments' items and values as ranges.
struct Walk {
    call: RefCell<Call>,
    items: Vec<[usize; 2]>,
    values: Vec<[usize; 2]>,
}

fn walk(random: &mut Random, group: &Group) -> Option<Vec<Quartiles>> {
    let mut walks = Vec::new();
    for call in filled(random, group)? {
        let mut table = [0; TABLE];
        let bytes = call.borrow().signature.clone();
        let arguments = plans::plan(&bytes, &mut table).arguments as usize;
        let entry = |number: usize| table[number * plans::PLACE_WORDS..].first_chunk::<3>();
        let entries: Vec<[usize; 3]> = (0..arguments)
            .map(|number| entry(number).map(|words| words.map(|word| word as usize)))
            .collect::<Option<_>>()?;
        let ends = entries.iter().skip(1).map(|next| next[0]);
        let ends = ends.chain([bytes.len()]);
        walks.push(Walk {
            items: entries
                .iter()
                .zip(ends)
                .map(|(one, to)| [one[0], to])
                .collect(),
            values: entries
                .iter()
                .map(|one| [one[2], one[2] + one[1]])
                .collect(),
            call,
        });
    }
    let gives_the_values = |side: fn(&Walk) -> bool| {
        walks.iter().all(|walk| {
            let values = walk.call.borrow().values.clone();
            walk.call.borrow_mut().values.fill(0);
            let accepted = side(walk);
            accepted && walk.call.borrow().values == values
        })
    };
    if !gives_the_values(walk_by_library) || !gives_the_values(walk_by_second) {
        return None;
    }
    let own = each(|walk: &Walk| {
        black_box(walk_by_library(black_box(walk)));
    });
    let second = each(|walk: &Walk| {
        black_box(walk_by_second(black_box(walk)));
    });
    Some(timing::turns(&walks, ROUNDS, [&own, &second]).into())
}

fn walk_by_library(walk: &Walk) -> bool {
    let Call {
        signature,
        values,
        image,
        area,
        copies,
        base,
        ..
    } = &mut *walk.call.borrow_mut();
    let mut at = walker::Walker::default();
    let mut accepted = walker::walk_start(&mut at, signature).number == 0;
    for ([from, to], [first, past]) in walk.items.iter().zip(&walk.values) {
        let (item, value) = (&signature[*from..*to], &mut values[*first..*past]);
        accepted &= walker::walk(&mut at, item, value, image, area, copies, *base).number == 0;
    }
    accepted
}

fn walk_by_second(walk: &Walk) -> bool {
    let Call {
        signature,
        values,
        image,
        area,
        copies,
        base,
        ..
    } = &mut *walk.call.borrow_mut();
    let mut at = reference::walker::Walker::of_words([0; 6]);
    let mut accepted = reference::walker::walk_start(&mut at, signature).is_ok();
    for ([from, to], [first, past]) in walk.items.iter().zip(&walk.values) {
        let (item, value) = (&signature[*from..*to], &mut values[*first..*past]);
        let answer = reference::walker::walk(&mut at, item, value, image, area, copies, *base);
        accepted &= answer.is_ok();
    }
    accepted
}

fn libffi_preparation(_: &mut Random, group: &Group) -> Option<Vec<Quartiles>> {
    let table = RefCell::new([0; TABLE]);
    let mut calls = Vec::new();
    for bytes in &group.signatures {
        let signature = reference::read(bytes).ok()?;
        let types = signature.arguments.iter().map(libffi_type).collect();
        let result = signature.result.as_ref().map(libffi_type);
        let prepared = RefCell::new(libffi::Call::new(result, types)?);
        if !prepared.borrow_mut().prepare() {
            return None;
        }
        calls.push((bytes.clone(), prepared));
    }
    let own = each(|(bytes, _): &(Vec<u8>, RefCell<libffi::Call>)| {
        black_box(plans::plan(black_box(bytes), &mut *table.borrow_mut()));
    });
    let other = each(|(_, call): &(Vec<u8>, RefCell<libffi::Call>)| {
        black_box(call.borrow_mut().prepare());
    });
    Some(timing::turns(&calls, ROUNDS, [&own, &other]).into())
}

fn libffi_type(of: &reference::Type) -> libffi::Type {
    use reference::{Float, Integer, Type};
    match of {
        Type::Integer(integer) => libffi::Type::Named(match integer {
            Integer::I8 => libffi::Name::Sint8,
            Integer::U8 => libffi::Name::Uint8,
            Integer::I16 => libffi::Name::Sint16,
            Integer::U16 => libffi::Name::Uint16,
            Integer::I32 => libffi::Name::Sint32,
            Integer::U32 => libffi::Name::Uint32,
            Integer::I64 => libffi::Name::Sint64,
            Integer::U64 => libffi::Name::Uint64,
            Integer::Pointer => libffi::Name::Pointer,
        }),
        Type::Float(float) => libffi::Type::Named(match float {
            Float::Single => libffi::Name::Float,
            Float::Double => libffi::Name::Double,
            Float::LongDouble => libffi::Name::LongDouble,
        }),
        Type::Struct(fields) => libffi::Type::Struct(fields.iter().map(libffi_type).collect()),
    }
}

/// A call of one side on its machine; whether it is accepted.
type FrameCall = fn(&mut Stack) -> bool;

/// Prints the times of the frame machine's calls; whether both gave the same.
fn frames(seed: u64) -> bool {
    println!(
        "\n{FRAMES}\n\
         library        fz_start_ppc64 and its like, fz_enter with fz_leave, fz_write_register, fz_write_memory: on\n               \
         machines of 4,096 bytes, eight frames deep, as many of each convention\n\
         second program the plain one\n\n\
         call             library               other                 ratio"
    );
    let mut random = Random::new(seed);
    let stacks: Vec<RefCell<Stack>> = (0..200)
        .map(|number| RefCell::new(Stack::new(&mut random, Convention::ALL[number % 4])))
        .collect();
    let calls: [(&str, FrameCall, FrameCall); 4] = [
        (
            "enter, leave",
            Stack::frame_by_library,
            Stack::frame_by_second,
        ),
        (
            "register",
            Stack::register_by_library,
            Stack::register_by_second,
        ),
        ("memory", Stack::memory_by_library, Stack::memory_by_second),
        ("start", Stack::start_by_library, Stack::start_by_second),
    ];
    for (name, own, second) in calls {
        for stack in &stacks {
            let stack = &mut *stack.borrow_mut();
            if !own(stack) || !second(stack) || stack.own_memory != stack.second_memory {
                return false;
            }
        }
        let own = each(|stack: &RefCell<Stack>| {
            black_box(own(&mut stack.borrow_mut()));
        });
        let second = each(|stack: &RefCell<Stack>| {
            black_box(second(&mut stack.borrow_mut()));
        });
        let [own, second] = timing::turns(&stacks, 10 * ROUNDS, [&own, &second]);
        let told = |of: Quartiles| {
            let [lower, median, upper] = [of.lower, of.median, of.upper].map(|time| time / 200.0);
            format!("{median:>6.0} ({lower:>5.0} {upper:>5.0})")
        };
        println!(
            "{name:>12}     {}  {}  {:>5.2}",
            told(own),
            told(second),
            own.median / second.median
        );
    }
    true
}

/// The same machine in both programs, eight frames deep, with what its calls ask for.
struct Stack {
    convention: Convention,
    registers: reference::machine::Registers,
    own: machine::Machine,
    own_memory: Vec<u8>,
    second: reference::machine::Machine,
    second_memory: Vec<u8>,
    request: reference::machine::Request,
}

impl Stack {
    const BYTES: usize = 4_096;

    fn new(random: &mut Random, convention: Convention) -> Stack {
        let registers = machines::random_registers(random);
        let mut second_memory = vec![0; Stack::BYTES];
        let (second, started) =
            reference::machine::start(convention, &registers, BASE, &mut second_memory);
        started.expect("a memory that is large enough");
        let (first_gpr, first_fpr, outgoing) = match convention {
            Convention::Z => (10, 12, 16),
            _ => (28, 30, 64),
        };
        let mut stack = Stack {
            convention,
            registers,
            own: machine::Machine::default(),
            own_memory: vec![0; Stack::BYTES],
            second,
            second_memory,
            request: reference::machine::Request {
                first_gpr,
                first_fpr,
                saves_cr: 0,
                locals: 40,
                outgoing,
                leaf: 0,
            },
        };
        assert!(stack.start_by_library(), "the library starts too");
        let request = stack.request;
        for _ in 0..8 {
            let frame = stack.frame();
            machine::enter(&mut stack.own, &frame, &mut stack.own_memory);
            let entered = stack.second.enter(&request, &mut stack.second_memory);
            entered.expect("room for eight frames");
        }
        stack
    }

    fn frame(&self) -> machine::Frame {
        machine::Frame {
            first_gpr: self.request.first_gpr,
            first_fpr: self.request.first_fpr,
            saves_cr: self.request.saves_cr,
            locals: self.request.locals,
            outgoing: self.request.outgoing,
            leaf: self.request.leaf,
        }
    }

    fn start_by_library(&mut self) -> bool {
        let registers = machine::Registers {
            gpr: self.registers.gpr,
            fpr: self.registers.fpr,
            lr: self.registers.lr,
            cr: self.registers.cr,
        };
        let start = match self.convention {
            Convention::Ppc64 => machine::start_ppc64,
            Convention::Z => machine::start_z,
            Convention::Aix => machine::start_aix,
            Convention::Ppc64b => machine::start_ppc64b,
        };
        start(&mut self.own, &registers, BASE, &mut self.own_memory).number == 0
    }

    fn start_by_second(&mut self) -> bool {
        let memory = &mut self.second_memory;
        let (second, answer) =
            reference::machine::start(self.convention, &self.registers, BASE, memory);
        self.second = second;
        answer.is_ok()
    }

    fn frame_by_library(&mut self) -> bool {
        let frame = self.frame();
        machine::enter(&mut self.own, &frame, &mut self.own_memory).number == 0
            && machine::leave(&mut self.own, &self.own_memory).number == 0
    }

    fn frame_by_second(&mut self) -> bool {
        let request = self.request;
        let memory = &mut self.second_memory;
        self.second.enter(&request, memory).is_ok() && self.second.leave(memory).is_ok()
    }

    fn register_by_library(&mut self) -> bool {
        let register = self.request.first_fpr;
        machine::write_register(&mut self.own, 1, register, 7, &self.own_memory).number == 0
    }

    fn register_by_second(&mut self) -> bool {
        let register = self.request.first_fpr;
        let memory = &self.second_memory;
        self.second.write_register(1, register, 7, memory).is_ok()
    }

    /// In the top frame's outgoing area, which starts above its header.
    fn address(&self) -> u64 {
        let header = match self.convention {
            Convention::Ppc64 | Convention::Ppc64b => 48,
            Convention::Z => 160,
            Convention::Aix => 24,
        };
        machines::stack_pointer(&self.second) + header
    }

    fn memory_by_library(&mut self) -> bool {
        let address = self.address();
        machine::write_memory(&self.own, address, &[1; 8], &mut self.own_memory).number == 0
    }

    fn memory_by_second(&mut self) -> bool {
        let address = self.address();
        let memory = &mut self.second_memory;
        self.second.write_memory(address, &[1; 8], memory).is_ok()
    }
}
