//! The cases for other machines (`targets/replay.c`), replayed on this one: that they hold here
//! too, that all answers are among them, and that the program notices whatever differs.

use compare::cases::{self, Answers, Case, Change, Operation};
use std::path::{Path, PathBuf};
use std::process::Command;

fn root() -> PathBuf {
    let root = Path::new(env!("CARGO_MANIFEST_DIR")).join("../..");
    root.canonicalize().expect("the repository's folder")
}

fn own(name: &str) -> PathBuf {
    Path::new(env!("CARGO_TARGET_TMPDIR")).join(name)
}

/// Compiles the program, under a name of the test's own.
fn compile(name: &str) -> PathBuf {
    let program = own(name);
    let status = Command::new("gcc")
        .args([
            "-std=c99",
            "-O2",
            "-pedantic",
            "-Wall",
            "-Wextra",
            "-Werror",
            "-I",
        ])
        .arg(root().join("include"))
        .arg("-o")
        .arg(&program)
        .arg(root().join("targets/replay.c"))
        .arg(root().join("build/libflakuzhen.a"))
        .status();
    assert!(status.expect("gcc starts").success());
    program
}

/// Replays the cases, and gives the exit status and what was said.
fn replay(program: &Path, cases: &[Case]) -> (Option<i32>, String) {
    let file = program.with_extension("cases");
    std::fs::write(&file, cases::file(cases)).expect("the file of cases");
    let output = Command::new(program).arg(file).output();
    let output = output.expect("the program starts");
    assert_eq!(String::from_utf8_lossy(&output.stderr), "");
    let said = String::from_utf8_lossy(&output.stdout).into_owned();
    (output.status.code(), said)
}

/// The functions of the library that take anything, in the order of their names. `fz_version` takes
/// nothing: the header's programs, which run on every machine, hold it to the header.
fn exported() -> Vec<String> {
    let output = Command::new("nm")
        .args(["-g", "--defined-only"])
        .arg(root().join("build/libflakuzhen.a"))
        .output();
    let names = String::from_utf8(output.expect("nm starts").stdout).expect("names");
    let words = names.lines().filter_map(|line| line.split(' ').next_back());
    let mut exported: Vec<String> = words
        .filter(|name| name.starts_with("fz_") && *name != "fz_version")
        .map(str::to_string)
        .collect();
    exported.sort();
    exported
}

#[test]
fn the_library_of_this_machine_replays_them_all() {
    let seed = compare::seed();
    let cases = cases::all(seed, cases::LEAST);
    let (status, said) = replay(&compile("replay-all"), &cases);
    println!("seed {seed:#x}\n{said}");
    assert_eq!(status, Some(0));
    let line = format!(
        "{} cases replayed, 0 mismatches\n",
        cases::count_calls(&cases)
    );
    assert!(said.ends_with(&line));
    let mut replayed: Vec<&str> = said
        .lines()
        .filter_map(|line| line.split_once(' '))
        .filter(|(name, count)| name.starts_with("fz_") && *count != "0")
        .map(|(name, _)| name)
        .collect();
    replayed.sort();
    assert_eq!(replayed, exported());
}

/// The refusals of each operation.
fn refusals(of: Operation) -> Vec<u64> {
    match of {
        Operation::ReadSignature => (1..=9).chain([25]).collect(),
        Operation::Measure | Operation::Plan => (1..=9).chain([25, 29]).collect(),
        Operation::Narrow => vec![14],
        Operation::StartPpc64
        | Operation::StartZ
        | Operation::StartAix
        | Operation::StartPpc64b => vec![16],
        Operation::Enter => vec![16, 17, 18, 19, 23, 28],
        Operation::WriteRegister | Operation::WriteMemory => vec![16, 20, 23],
        Operation::Leave => vec![16, 21, 22, 23],
        Operation::Fill => (1..=12).chain([15, 25, 29]).collect(),
        Operation::Read => (1..=11).chain([13, 14, 15, 25, 26, 29]).collect(),
        Operation::Home => (1..=9).chain([11, 14, 15, 24, 25, 29]).collect(),
        Operation::View => (1..=9).chain([11, 24, 25, 29]).collect(),
        Operation::WalkStart => (1..=9).chain([25]).collect(),
        Operation::Walk => {
            let of_the_item = (1..=6).chain([8, 25]);
            of_the_item
                .chain([10, 11, 13, 14, 15, 23, 26, 29])
                .collect()
        }
        Operation::WalkDumpPpc64 | Operation::WalkDumpZ | Operation::WalkDumpAix => {
            vec![30, 31, 32]
        }
        Operation::StoredLength => (1..=9).chain([25, 29]).collect(),
        Operation::StorePlan => (1..=9).chain([25, 29, 33]).collect(),
        Operation::CheckPlan => (1..=9).chain([25, 27, 29]).collect(),
        Operation::FillStored => (1..=12).chain([15, 25, 27, 29]).collect(),
        _ => vec![],
    }
}

#[test]
fn every_operation_gives_every_answer() {
    let cases = cases::all(compare::seed(), cases::LEAST);
    let answers = Answers::of(&cases);
    println!("{answers}");
    for operation in Operation::CALLS {
        let accepted = answers.count(operation, 0);
        assert!(accepted >= 100, "{operation:?}: accepted only {accepted}");
        for number in refusals(operation) {
            // of the signature's refusals these have but a few each
            let of_values = (Operation::Fill..=Operation::View).contains(&operation)
                || matches!(
                    operation,
                    Operation::WalkStart | Operation::Walk | Operation::FillStored
                );
            let of_signatures = number <= 9 || number == 25 || number == 29;
            let least = match number {
                _ if of_values && of_signatures => 0,
                // a dump of over 4,096 frames is large
                31 => 3,
                // of one convention alone, and the last also of few types
                25 => 5,
                29 => 2,
                _ => 10,
            };
            let refused = answers.count(operation, number);
            assert!(refused >= least, "{operation:?}: {number} only {refused}");
        }
    }
    for &(operation, number) in answers.0.keys() {
        let known = number == 0 || refusals(operation).contains(&number);
        assert!(known, "{operation:?} does not refuse with {number}");
    }
}

/// A refused signature's count of headers is among the answers of every operation that reads one.
#[test]
fn refused_signatures_come_with_counts() {
    let cases = cases::all(compare::seed(), cases::LEAST);
    for operation in [
        Operation::ReadSignature,
        Operation::Measure,
        Operation::Plan,
        Operation::Fill,
        Operation::Read,
        Operation::Home,
        Operation::View,
        Operation::WalkStart,
        Operation::Walk,
        Operation::StoredLength,
        Operation::StorePlan,
        Operation::CheckPlan,
        Operation::FillStored,
    ] {
        let refused = cases
            .iter()
            .filter(|case| case.operation == operation && matches!(case.answer[0], 2..=9 | 25));
        let counted = refused.filter(|case| case.answer[2] > 0).count();
        assert!(counted >= 100, "{operation:?}: only {counted} counts");
    }
}

/// The case of this number with what must be replayed before it.
fn with_its_machine(cases: &[Case], number: usize) -> Vec<Case> {
    let of_the_machine = |operation: Operation| {
        (Operation::StartPpc64..=Operation::Leave).contains(&operation)
            || matches!(operation, Operation::StartAix | Operation::StartPpc64b)
    };
    let start = match of_the_machine(cases[number].operation) {
        false => number,
        true => (0..number)
            .rfind(|&at| cases[at].operation == Operation::SetMachine)
            .expect("a machine is set before it is called"),
    };
    cases[start..=number].to_vec()
}

/// The cases that say something else than this one: a word of its answer, or a byte of what it was
/// lent.
fn altered(case: &Case) -> Vec<Case> {
    let mut all = Vec::new();
    for word in 0..case.answer.len() {
        let mut other = case.clone();
        other.answer[word] ^= 1 << (9 * word % 64);
        all.push(other);
    }
    // the state and the memory of a machine come before what a call is lent for itself
    let kept = case.changes.len() - case.lent.len();
    for buffer in 0..case.changes.len() {
        let mut other = case.clone();
        match other.changes[buffer].last_mut() {
            Some(Change { bytes, .. }) => bytes[0] ^= 0x80,
            // nothing is lent that could change
            None if buffer >= kept && case.lent[buffer - kept].is_empty() => continue,
            // a change where there is none
            None => other.changes[buffer].push(Change {
                at: 0,
                bytes: match buffer >= kept {
                    true => vec![!case.lent[buffer - kept][0]],
                    // which these bytes are only by the least of chances
                    false => b"altered!".to_vec(),
                },
            }),
        }
        all.push(other);
    }
    all
}

#[test]
fn the_program_notices_what_differs() {
    let program = compile("replay-altered");
    let cases = cases::all(compare::seed(), 10_000);
    let mut noticed = 0;
    for operation in Operation::CALLS {
        for accepted in [true, false] {
            let of = |case: &Case| case.operation == operation && (case.answer[0] == 0) == accepted;
            let Some(number) = cases.iter().position(of) else {
                continue;
            };
            let right = with_its_machine(&cases, number);
            assert_eq!(replay(&program, &right).0, Some(0));
            for wrong in altered(&cases[number]) {
                let mut list = right.clone();
                *list.last_mut().expect("the case itself") = wrong.clone();
                let (status, said) = replay(&program, &list);
                assert_eq!(status, Some(1), "{wrong:?}\n{said}");
                assert!(said.ends_with(", 1 mismatches\n"), "{wrong:?}\n{said}");
                noticed += 1;
            }
        }
    }
    println!("{noticed} altered cases were noticed");
    assert!(noticed >= 120, "only {noticed} altered cases");
}
