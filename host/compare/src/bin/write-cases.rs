//! Writes a file of cases for `targets/replay.c`, and says how many there are of each kind.

#![forbid(unsafe_code)]

use compare::cases::{self, Answers};
use std::process::ExitCode;

fn main() -> ExitCode {
    let words: Vec<String> = std::env::args().skip(1).collect();
    let [path] = words.as_slice() else {
        eprintln!("usage: write-cases FILE");
        return ExitCode::from(2);
    };
    let seed = compare::seed();
    let cases = cases::all(seed, cases::LEAST);
    if let Err(fault) = std::fs::write(path, cases::file(&cases)) {
        eprintln!("write-cases: {path}: {fault}");
        return ExitCode::from(2);
    }
    println!("seed {seed:#x}: {}", Answers::of(&cases));
    ExitCode::SUCCESS
}
