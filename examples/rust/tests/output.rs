//! What the programs print is stored, and the C programs print the same.

use std::process::Command;

fn prints(program: &str, stored: &str) {
    let output = Command::new(program).output().expect("the program runs");
    assert!(output.status.success());
    assert_eq!(String::from_utf8_lossy(&output.stdout), stored);
}

#[test]
fn a_call() {
    prints(env!("CARGO_BIN_EXE_call"), include_str!("../../call.out"));
}

#[test]
fn stored_plans() {
    let program = env!("CARGO_BIN_EXE_stored");
    prints(program, include_str!("../../stored.out"));
}
