//! The command's readers on the corpus of `fuzz/corpus`, each file as it is and with 30 changes, under
//! sanitizers. `make fuzz SECONDS=600` goes on from there.

mod support;

use std::process::Command;

#[test]
fn the_corpus() {
    let output = Command::new(support::root().join("scripts/fuzz"))
        .args(["0", "1"])
        .output()
        .expect("the script starts");
    let said = String::from_utf8_lossy(&output.stdout);
    let faults = String::from_utf8_lossy(&output.stderr);
    println!("{said}");
    assert!(output.status.success(), "{said}{faults}");
    let last = said.lines().last().expect("a last line");
    assert!(last.ends_with(" 0 failures"), "{said}");
    let runs = last
        .split(' ')
        .nth(2)
        .and_then(|word| word.parse::<usize>().ok());
    assert!(runs.expect("a count") > 20_000, "{said}");
}
