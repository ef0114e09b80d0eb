//! The program is held to the listings that are stored for the library's planner.

use std::path::PathBuf;
use std::process::Command;

#[test]
fn the_stored_listings() {
    let folder = PathBuf::from(env!("CARGO_MANIFEST_DIR")).join("../../examples/signatures");
    let mut listings = 0;
    for entry in std::fs::read_dir(folder).unwrap() {
        let path = entry.unwrap().path();
        if path.extension().is_some_and(|extension| extension == "hex") {
            let stored = std::fs::read_to_string(path.with_extension("listing")).unwrap();
            let run = Command::new(env!("CARGO_BIN_EXE_second"))
                .arg(&path)
                .output()
                .unwrap();
            assert!(run.status.success(), "{path:?}");
            assert_eq!(String::from_utf8(run.stdout).unwrap(), stored, "{path:?}");
            listings += 1;
        }
    }
    assert!(listings >= 20);
}

#[test]
fn no_signature() {
    let program = || Command::new(env!("CARGO_BIN_EXE_second"));
    assert_eq!(program().output().unwrap().status.code(), Some(2));
    let missing = program().arg("no such file").output().unwrap();
    assert_eq!(missing.status.code(), Some(2));
}
