//! A word means one thing: no two crates define the same one, in specs/ or as a type of the code.

use std::collections::{BTreeMap, BTreeSet};
use std::fs;
use std::path::{Path, PathBuf};

/// What is said of the machine's own calls and again of those that C makes, which are one thing on
/// states and on words.
const TWO_LEVELS: [&str; 2] = ["frame_history", "frame_word_history"];

/// Each word with the crates that define it.
type Defined = BTreeMap<String, BTreeSet<String>>;

/// The word that a line defines, if it does.
type Of = fn(&str) -> Option<&str>;

fn crates() -> PathBuf {
    Path::new(env!("CARGO_MANIFEST_DIR")).join("../../crates")
}

/// The files below a folder, none where it isn't there.
fn files(folder: &Path) -> Vec<PathBuf> {
    let Ok(entries) = fs::read_dir(folder) else {
        return Vec::new();
    };
    let paths = entries.map(|entry| entry.unwrap().path());
    paths
        .flat_map(|path| match path.is_dir() {
            true => files(&path),
            false => vec![path],
        })
        .collect()
}

/// The word that a line of definitions defines: `data WORD ..`, `record WORD ..`, or `WORD : ..`.
fn defined(line: &str) -> Option<&str> {
    let marks = ["pub", "abbrev", "unfoldable", "opaque"];
    let mut words = line.split(' ').skip_while(|word| marks.contains(word));
    match (words.next()?, words.next()?) {
        ("data" | "record", word) => Some(word),
        ("--" | "", _) => None,
        (word, ":") => Some(word),
        _ => None,
    }
}

/// The type that a line of code defines.
fn declared(line: &str) -> Option<&str> {
    let mut words = line.split([' ', '<', '{', '(', ';']);
    let first = words.next()?;
    let kind = if first == "pub" { words.next()? } else { first };
    match kind {
        "enum" | "struct" => words.next(),
        _ => None,
    }
}

fn add(to: &mut Defined, crate_name: &str, text: &str, of: Of) {
    for word in text.lines().filter_map(of) {
        let crates = to.entry(word.to_string()).or_default();
        crates.insert(crate_name.to_string());
    }
}

/// The words that several crates define, a line for each.
fn twice(defined: &Defined) -> Vec<String> {
    let several = defined.iter().filter(|(_, crates)| {
        crates.len() > 1
            && !crates
                .iter()
                .all(|name| TWO_LEVELS.contains(&name.as_str()))
    });
    let told = several.map(|(word, crates)| format!("{word}: {crates:?}"));
    told.collect()
}

#[test]
fn each_word_means_one_thing() {
    let mut words = Defined::new();
    for entry in fs::read_dir(crates()).unwrap() {
        let folder = entry.unwrap().path();
        let name = folder.file_name().unwrap().to_str().unwrap().to_string();
        let parts: [(&str, Of); 2] = [("specs", defined), ("src", declared)];
        for (part, of) in parts {
            for file in files(&folder.join(part)) {
                add(&mut words, &name, &fs::read_to_string(file).unwrap(), of);
            }
        }
    }
    for known in ["signature_of", "CallRules", "FrameRules", "Demand3"] {
        assert!(words.contains_key(known), "{known} was not found");
    }
    assert!(words.len() > 900, "only {} words were found", words.len());
    let twice = twice(&words);
    assert!(twice.is_empty(), "{}", twice.join("\n"));
}

#[test]
fn a_word_that_means_two_things_is_found() {
    let mut words = Defined::new();
    add(
        &mut words,
        "a",
        "unfoldable pub walk : Set\nwalk = x\n-- left : no\n",
        defined,
    );
    add(
        &mut words,
        "a",
        "  pub place : field\npub record Walked (s : Set) : Set\n",
        defined,
    );
    add(
        &mut words,
        "b",
        "pub struct walk {\n    left: u64,\n}\nenum Walked {}\n",
        declared,
    );
    add(
        &mut words,
        "frame_history",
        "abbrev pub after : Set",
        defined,
    );
    add(
        &mut words,
        "frame_word_history",
        "abbrev pub after : Set",
        defined,
    );
    assert_eq!(words.len(), 3);
    assert_eq!(
        twice(&words),
        [r#"Walked: {"a", "b"}"#, r#"walk: {"a", "b"}"#]
    );
}
