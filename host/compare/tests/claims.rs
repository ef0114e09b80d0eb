//! `docs/CLAIMS.md` beside the repository: the files, names and must-fail edits that it names are
//! there, and what it quotes stands word for word in its file. Whether a statement says what the
//! page says is for a reader.

use std::collections::BTreeSet;
use std::fs;
use std::path::{Path, PathBuf};

fn root() -> PathBuf {
    Path::new(env!("CARGO_MANIFEST_DIR")).join("../..")
}

/// The text of the table's rows: what stands between the bars, row by row, without the headings.
fn rows(text: &str) -> Vec<Vec<&str>> {
    let lines = text.lines().filter(|line| line.starts_with("| "));
    lines
        .map(|line| line.trim_matches('|').split(" | ").map(str::trim).collect())
        .collect()
}

fn is_type(name: &str) -> bool {
    name.starts_with(|c: char| c.is_ascii_uppercase())
}

/// What stands in backquotes, if it is one name: letters, digits and what names are joined with.
fn names(text: &str) -> BTreeSet<&str> {
    let quoted = text.split('`').skip(1).step_by(2);
    // of `Encodes.items` and `Outcome::Accepted` the first name; `z-..-written` is several
    quoted
        .map(|name| name.split([' ', ':']).next().unwrap_or(name))
        .map(|name| match name.split_once('.') {
            Some((owner, field)) if is_type(owner) && !field.starts_with('.') => owner,
            _ => name,
        })
        .filter(|name| !name.is_empty() && !name.contains("..") && !name.contains('/'))
        .filter(|name| {
            name.chars()
                .all(|c| c.is_alphanumeric() || matches!(c, '_' | '-'))
        })
        .collect()
}

/// The paths below `crates/`, as the text names them from its start to its end.
fn paths(text: &str) -> impl Iterator<Item = &str> {
    let words = text.split([' ', ',', ';', ')', '(', '`', '\n']);
    words
        .filter(|word| word.starts_with("crates/"))
        .map(|word| word.trim_end_matches(['.', ':']))
}

/// The quotations, which are the blocks between lines of three backquotes: each with the file that
/// the text before it names last.
fn quotations(page: &str) -> Vec<(Option<&str>, &str)> {
    let parts: Vec<&str> = page.split("\n```").collect();
    let pairs = parts.chunks_exact(2);
    pairs
        .map(|pair| {
            // the rest of the opening line may name a language
            let (_, quoted) = pair[1].split_once('\n').unwrap_or(("", ""));
            (paths(pair[0]).last(), quoted)
        })
        .collect()
}

/// What the page quotes otherwise than the file has it. A quotation may leave out lines where it
/// has an empty one; what is left of it stands in the file line by line.
fn misquoted(page: &str) -> Vec<String> {
    let mut faults = Vec::new();
    for (file, quoted) in quotations(page) {
        let Some(file) = file else {
            faults.push(format!("a quotation of no file: {quoted}"));
            continue;
        };
        let text = fs::read_to_string(root().join(file)).unwrap_or_default();
        let text = format!("\n{text}\n");
        for lines in quoted.split("\n\n") {
            let lines = lines.trim_matches('\n');
            if lines.is_empty() || !text.contains(&format!("\n{lines}\n")) {
                faults.push(format!("not in {file}: {lines}"));
            }
        }
    }
    faults
}

/// The edits in the third column of the table of wrong programs.
fn edits(text: &str) -> BTreeSet<&str> {
    let (_, table) = text
        .split_once("| wrong program |")
        .expect("a table of wrong programs");
    let (table, _) = table.split_once("\n\n").expect("an end of the table");
    rows(table)
        .iter()
        .filter_map(|cells| cells.get(2))
        .flat_map(|cell| cell.split(", "))
        .collect()
}

/// All Rattle and proofs below a folder.
fn sources(folder: &Path, into: &mut String) {
    let entries = fs::read_dir(folder).expect("a folder of the crates");
    for entry in entries {
        let path = entry.expect("an entry").path();
        if path.is_dir() {
            sources(&path, into);
        } else if path
            .extension()
            .is_some_and(|end| end == "rt" || end == "antt")
        {
            into.push_str(&fs::read_to_string(&path).expect("a source"));
        }
    }
}

/// What the page names and the repository does not have.
fn faults(page: &str) -> Vec<String> {
    let root = root();
    let mut text = String::new();
    sources(&root.join("crates"), &mut text);
    let known: BTreeSet<&str> = text
        .split(|c: char| !(c.is_alphanumeric() || matches!(c, '_' | '-')))
        .collect();
    let tables = page
        .lines()
        .filter(|line| line.starts_with("| "))
        .collect::<Vec<_>>()
        .join("\n");
    let crates = fs::read_to_string(root.join("crates.txt")).expect("crates.txt");
    // a line is `NAME: ..` or `NAME staticlib: ..`
    let crates: BTreeSet<&str> = crates
        .lines()
        .filter_map(|line| line.split([' ', ':']).next())
        .collect();
    let mut faults = Vec::new();
    for path in paths(page).collect::<BTreeSet<_>>() {
        if !root.join(path).exists() {
            faults.push(format!("no file {path}"));
        }
    }
    for edit in edits(page) {
        let there = edit.split_once('/').is_some_and(|(name, label)| {
            let file = format!("crates/{name}/must-fail/{label}.edit");
            root.join(file).exists()
        });
        if !there {
            faults.push(format!("no edit {edit}"));
        }
    }
    for name in names(&tables) {
        if !known.contains(name) && !crates.contains(name) && name != "requires" {
            faults.push(format!("nothing is called {name}"));
        }
    }
    faults
}

fn page() -> String {
    fs::read_to_string(root().join("docs/CLAIMS.md")).expect("docs/CLAIMS.md")
}

#[test]
fn what_the_claims_name_is_there() {
    let faults = faults(&page());
    assert!(faults.is_empty(), "{}", faults.join("\n"));
}

#[test]
fn what_is_not_there_is_found() {
    let page = page()
        .replace(
            "sig_head/refuse_everything",
            "signature_head/refuse_nothing",
        )
        .replace("`fill_answer`", "`fill_answering`")
        .replace(
            "crates/plan_plans/specs/Disjoint.antt",
            "crates/plan_plans/specs/Apart.antt",
        );
    let expected = [
        "no file crates/plan_plans/specs/Apart.antt",
        "no edit signature_head/refuse_nothing",
        "nothing is called fill_answering",
    ];
    assert_eq!(faults(&page), expected);
}

/// A file of definitions that only proofs and helpers need says so, and the page cites none.
#[test]
fn no_claim_cites_what_is_for_helpers() {
    let crates = fs::read_dir(root().join("crates")).expect("the crates");
    let files = crates.map(|entry| entry.expect("a crate").path().join("specs/Helpers.antt"));
    let mut found = 0;
    for file in files.filter(|file| file.exists()) {
        let text = fs::read_to_string(&file).expect("definitions");
        let first = "-- For proofs and helpers alone: no claim cites this file.\n";
        assert!(text.starts_with(first), "{}", file.display());
        found += 1;
    }
    assert!(found > 10, "only {found} such files");
    assert!(!page().contains("Helpers.antt"));
}

#[test]
fn quotations_are_word_for_word() {
    let page = page();
    assert!(!quotations(&page).is_empty(), "nothing is quoted");
    let faults = misquoted(&page);
    assert!(faults.is_empty(), "{}", faults.join("\n"));
}

#[test]
fn misquotations_are_found() {
    let file = "crates/frame_history/specs/Preserved.antt";
    let quote = |file: &str, lines: &str| format!("In {file}:\n\n```\n{lines}\n```\n\nAnd on.\n");
    let closing = "close_latest [] = []\nclose_latest (o ∷ os) = os";
    let opening = "open_after leave (Ok tt) m os = close_latest os";

    let faithful = quote(file, &format!("{closing}\n\n{opening}"));
    assert!(misquoted(&faithful).is_empty());
    let named_last = quote(&format!("crates/none/none.antt and {file}"), closing);
    assert!(misquoted(&named_last).is_empty());

    // another text, lines left out without an empty one, nothing, and another file
    let other = "close_latest (o ∷ os) = o";
    let joined = format!("close_latest [] = []\n{opening}");
    let wrong = [
        (file, other),
        (file, &joined),
        (file, ""),
        ("crates/frame_history/specs/Calls.antt", closing),
        ("crates/none/none.antt", closing),
    ];
    for (file, lines) in wrong {
        let expected = format!("not in {file}: {lines}");
        assert_eq!(misquoted(&quote(file, lines)), [expected]);
    }
    let nameless = format!("a quotation of no file: {closing}");
    assert_eq!(misquoted(&quote("no file", closing)), [nameless]);
}

/// `scripts/check-toolchain` looks at `toolchain.txt`; a reader looks at README.md.
#[test]
fn the_readme_names_the_toolchain() {
    let file = |name| fs::read_to_string(root().join(name)).expect(name);
    let (toolchain, readme) = (file("toolchain.txt"), file("README.md"));
    let named = format!("`{}`", toolchain.trim_end());
    assert!(readme.contains(&named), "{named}");
}
