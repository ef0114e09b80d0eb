//! The drawing and the table of the crates in `docs/ARCHITECTURE.md` beside `crates.txt`, whose
//! arrows the toolchain itself holds the crates to.

use std::collections::{BTreeMap, BTreeSet};
use std::path::Path;

/// Each crate with those below it.
type Arrows = BTreeMap<String, BTreeSet<String>>;

/// The crates and arrows of `crates.txt`: a line `NAME: BELOW BELOW ..` for each crate, of a static
/// library `NAME staticlib: BELOW BELOW ..`, and comments.
fn listed(text: &str) -> Arrows {
    let lines = text.lines().filter(|line| !line.starts_with('#'));
    let crates = lines.filter_map(|line| line.split_once(':'));
    crates
        .map(|(head, below)| {
            let name = head.split_whitespace().next().expect("a crate's name");
            (name.to_string(), words(below))
        })
        .collect()
}

/// The lines of the drawing, from its top down. It is the first block between lines of three
/// backquotes; an indented line is a crate, with `->` before those right below it, and other lines
/// are headings.
fn drawn(text: &str) -> Vec<(String, BTreeSet<String>)> {
    let drawing = text.split("\n```").nth(1).expect("a drawing");
    let crates = drawing.lines().filter(|line| line.starts_with(' '));
    crates
        .map(|line| {
            let (name, below) = line.split_once("->").unwrap_or((line, ""));
            (name.trim().to_string(), words(below))
        })
        .collect()
}

/// The crates that have a row in the table.
fn tabled(text: &str) -> BTreeSet<String> {
    let rows = text.lines().filter_map(|line| line.strip_prefix("| `"));
    rows.filter_map(|row| row.split_once('`'))
        .map(|(name, _)| name.to_string())
        .collect()
}

fn words(text: &str) -> BTreeSet<String> {
    text.split_whitespace().map(str::to_string).collect()
}

/// All that can be reached from a crate along the arrows.
fn reached(arrows: &Arrows, from: &str) -> BTreeSet<String> {
    let mut found = BTreeSet::new();
    let mut ahead = vec![from.to_string()];
    while let Some(name) = ahead.pop() {
        for below in arrows.get(&name).into_iter().flatten() {
            if found.insert(below.clone()) {
                ahead.push(below.clone());
            }
        }
    }
    found
}

/// What is wrong with the drawing and the table, a line for each fault.
fn faults(crates: &str, architecture: &str) -> Vec<String> {
    let (listed, lines) = (listed(crates), drawn(architecture));
    let arrows: Arrows = lines.iter().cloned().collect();
    let tabled = tabled(architecture);
    let mut faults = Vec::new();
    if arrows.len() < lines.len() {
        faults.push("a crate is drawn twice".to_string());
    }
    for (name, below) in &listed {
        if !arrows.contains_key(name) {
            faults.push(format!("{name} is not drawn"));
        }
        if !tabled.contains(name) {
            faults.push(format!("{name} has no row in the table"));
        }
        for missing in below.difference(&reached(&arrows, name)) {
            faults.push(format!("{name} -> {missing} is not drawn"));
        }
    }
    for (at, (name, below)) in lines.iter().enumerate() {
        if !listed.contains_key(name) {
            faults.push(format!("{name} is drawn and is no crate"));
        }
        for extra in below.difference(&reached(&listed, name)) {
            faults.push(format!("{name} -> {extra} is drawn and is no arrow"));
        }
        for up in below {
            if !lines[at + 1..].iter().any(|(lower, _)| lower == up) {
                faults.push(format!("{name} -> {up} does not point down"));
            }
        }
    }
    for extra in tabled.iter().filter(|name| !listed.contains_key(*name)) {
        faults.push(format!("{extra} has a row in the table and is no crate"));
    }
    faults
}

/// The lines that the drawing would have, the highest crates first: each with those below it that
/// are not below another of them.
fn lines(listed: &Arrows) -> String {
    let mut names: Vec<&String> = listed.keys().collect();
    names.sort_by_key(|name| std::cmp::Reverse(reached(listed, name).len()));
    let mut text = String::new();
    for name in names {
        let all = &listed[name];
        let through: BTreeSet<String> = all.iter().flat_map(|at| reached(listed, at)).collect();
        let below: Vec<&str> = all.difference(&through).map(String::as_str).collect();
        let line = match below.is_empty() {
            true => format!("  {name}"),
            false => format!("  {name:<14} -> {}", below.join("  ")),
        };
        text = text + &line + "\n";
    }
    text
}

fn file(name: &str) -> String {
    let path = Path::new(env!("CARGO_MANIFEST_DIR"))
        .join("../..")
        .join(name);
    std::fs::read_to_string(&path).unwrap_or_else(|fault| panic!("{path:?}: {fault}"))
}

#[test]
fn the_drawing_has_the_crates_and_their_arrows() {
    let crates = file("crates.txt");
    let faults = faults(&crates, &file("docs/ARCHITECTURE.md"));
    assert!(
        faults.is_empty(),
        "docs/ARCHITECTURE.md:\n{}\nthe drawing's lines, from crates.txt:\n{}",
        faults.join("\n"),
        lines(&listed(&crates))
    );
}

/// Document 02, No. 14: "above the reader but knowing nothing of the first planner", of which all is
/// part that is below it and not of reading.
#[test]
fn the_second_planner_knows_nothing_of_the_first() {
    let arrows = listed(&file("crates.txt"));
    let with_below = |name: &str| {
        let mut all = reached(&arrows, name);
        assert!(all.insert(name.to_string()));
        all
    };
    let reading = &with_below("sig_reader") | &with_below("sig_whole");
    let first = &with_below("plan_planning") - &reading;
    let second = with_below("second_planner");
    assert!(
        first.contains("plan_plans")
            && first.contains("plan_places")
            && first.contains("plan_power_step")
    );
    assert!(second.contains("sig_reader"));
    let known: Vec<&String> = second.intersection(&first).collect();
    assert!(known.is_empty(), "the second planner knows {known:?}");
}

/// A drawing and its table: top over middle over bottom, and side over bottom.
const ARCHITECTURE: &str = "\
# Crates

```
above
  top     -> middle
below
  middle  -> bottom
  side    -> bottom
  bottom
```

| `top` | |
| `middle` | |
| `side` | |
| `bottom` | |
";

fn told(crates: &str, architecture: &str, expected: &[&str]) {
    assert_eq!(faults(crates, architecture), expected);
}

#[test]
fn arrows_that_follow_through_others_are_there() {
    let crates = "# all\nbottom:\nmiddle: bottom\nside: bottom\ntop: middle bottom\n";
    told(crates, ARCHITECTURE, &[]);
    let exports = "bottom:\nmiddle: bottom\nside staticlib: bottom\ntop staticlib: middle bottom\n";
    told(exports, ARCHITECTURE, &[]);
}

#[test]
fn lines_to_draw() {
    let crates = "bottom:\nmiddle: bottom\nside: bottom\ntop: middle side bottom\n";
    let expected = "  \
  top            -> middle  side
  middle         -> bottom
  side           -> bottom
  bottom
";
    assert_eq!(lines(&listed(crates)), expected);
}

#[test]
fn each_fault_is_found() {
    let crates = "bottom:\nmiddle: bottom\nside: bottom\ntop: middle side\n";
    told(crates, ARCHITECTURE, &["top -> side is not drawn"]);

    let crates = "bottom:\nmiddle:\nside: bottom\ntop: middle\n";
    told(
        crates,
        ARCHITECTURE,
        &["middle -> bottom is drawn and is no arrow"],
    );

    let crates = "bottom:\nmiddle: bottom\nside: bottom\nnew: side\ntop: middle\n";
    let missing = [
        "new is not drawn",
        "new has no row in the table",
        "new -> side is not drawn",
    ];
    told(crates, ARCHITECTURE, &missing);

    let crates = "bottom:\nmiddle: bottom\ntop: middle\n";
    let extra = [
        "side is drawn and is no crate",
        "side -> bottom is drawn and is no arrow",
        "side has a row in the table and is no crate",
    ];
    told(crates, ARCHITECTURE, &extra);

    let crates = "bottom:\nmiddle: bottom\nside: bottom\ntop: middle\n";
    let upside = ARCHITECTURE.replace("above\n", "above\n  bottom\n");
    let upside = upside.replacen("  bottom\n```", "```", 1);
    let up = [
        "middle -> bottom does not point down",
        "side -> bottom does not point down",
    ];
    told(crates, &upside, &up);

    let twice = ARCHITECTURE.replace("above\n", "above\n  side    -> bottom\n");
    told(crates, &twice, &["a crate is drawn twice"]);
}
