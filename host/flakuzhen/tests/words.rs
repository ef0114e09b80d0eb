//! The command's words: help, manual page, completions, refusals in words, signatures as text, and where
//! compilers differ. What is said in several places is held together here.

mod support;

use std::collections::BTreeSet;
use std::io::{Read, Write};
use std::path::Path;
use std::process::{Command, Output, Stdio};
use support::{command, complains, file, prints, root};

fn run(words: &[&str], input: &[u8]) -> Output {
    support::run(command(), words, input)
}

fn output_of(words: &[&str]) -> String {
    let output = run(words, b"");
    assert_eq!(output.status.code(), Some(0), "{words:?}");
    String::from_utf8(output.stdout).expect("a text")
}

fn text_of(path: &str) -> String {
    let path = root().join(path);
    std::fs::read_to_string(&path).unwrap_or_else(|fault| panic!("{path:?}: {fault}"))
}

/// The verbs with the options that their usage names.
fn verbs() -> Vec<(String, BTreeSet<String>)> {
    let help = output_of(&["--help"]);
    let usage = help.split("\n\n").next().expect("the usage");
    let lines = usage
        .lines()
        .filter_map(|line| line.split_once("flakuzhen "));
    let verb = |(_, words): (&str, &str)| {
        let words = words.split(|mark: char| mark.is_whitespace() || "[]|".contains(mark));
        let mut words = words.map(str::to_string);
        let name = words.next().expect("a verb");
        (name, words.filter(|word| word.starts_with('-')).collect())
    };
    let verbs: Vec<_> = lines
        .map(verb)
        .filter(|(name, _)| name != "VERB" && name != "--version")
        .collect();
    assert!(verbs.len() >= 10);
    verbs
}

#[test]
fn help_for_all_and_for_each() {
    let help = output_of(&["--help"]);
    assert_eq!(output_of(&["-h"]), help);
    assert_eq!(output_of(&["help"]), help);
    for (verb, options) in verbs() {
        let own = output_of(&[&verb, "--help"]);
        let first = own.lines().next().expect("its usage");
        assert!(
            first.starts_with(&format!("usage: flakuzhen {verb} ")),
            "{first}"
        );
        assert!(
            help.contains(first.trim_start_matches("usage: ")),
            "{first}"
        );
        // each option is explained, and taken
        for option in options {
            let rest = own.split_once("\n\n").expect("what it does").1;
            assert!(rest.contains(&option), "{verb} {option}");
            let output = run(&[&verb, &option], b"");
            let said = String::from_utf8_lossy(&output.stderr).to_string();
            assert!(!said.contains("unknown option"), "{verb} {option}: {said}");
        }
        assert_eq!(output_of(&[&verb, "not-there", "-h"]), own);
        assert!(own.contains("Exit status\n0  all accepted"));
        complains(&run(&[&verb, "--hax"], b""), "unknown option \"--hax\"");
    }
}

#[test]
fn the_version_is_the_librarys() {
    let version = format!("flakuzhen {}\n", env!("CARGO_PKG_VERSION"));
    assert_eq!(output_of(&["--version"]), version);
}

/// The manual page without its marks of fonts.
fn manual() -> String {
    let mut page = text_of("docs/flakuzhen.1");
    for mark in ["\\fB", "\\fI", "\\fR"] {
        page = page.replace(mark, "");
    }
    page.replace("\\-", "-").replace("\\(dq", "\"")
}

#[test]
fn the_manual_page_has_every_verb_option_and_refusal() {
    let page = manual();
    for (verb, options) in verbs() {
        assert!(page.contains(&format!("\n.B {verb}\n")), "{verb}");
        for option in options {
            let named = [".B ", ".BI "].map(|font| format!("\n{font}{option}"));
            assert!(named.iter().any(|line| page.contains(line)), "{option}");
        }
    }
    let mut refusals = 0;
    for line in output_of(&["explain"]).lines() {
        let mut words = line.split_whitespace();
        let (number, name) = (
            words.next().expect("a number"),
            words.next().expect("a name"),
        );
        let meaning = words.collect::<Vec<&str>>().join(" ").to_lowercase();
        let entry = format!("\n.BR \"{number}  {name}\"\n");
        let after = page
            .split_once(&entry)
            .unwrap_or_else(|| panic!("{entry}"))
            .1;
        let said = after.lines().next().expect("its meaning").to_lowercase();
        assert_eq!(said.trim_end_matches('.'), meaning);
        refusals += 1;
    }
    assert!(refusals >= 32);
}

/// Runs a shell's script in an empty folder, with the command at hand.
fn in_shell(name: &str, script: &str) -> String {
    let folder = support::temporary(name);
    let _ = std::fs::remove_dir_all(&folder);
    std::fs::create_dir_all(folder.join("bin")).expect("a folder of the test's own");
    std::fs::copy(command(), folder.join("bin/flakuzhen")).expect("a copy");
    let path = format!("{}:{}", folder.join("bin").display(), env!("PATH"));
    let output = Command::new("bash")
        .args(["-c", script])
        .current_dir(&folder)
        .env("PATH", path)
        .output()
        .expect("bash starts");
    String::from_utf8(output.stdout).expect("a text")
}

/// Commands after '$ ', each with the output that follows it. A line that ends with '|' goes on.
fn sessions(text: &str) -> Vec<(String, String)> {
    let mut found: Vec<(String, String)> = Vec::new();
    let mut goes_on = false;
    for line in text.lines() {
        if let Some(command) = line.strip_prefix("$ ") {
            found.push((command.to_string(), String::new()));
            goes_on = command.ends_with('|');
        } else if let Some((command, output)) = found.last_mut() {
            if goes_on {
                *command += line;
                goes_on = line.ends_with('|');
            } else {
                *output += &format!("{line}\n");
            }
        }
    }
    found
}

/// Every command prints what stands below it.
fn holds(name: &str, sessions: &[(String, String)]) {
    let script: String = sessions
        .iter()
        .map(|(command, _)| format!("{command}\necho '<<end>>'\n"))
        .collect();
    let said = in_shell(name, &script);
    let outputs: Vec<&str> = said.split("<<end>>\n").collect();
    assert_eq!(outputs.len(), sessions.len() + 1);
    for ((command, output), said) in sessions.iter().zip(outputs) {
        assert_eq!(said, output, "{command}");
    }
}

#[test]
fn the_examples_of_the_manual_page() {
    let page = manual();
    let examples = page.split_once("\n.SH EXAMPLES\n").expect("its examples").1;
    let blocks = examples.split("\n.RS\n").skip(1);
    let blocks = blocks.filter_map(|block| block.split_once("\n.RE\n"));
    let text: String = blocks.map(|(block, _)| format!("{block}\n")).collect();
    let sessions = sessions(&text);
    assert!(sessions.len() >= 9);
    holds("manual", &sessions);
}

/// The first minute of README.md, from the command on.
#[test]
fn the_examples_of_the_readme() {
    let readme = text_of("README.md");
    let lines = readme.lines().filter_map(|line| line.strip_prefix("    "));
    let text: String = lines
        .skip_while(|line| !line.starts_with("$ "))
        .filter(|line| !line.starts_with("make "))
        .map(|line| format!("{line}\n"))
        .collect();
    let sessions = sessions(&text);
    assert!(sessions.len() >= 4);
    holds("readme", &sessions);
}

/// The names and numbers of the header's refusals.
fn header_refusals() -> BTreeSet<(u64, String)> {
    let header = text_of("include/flakuzhen.h");
    let lines = header
        .lines()
        .map(str::trim)
        .filter(|line| line.starts_with("FZ_"));
    let entry = |line: &str| {
        let (name, rest) = line.split_once(" = ")?;
        let digits: String = rest.chars().take_while(char::is_ascii_digit).collect();
        Some((digits.parse().ok()?, name.to_string()))
    };
    lines
        .filter_map(entry)
        .filter(|(number, _)| *number != 0)
        .collect()
}

#[test]
fn explains_every_refusal_as_the_header_and_the_rust_library_name_it() {
    let mut listed = BTreeSet::new();
    for line in output_of(&["explain"]).lines() {
        let (number, rest) = line.trim_start().split_once(' ').expect("a number");
        let (name, meaning) = rest.trim_start().split_once(' ').expect("a name");
        let refusal = flakuzhen::Refusal {
            number: number.parse().expect("a number"),
            place: 0,
            items: 0,
        };
        let said = output_of(&["explain", number]);
        let first = format!("{number} {name}: {}\n", meaning.trim_start());
        assert!(
            said.starts_with(&first) && said.lines().count() > 1,
            "{said}"
        );
        listed.insert((refusal.number, name.to_string()));
        assert_eq!(refusal.message(), meaning.trim_start());
    }
    let known = header_refusals();
    assert_eq!(known.len(), 33);
    assert_eq!(known, listed);
    assert_eq!(
        output_of(&["explain", "5", "0x6"]),
        format!(
            "{}\n{}",
            output_of(&["explain", "5"]),
            output_of(&["explain", "6"])
        )
    );
    complains(&run(&["explain", "0"], b""), "\"0\" is no refusal's number");
    complains(&run(&["explain", "x"], b""), "\"x\" is no number");
}

/// The status, and what standard error says.
fn told(words: &[&str], input: &[u8]) -> (Option<i32>, String) {
    let output = run(words, input);
    support::says_only_in_whole_lines(&output);
    let said = String::from_utf8(output.stderr).expect("a text");
    (output.status.code(), said)
}

#[test]
fn refusals_in_words() {
    let cases: [(&[&str], &[u8], &str); 8] = [
        (
            &["list", "--hex"],
            b"# a comment\n01 0001 01 02 0000\n03 0007 12 0004 # a struct\n  11 0001 02\n",
            "standard input: line 4, column 3: FZ_LONG_DOUBLE_IN_STRUCT (5): a long double inside a struct\n",
        ),
        (
            &["read", "--hex"],
            b"01 0001 01 020000030000 00",
            "standard input: line 1, column 25: FZ_TRAILING_BYTES (9): bytes after the arguments\n",
        ),
        (
            &["read", "--hex"],
            b"",
            "standard input: line 1, column 1: FZ_TRUNCATED (2)",
        ),
        (
            &["list", "--text"],
            b"# two lines\nppc64 void(i32,\n  {u8, {longdouble}})\n",
            "standard input: line 3, column 9: \"longdouble\": FZ_LONG_DOUBLE_IN_STRUCT (5)",
        ),
        (
            &["list", "--text"],
            b"ppc64b void(double, double, double, double, double, double, double, double, double, \
              double, double, double, longdouble)",
            "line 1, column 109: \"longdouble\": FZ_UNCLEAR_PLACE (29)",
        ),
        (
            &["read"],
            b"\x01\x00\x01\x01\x02\x00\x00\x05",
            "standard input: byte 7: FZ_TRUNCATED (2): no room for an item's header",
        ),
        (
            &["read"],
            b"01 0001 01 02 0000 03 0000\n",
            "was taken as bytes: try --hex\n",
        ),
        (
            &["read"],
            b"# a signature\nppc64 void()\n",
            "was taken as bytes: try --text\n",
        ),
    ];
    for (words, input, said) in cases {
        let (status, told) = told(words, input);
        assert_eq!(status, Some(1), "{words:?}");
        assert!(told.contains(said), "{told}");
    }
    // no hint where there is nothing to hint at
    let (_, said) = told(&["read"], &[0x30, 0x31, 0xff]);
    assert!(!said.contains("try"), "{said}");
    // each call of a list and each file of several is told
    let (status, said) = told(&["replay", "-"], b"start z 4096 0\nleave\nwrite r9 1\n");
    let line = "standard input: line 2: FZ_NOTHING_ENTERED (22): no frame to leave\n";
    assert!(status == Some(1) && said.contains(line), "{said}");
    assert!(said.contains("line 3: FZ_NOT_PERMITTED (20): "), "{said}");
    let (status, said) = told(&["dump", "z", "0", "0", "-"], b"");
    assert!(
        status == Some(1) && said.contains("standard input: FZ_BAD_ADDRESS (30): "),
        "{said}"
    );
}

#[test]
fn signatures_as_text() {
    let text = "ppc64 i32(u32, single, {u8, u16, {double}}, pointer)\n";
    let listing = "PPC64 args 4 area 64\n0 r3 @0\n1 f1 @8\n2 r5 r6 @16\n3 r7 @32\nresult r3\n";
    prints(&run(&["list", "--text"], text.as_bytes()), 0, listing);
    let sig = file("named.sig", text.as_bytes());
    // by its name it is text, with --hex too: others beside it may be hexadecimal
    for words in [
        &["list", &sig][..],
        &["list", "--hex", &sig],
        &["list", "--text", &sig],
    ] {
        prints(&run(words, b""), 0, listing);
    }
    let bytes = run(&["encode", &sig], b"").stdout;
    prints(&run(&["list"], &bytes), 0, listing);
    prints(&run(&["decode"], &bytes), 0, text);
    prints(&run(&["decode", &sig], b""), 0, text);
    let hex = run(&["encode", "--hex", "-"], text.as_bytes()).stdout;
    prints(&run(&["decode", "--hex", "-"], &hex), 0, text);
    prints(
        &run(&["decode", "--text"], b"aix void(i32,...)#"),
        0,
        "aix void(i32, ...)\n",
    );
    prints(
        &run(&["decode", "--text"], b"z{i64,i64}()"),
        0,
        "z {i64, i64}()\n",
    );
    // nothing is written of what is refused
    let output = run(&["encode", "-"], b"aix void(longdouble)");
    prints(&output, 1, "");
    assert!(String::from_utf8_lossy(&output.stderr).contains("column 10: \"longdouble\": FZ_FLOAT"));
    prints(&run(&["decode"], &bytes[1..]), 1, "");
    let faults = [
        (
            "",
            "line 1, column 1: expected a convention: ppc64, z, aix or ppc64b, and the text ends",
        ),
        (
            "ppc",
            "line 1, column 1: expected a convention: ppc64, z, aix or ppc64b, found \"ppc\"",
        ),
        (
            "z int()",
            "column 3: expected the result's type, or 'void', found \"int\"",
        ),
        ("z void", "column 7: expected '(', and the text ends"),
        (
            "z void(void)",
            "column 8: expected a type, '...' or ')', found \"void\"",
        ),
        (
            "z void(i32,\n)",
            "line 2, column 1: expected a type, or '...', found \")\"",
        ),
        ("z void({i32,})", "column 13: expected a type, found \"}\""),
        (
            "z void({i32;})",
            "column 12: expected ',' or '}', found \";\"",
        ),
        (
            "z void(i32;)",
            "column 11: expected ',' or ')', found \";\"",
        ),
        (
            "z void({",
            "column 9: expected a type, or '}', and the text ends",
        ),
        (
            "z void(..., i32)",
            "column 11: expected ')': nothing comes after '...', found \",\"",
        ),
        (
            "z void() i32",
            "column 10: expected nothing more, found \"i32\"",
        ),
    ];
    for (text, said) in faults {
        for verb in ["list", "read", "decode"] {
            complains(&run(&[verb, "--text"], text.as_bytes()), said);
        }
        complains(&run(&["encode"], text.as_bytes()), said);
    }
    complains(
        &run(&["list", "z void()"], b""),
        "\"z void()\": No such file or directory (os error 2): a signature's text is read from a file",
    );
    complains(&run(&["encode", &sig, &sig], b""), "encode takes one FILE");
    complains(&run(&["decode", &sig, &sig], b""), "decode takes one FILE");
    complains(&run(&["encode", "--text"], b""), "\"--text\"");
}

/// The signatures of the examples have their texts beside them.
#[test]
fn the_examples_as_text() {
    let folder = root().join("examples/signatures");
    let mut texts = 0;
    for entry in std::fs::read_dir(folder).expect("the examples") {
        let path = entry.expect("an example").path();
        let word = |path: &Path| {
            path.to_str()
                .expect("a path that can be printed")
                .to_string()
        };
        if path.extension().is_some_and(|its| its == "hex") {
            let hex = word(&path);
            let sig = word(&path.with_extension("sig"));
            let decoded = run(&["decode", "--hex", &hex], b"");
            if decoded.status.code() == Some(0) {
                prints(
                    &run(&["decode", &sig], b""),
                    0,
                    &String::from_utf8_lossy(&decoded.stdout),
                );
                texts += 1;
            }
            // what is refused is refused alike
            if Path::new(&sig).exists() {
                let [listed, of_hex] = [
                    run(&["list", &sig], b""),
                    run(&["list", "--hex", &hex], b""),
                ];
                assert_eq!(
                    (listed.stdout, listed.status),
                    (of_hex.stdout, of_hex.status)
                );
            }
        }
    }
    assert!(texts >= 20);
}

#[test]
fn where_compilers_differ() {
    let cases = [
        (
            "ppc64 void(i32)",
            "PPC64 args 1 area 64\n0 r3 @0\nresult none\n",
            "",
        ),
        (
            "ppc64 void({{single}}, {u8})",
            "0 r3 @0 [a] [f]\n1 r4 @8 [f]\n",
            "af",
        ),
        ("ppc64 void(longdouble)", "0 r3 r4 @0 [b]\n", "b"),
        ("ppc64b void(longdouble)", "0 f1 f2 @0\n", ""),
        (
            "ppc64b void(double, double, double, double, double, double, double, double, double, \
             double, double, double, longdouble)",
            "refused 29 at 58 after 0 [c]\n",
            "c",
        ),
        (
            "aix void(double, double, double, double, double)",
            "4 f5 @32 [d]\n",
            "d",
        ),
        (
            "aix void(i64, i64, i64, i32, double)",
            "4 f1 @28 [d]\n",
            "d",
        ),
        (
            "aix void(i64, i64, i64, i32, double, ...)",
            "4 f1 r10 mem @28\n",
            "",
        ),
        (
            "aix void(longdouble)",
            "refused 25 at 10 after 3 [e]\n",
            "e",
        ),
        ("z void(single, {double})", "0 f0 [f]\n1 f2\n", "f"),
        ("z void({i64, i64}, {u8, u8})", "0 r2 ref\n1 r3 [f]\n", "f"),
        (
            "ppc64 void(single, double, ...)",
            "0 f1 r3 @0 [f] [g]\n1 f2 r4 @8 [g]\n",
            "fg",
        ),
        ("z void(single, ...)", "0 f0 [f]\n", "f"),
    ];
    let page = text_of("docs/COMPILERS.md");
    let page = page.split_whitespace().collect::<Vec<&str>>().join(" ");
    let mut seen = BTreeSet::new();
    for (text, line, notes) in cases {
        let output = run(&["list", "--compilers", "--text"], text.as_bytes());
        let said = String::from_utf8(output.stdout).expect("a text");
        assert!(said.contains(line), "{said}");
        let told: Vec<&str> = said.lines().filter(|line| line.starts_with('[')).collect();
        let letters: String = told.iter().map(|line| &line[1..2]).collect();
        assert_eq!(letters, notes, "{said}");
        // the page's own sentence, and what to do
        for line in told {
            let sentence = &line[4..];
            assert!(page.contains(sentence), "{sentence}");
            let advice = said.split_once(line).expect("the line").1;
            assert!(advice.starts_with("\n    "), "{said}");
        }
        seen.extend(letters.chars());
    }
    assert_eq!(seen.into_iter().collect::<String>(), "abcdefg");
    complains(
        &run(&["list", "--compilers", "--picture"], b""),
        "--picture and --compilers",
    );
}

/// A reader that has gone is no fault.
#[test]
fn a_closed_pipe_ends_it_quietly() {
    for (input, status) in [(&b"start z 256 0\n"[..], 0), (b"start z 1 0\n", 1)] {
        let mut child = Command::new(command())
            .args(["replay", "-"])
            .stdin(Stdio::piped())
            .stdout(Stdio::piped())
            .stderr(Stdio::piped())
            .spawn()
            .expect("the command starts");
        drop(child.stdout.take());
        let mut stdin = child.stdin.take().expect("it has a standard input");
        // far more output than a pipe holds
        let lines = input.repeat(30_000);
        stdin.write_all(&lines).expect("it reads");
        drop(stdin);
        let mut said = String::new();
        let mut stderr = child.stderr.take().expect("it has a standard error");
        stderr.read_to_string(&mut said).expect("a text");
        assert_eq!(said, "");
        assert_eq!(child.wait().expect("it ends").code(), Some(status));
    }
}

/// The options of a verb that a completion has.
fn completed(options: &BTreeSet<String>) -> BTreeSet<String> {
    let mut all = options.clone();
    all.insert("--help".to_string());
    all
}

#[test]
fn bash_completes_verbs_and_options() {
    let script = root().join("command/completions/flakuzhen");
    let complete = |words: &[&str]| -> BTreeSet<String> {
        let list = words.join("' '");
        let script = format!(
            "source '{}'; COMP_WORDS=('{list}'); COMP_CWORD={}; _flakuzhen; printf '%s\\n' \"${{COMPREPLY[@]}}\"",
            script.display(),
            words.len() - 1
        );
        let said = in_shell("completion", &script);
        said.lines()
            .filter(|line| !line.is_empty())
            .map(str::to_string)
            .collect()
    };
    let names: BTreeSet<String> = verbs().into_iter().map(|(name, _)| name).collect();
    let mut first = complete(&["flakuzhen", ""]);
    assert!(first.remove("--help") && first.remove("--version"));
    assert_eq!(first, names);
    for (verb, options) in verbs() {
        assert_eq!(
            complete(&["flakuzhen", &verb, "-"]),
            completed(&options),
            "{verb}"
        );
    }
    assert_eq!(complete(&["flakuzhen", "dump", "pp"]).len(), 2);
    assert!(complete(&["flakuzhen", "explain", "3"]).contains("30"));
    assert_eq!(
        complete(&["flakuzhen", "list", "b"]),
        BTreeSet::from(["bin".to_string()])
    );
}

/// What zsh and fish complete is read from their files: neither need be installed.
#[test]
fn zsh_and_fish_know_the_same_verbs_and_options() {
    let zsh = text_of("command/completions/_flakuzhen");
    let fish = text_of("command/completions/flakuzhen.fish");
    let form = ["--hex", "--text", "--help"].map(str::to_string);
    for (verb, options) in verbs() {
        assert!(zsh.contains(&format!("        '{verb}:")), "{verb}");
        assert!(fish.contains(&format!(" -a {verb} -d ")), "{verb}");
        let case = zsh
            .lines()
            .filter_map(|line| line.split_once(") _arguments "))
            .find(|(verbs, _)| verbs.trim().split(" | ").any(|of| of == verb))
            .expect("its case")
            .1;
        let mut known: BTreeSet<String> = case
            .split('\'')
            .filter_map(|word| word.rsplit(')').next()?.split_once('['))
            .filter(|(word, _)| word.starts_with('-'))
            .map(|(word, _)| word.to_string())
            .collect();
        if case.contains("$form") {
            known.extend(form.clone());
        }
        assert_eq!(known, completed(&options), "zsh: {verb}");
        let mut known = BTreeSet::from(["--help".to_string()]);
        for line in fish
            .lines()
            .filter(|line| line.contains("-n \"__fish_seen"))
        {
            let (_, rest) = line
                .split_once("__fish_seen_subcommand_from ")
                .expect("verbs");
            let (of, rest) = rest.split_once('"').expect("their end");
            if of.split(' ').any(|of| of == verb) {
                let mut words = rest.split_whitespace();
                match words.next() {
                    Some("-l") => known.insert(format!("--{}", words.next().expect("a name"))),
                    Some("-s") => known.insert(format!("-{}", words.next().expect("a name"))),
                    _ => false,
                };
            }
        }
        assert_eq!(known, completed(&options), "fish: {verb}");
    }
}
