//! The header and both libraries, used from C and from C++, as they are built and as they are
//! installed; the C examples; the names that the shared library shows; and the stack that each
//! function takes.

use std::collections::{BTreeMap, BTreeSet};
use std::path::{Path, PathBuf};
use std::process::{Command, Output};

fn root() -> PathBuf {
    let root = Path::new(env!("CARGO_MANIFEST_DIR")).join("../..");
    root.canonicalize().expect("the repository's folder")
}

/// Runs a command, which must succeed.
fn run(command: &mut Command) -> Output {
    let output = command.output();
    let output = output.unwrap_or_else(|fault| panic!("{command:?}: {fault}"));
    assert!(
        output.status.success(),
        "{command:?}: {}\n{}{}",
        output.status,
        String::from_utf8_lossy(&output.stdout),
        String::from_utf8_lossy(&output.stderr)
    );
    output
}

/// The programs that use the header: a file in this folder, without its ending.
const PROGRAMS: [&str; 4] = ["layout", "surface", "machine", "marshal"];

/// Compiles and runs the programs with these words of a compiler and this library.
fn compile_and_run(name: &str, compiler: &[&str], library: &str) {
    for source in PROGRAMS {
        compile_and_run_one(source, name, compiler, library);
    }
}

fn compile_and_run_one(source: &str, name: &str, compiler: &[&str], library: &str) {
    let program = temporary(&format!("{source}-{name}"));
    let source = root().join(format!("host/flakuzhen/tests/{source}.c"));
    compile(&[source], &program, compiler, library);
    run_with_library(&program, "build");
}

/// A place for what a test makes.
fn temporary(name: &str) -> PathBuf {
    Path::new(env!("CARGO_TARGET_TMPDIR")).join(name)
}

fn compile(sources: &[PathBuf], program: &Path, compiler: &[&str], library: &str) {
    run(Command::new(compiler[0])
        .args(&compiler[1..])
        .args(WARNINGS)
        .arg("-I")
        .arg(root().join("include"))
        .arg("-o")
        .arg(program)
        .args(sources)
        // what follows is a library, whatever language was named before
        .args(["-x", "none"])
        .arg(root().join("build").join(library)));
}

/// Runs a program that finds the shared library in this folder.
fn run_with_library(program: &Path, folder: impl AsRef<Path>) -> Output {
    run(Command::new(program).env("LD_LIBRARY_PATH", root().join(folder)))
}

const WARNINGS: [&str; 4] = ["-pedantic", "-Wall", "-Wextra", "-Werror"];

const C: [&str; 2] = ["gcc", "-std=c99"];
const CPP: [&str; 4] = ["g++", "-x", "c++", "-std=c++11"];

#[test]
fn c_with_the_archive() {
    compile_and_run("c-archive", &C, "libflakuzhen.a");
}

#[test]
fn c_with_the_shared_library() {
    compile_and_run("c-shared", &C, "libflakuzhen.so");
}

#[test]
fn cpp_with_the_archive() {
    compile_and_run("cpp-archive", &CPP, "libflakuzhen.a");
}

#[test]
fn cpp_with_the_shared_library() {
    compile_and_run("cpp-shared", &CPP, "libflakuzhen.so");
}

/// Signatures as text from C++, which compiles its file too.
#[test]
fn cpp_with_signatures_as_text() {
    let source = temporary("text.cpp");
    let text = "#include <flakuzhen_text.h>\n\
        int main() { uint8_t sig[64]; return fz_encode(\"z void()\", 8, sig, 64).length == 10 ? 0 : 1; }\n";
    std::fs::write(&source, text).expect("a file of the test's own");
    let program = temporary("text-cpp");
    let sources = [source, root().join("command/signature_text.c")];
    compile(&sources, &program, &CPP, "libflakuzhen.a");
    run(&mut Command::new(program));
}

/// A C example must print what is stored for it.
fn prints_what_is_stored(example: &str, output: &Output) {
    let path = root().join(format!("examples/{example}.out"));
    let stored = std::fs::read_to_string(path).expect("its output");
    assert_eq!(String::from_utf8_lossy(&output.stdout), stored);
}

/// An example's own file, and that of signatures as text.
fn sources_of(example: &str) -> [PathBuf; 2] {
    let own = format!("examples/c/{example}.c");
    [&own, "command/signature_text.c"].map(|path| root().join(path))
}

fn run_the_examples(name: &str, words: &[&str], library: &str) {
    for example in EXAMPLES {
        let program = temporary(&format!("{example}-{name}"));
        let compiler = [&C[..], words].concat();
        compile(&sources_of(example), &program, &compiler, library);
        prints_what_is_stored(example, &run_with_library(&program, "build"));
    }
}

const EXAMPLES: [&str; 3] = ["call", "variable", "stored"];

#[test]
fn the_examples_with_the_archive() {
    run_the_examples("archive", &[], "libflakuzhen.a");
}

#[test]
fn the_examples_with_the_shared_library() {
    run_the_examples("shared", &[], "libflakuzhen.so");
}

#[test]
fn the_examples_under_sanitizers() {
    let words = [
        "-g",
        "-fsanitize=address,undefined",
        "-fno-sanitize-recover=all",
    ];
    run_the_examples("sanitized", &words, "libflakuzhen.so");
}

/// Runs `make` for what is installed in this folder, below the prefix.
fn make_installed(goal: &str, folder: &Path) {
    run(Command::new("make")
        .current_dir(root())
        // what the tests were started with is not for the command
        .env_remove("MAKEFLAGS")
        .env_remove("RUSTFLAGS")
        // the libraries are those that all tests here use: nothing is proved again
        .args(["-o", "build/libflakuzhen.a", "-o", "build/libflakuzhen.so"])
        .arg(goal)
        .arg(format!("DESTDIR={}", folder.display()))
        .arg("PREFIX=/prefix"));
}

/// The files and links below a folder.
fn files_below(folder: &Path) -> Vec<PathBuf> {
    let mut files = Vec::new();
    for entry in std::fs::read_dir(folder).expect("a folder") {
        let entry = entry.expect("what the folder has");
        match entry.file_type().expect("its kind").is_dir() {
            true => files.extend(files_below(&entry.path())),
            false => files.push(entry.path()),
        }
    }
    files
}

/// Installs everything in an empty folder, uses it from there, and removes it.
#[test]
fn installed() {
    let folder = temporary("installed");
    let _ = std::fs::remove_dir_all(&folder);
    make_installed("install", &folder);
    use_installed(&folder);
    make_installed("uninstall", &folder);
    assert_eq!(files_below(&folder), Vec::<PathBuf>::new());
}

fn use_installed(folder: &Path) {
    let prefix = folder.join("prefix");
    let signature = root().join("examples/signatures/ppc64-figure-3-18.hex");
    let listing = std::fs::read(signature.with_extension("listing")).expect("its listing");
    let output = run(Command::new(prefix.join("bin/flakuzhen"))
        .args(["list", "--hex"])
        .arg(signature));
    assert_eq!(output.stdout, listing);
    assert!(prefix.join("share/man/man1/flakuzhen.1").is_file());
    assert!(prefix.join("lib/libflakuzhen.a").is_file());
    // both links lead to the one file
    let library = |end: &str| prefix.join("lib").join(format!("libflakuzhen.so{end}"));
    let file = library(&format!(".{}", VERSION.join(".")))
        .canonicalize()
        .expect("it");
    for link in [library(""), library(&format!(".{}", VERSION[0]))] {
        assert_eq!(link.canonicalize().expect("what it leads to"), file);
    }
    // what the header names
    for name in [
        "call.c",
        "variable.c",
        "stored.c",
        "signature_text.c",
        "COMPILERS.md",
        "STORED.md",
    ] {
        assert!(prefix.join("share/doc/flakuzhen").join(name).is_file());
    }
    for name in [
        "bash-completion/completions/flakuzhen",
        "zsh/site-functions/_flakuzhen",
        "fish/vendor_completions.d/flakuzhen.fish",
    ] {
        assert!(prefix.join("share").join(name).is_file());
    }

    let mut words = Command::new("pkg-config");
    words.args(["--cflags", "--libs", "flakuzhen"]);
    words.env("PKG_CONFIG_PATH", prefix.join("lib/pkgconfig"));
    words.env("PKG_CONFIG_SYSROOT_DIR", folder);
    if words.output().is_err() {
        println!("pkg-config is not installed: its file was not tried");
        return;
    }
    let words = String::from_utf8(run(&mut words).stdout).expect("words of a compiler");
    let compile = |sources: &[PathBuf], program: &Path| {
        run(Command::new(C[0])
            .args(&C[1..])
            .args(WARNINGS)
            .arg("-o")
            .arg(program)
            .args(sources)
            .args(words.split_whitespace()));
    };
    let documents = prefix.join("share/doc/flakuzhen");
    for example in EXAMPLES {
        let program = temporary(&format!("{example}-installed"));
        let own = documents.join(format!("{example}.c"));
        compile(&[own, documents.join("signature_text.c")], &program);
        prints_what_is_stored(example, &run_with_library(&program, prefix.join("lib")));
    }
    // this one holds the library's version to the header's
    let program = temporary("surface-installed");
    compile(&[root().join("host/flakuzhen/tests/surface.c")], &program);
    run_with_library(&program, prefix.join("lib"));
}

/// The version, whose one place is the workspace's Cargo.toml.
const VERSION: [&str; 3] = [
    env!("CARGO_PKG_VERSION_MAJOR"),
    env!("CARGO_PKG_VERSION_MINOR"),
    env!("CARGO_PKG_VERSION_PATCH"),
];

#[test]
fn the_library_has_the_version_of_the_package() {
    let [major, minor, patch] = VERSION.map(|number| number.parse::<u64>().expect("a number"));
    assert!(minor < 100 && patch < 100);
    assert_eq!(
        flakuzhen::surface::version(),
        10_000 * major + 100 * minor + patch
    );
}

#[test]
fn the_shared_library_is_named_by_the_first_number_of_the_version() {
    let shared = root().join("build/libflakuzhen.so");
    let output = run(Command::new("readelf").arg("-d").arg(&shared));
    let soname = format!("libflakuzhen.so.{}", VERSION[0]);
    let said = String::from_utf8_lossy(&output.stdout);
    let mut names = said.lines().filter(|line| line.contains("(SONAME)"));
    let name = names.next().expect("a soname");
    assert!(name.ends_with(&format!("[{soname}]")), "{name}");
    // all three are one file
    let bytes = |path| std::fs::read(path).expect("a shared library");
    let file = root().join(format!("build/libflakuzhen.so.{}", VERSION.join(".")));
    let whole = bytes(file);
    for copy in [shared, root().join("build").join(soname)] {
        assert!(bytes(copy) == whole, "other bytes");
    }
}

/// The functions that the header declares: each name that begins a parameter list, outside of
/// comments.
fn declared() -> BTreeSet<String> {
    let header = std::fs::read_to_string(root().join("include/flakuzhen.h")).expect("the header");
    let mut code = String::new();
    for (number, part) in header.split("/*").enumerate() {
        code.push_str(match number {
            0 => part,
            _ => part.split_once("*/").expect("a comment that ends").1,
        });
    }
    let words = code.split(|mark: char| !mark.is_alphanumeric() && mark != '_' && mark != '(');
    words
        .filter_map(|word| word.split_once('('))
        .map(|(name, _)| name.to_string())
        .filter(|name| name.starts_with("fz_"))
        .collect()
}

#[test]
fn the_shared_library_shows_what_the_header_declares_and_nothing_else() {
    let shared = root().join("build/libflakuzhen.so");
    let output = run(Command::new("nm")
        .args(["-D", "--defined-only"])
        .arg(shared));
    // the symbol version is shown too, as a number of its own
    let version = format!("FLAKUZHEN_{}", VERSION[0]);
    let shown: BTreeSet<String> = String::from_utf8_lossy(&output.stdout)
        .lines()
        .filter_map(|line| line.split_whitespace().last())
        .map(str::to_string)
        .collect();
    let mut expected: BTreeSet<String> = declared()
        .iter()
        .map(|name| format!("{name}@@{version}"))
        .collect();
    expected.insert(version);
    assert_eq!(shown, expected);
}

/// A program without a C library has to bring these two, as every compiler for C expects.
#[test]
fn the_archive_needs_memcpy_and_memset_from_outside_and_nothing_else() {
    let archive = root().join("build/libflakuzhen.a");
    let output = run(Command::new("nm").arg("-u").arg(archive));
    let needed: BTreeSet<String> = String::from_utf8_lossy(&output.stdout)
        .lines()
        .filter_map(|line| line.trim().strip_prefix("U "))
        .map(str::to_string)
        .collect();
    let expected = ["memcpy", "memset"].map(str::to_string);
    assert_eq!(needed, BTreeSet::from(expected));
}

/// The bytes of stack that the header allows each function: lines with a number of KiB and names.
fn stated_stack() -> BTreeMap<String, usize> {
    let header = std::fs::read_to_string(root().join("include/flakuzhen.h")).expect("the header");
    let mut stated = BTreeMap::new();
    for line in header.lines() {
        let Some((kib, names)) = line.trim_start_matches(" *").split_once(" KiB ") else {
            continue;
        };
        let Ok(kib) = kib.trim().parse::<usize>() else {
            continue;
        };
        for name in names.split(',') {
            let before = stated.insert(name.trim().to_string(), 1024 * kib);
            assert_eq!(before, None, "{name} is there twice");
        }
    }
    stated
}

#[test]
fn no_function_takes_more_stack_than_the_header_says() {
    let program = temporary("stack");
    let source = root().join("targets/stack.c");
    // nothing is left to be linked at a function's first call, which takes stack too
    let words = [&C[..], &["-O2", "-Wl,-z,now"]].concat();
    compile(&[source], &program, &words, "libflakuzhen.a");
    let said = String::from_utf8(run(&mut Command::new(program)).stdout).expect("a table");
    println!("{said}");
    let stated = stated_stack();
    let mut measured = BTreeSet::new();
    for line in said.lines() {
        let (name, bytes) = line.split_once(' ').expect("a name and its bytes");
        let bytes: usize = bytes.trim().parse().expect("a number of bytes");
        assert!(bytes <= stated[name], "{name} takes {bytes} bytes of stack");
        measured.insert(name.to_string());
    }
    assert_eq!(measured, declared());
    assert!(stated.keys().eq(&measured));
}
