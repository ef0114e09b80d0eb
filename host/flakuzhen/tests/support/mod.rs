//! What the tests of the command share.

// not every test takes all of it
#![allow(dead_code)]

use std::ffi::OsStr;
use std::io::Write;
use std::path::{Path, PathBuf};
use std::process::{Command, Output, Stdio};
use std::sync::OnceLock;

/// The repository's folder.
pub fn root() -> PathBuf {
    let root = Path::new(env!("CARGO_MANIFEST_DIR")).join("../..");
    root.canonicalize().expect("the repository's folder")
}

/// A place for what a test makes.
pub fn temporary(name: &str) -> PathBuf {
    Path::new(env!("CARGO_TARGET_TMPDIR")).join(name)
}

/// An empty folder of a test's own outside of the repository, in which no link may lie. It goes with
/// the value.
pub struct Apart(PathBuf);

impl Apart {
    pub fn new(name: &str) -> Apart {
        let name = format!("flakuzhen-{name}-{}", std::process::id());
        let folder = std::env::temp_dir().join(name);
        let _ = std::fs::remove_dir_all(&folder);
        std::fs::create_dir_all(&folder).expect("a folder of the test's own");
        Apart(folder)
    }
}

impl std::ops::Deref for Apart {
    type Target = Path;

    fn deref(&self) -> &Path {
        &self.0
    }
}

impl Drop for Apart {
    fn drop(&mut self) {
        let _ = std::fs::remove_dir_all(&self.0);
    }
}

/// The words of the compiler for all C here.
pub const C: [&str; 6] = [
    "gcc",
    "-std=c99",
    "-pedantic",
    "-Wall",
    "-Wextra",
    "-Werror",
];

/// The files of the command.
pub fn sources() -> Vec<PathBuf> {
    let folder = std::fs::read_dir(root().join("command")).expect("the command's folder");
    let files = folder.map(|entry| entry.expect("a file").path());
    let mut files: Vec<PathBuf> = files
        .filter(|path| path.extension() == Some(OsStr::new("c")))
        .collect();
    files.sort();
    files
}

/// Compiles C with these words, over the library.
pub fn compile(program: &Path, words: &[&str], files: &[PathBuf]) {
    let output = Command::new(C[0])
        .args(&C[1..])
        .args(words)
        .arg("-I")
        .arg(root().join("include"))
        .arg("-I")
        .arg(root().join("command"))
        .arg("-o")
        .arg(program)
        .args(files)
        .arg(root().join("build/libflakuzhen.a"))
        .output()
        .expect("gcc starts");
    let said = String::from_utf8_lossy(&output.stderr);
    assert!(output.status.success(), "{said}");
}

/// The command, compiled once for the tests of a file.
pub fn command() -> &'static Path {
    static PROGRAM: OnceLock<PathBuf> = OnceLock::new();
    PROGRAM.get_or_init(|| {
        let program = temporary(&format!("flakuzhen-for-{}", env!("CARGO_CRATE_NAME")));
        compile(&program, &["-O2"], &sources());
        program
    })
}

/// Runs a program on these words, with these bytes as its standard input.
pub fn run<S: AsRef<OsStr>>(program: &Path, words: &[S], input: &[u8]) -> Output {
    let mut child = Command::new(program)
        .args(words)
        .stdin(Stdio::piped())
        .stdout(Stdio::piped())
        .stderr(Stdio::piped())
        .spawn()
        .expect("the command starts");
    let mut stdin = child.stdin.take().expect("it has a standard input");
    // a command that ends without reading leaves nobody to write to
    let _ = stdin.write_all(input);
    drop(stdin);
    child.wait_with_output().expect("the command ends")
}

/// The exit status must be this, and standard output this text.
pub fn prints(output: &Output, status: i32, text: &str) {
    assert_eq!(String::from_utf8_lossy(&output.stdout), text);
    assert_eq!(output.status.code(), Some(status));
    says_only_in_whole_lines(output);
    assert!(status != 0 || output.stderr.is_empty());
}

/// Standard error has whole lines, each with the command's name.
pub fn says_only_in_whole_lines(output: &Output) {
    let said = String::from_utf8_lossy(&output.stderr);
    assert!(said.is_empty() || said.ends_with('\n'), "{said}");
    for line in said.lines() {
        assert!(line.starts_with("flakuzhen: "), "{said}");
    }
}

/// One line on standard error that says this, nothing else, and exit status 2.
pub fn complains(output: &Output, about: &str) {
    let said = String::from_utf8_lossy(&output.stderr);
    assert!(said.contains(about), "{said}");
    assert_eq!(said.matches('\n').count(), 1, "{said}");
    says_only_in_whole_lines(output);
    assert!(output.stdout.is_empty());
    assert_eq!(output.status.code(), Some(2));
}

/// Puts the bytes in a file of a test's own, and gives its path.
pub fn file(name: &str, bytes: &[u8]) -> String {
    let path = temporary(name);
    std::fs::write(&path, bytes).expect("a file of the test's own");
    path.to_str()
        .expect("a path that can be printed")
        .to_string()
}
