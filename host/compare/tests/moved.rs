//! `scripts/moved` on two small trees, `data/moved/before` and `data/moved/after`, and on two with proofs
//! in Invariants.antt and Answers.antt, in `data/moved_answers`: what it prints is stored beside them.
//! Their files end in `.txt`, so that no tool takes them for crates.

use std::fs;
use std::path::{Path, PathBuf};
use std::process::Command;

fn data(pair: &str) -> PathBuf {
    Path::new(env!("CARGO_MANIFEST_DIR"))
        .join("data")
        .join(pair)
}

fn expected(pair: &str, name: &str) -> String {
    fs::read_to_string(data(pair).join(name)).expect("a stored output")
}

/// Copies the files of a stored tree, without `.txt`.
fn copy(from: &Path, to: &Path) {
    fs::create_dir_all(to).expect("a folder");
    for entry in fs::read_dir(from).expect("a stored folder") {
        let path = entry.expect("an entry").path();
        if path.is_dir() {
            copy(&path, &to.join(path.file_name().expect("a name")));
        } else {
            let name = path.file_stem().expect("a name");
            fs::copy(&path, to.join(name)).expect("a copied file");
        }
    }
}

/// A git repository of the test's own, outside of this one, in which no file of Rattle may lie that no
/// crate has.
struct Repository(PathBuf);

impl Drop for Repository {
    fn drop(&mut self) {
        let _ = fs::remove_dir_all(&self.0);
    }
}

impl Repository {
    fn new(name: &str) -> Repository {
        let folder = std::env::temp_dir().join(format!("flakuzhen-{name}-{}", std::process::id()));
        fs::create_dir_all(&folder).expect("a folder");
        let repository = Repository(folder);
        repository.git(&["init", "--quiet"]);
        repository
    }

    /// Makes the crates those of a stored tree, one of a pair.
    fn put(&self, pair: &str, tree: &str) {
        let crates = self.0.join("crates");
        if crates.exists() {
            fs::remove_dir_all(&crates).expect("the earlier tree removed");
        }
        copy(&data(pair).join(tree), &crates);
    }

    fn commit(&self, message: &str) {
        self.git(&["add", "--all"]);
        self.git(&["commit", "--quiet", "--message", message]);
    }

    /// A command here, with nobody's settings of git.
    fn command(&self, program: impl AsRef<std::ffi::OsStr>) -> Command {
        let mut command = Command::new(program);
        command
            .current_dir(&self.0)
            .env("GIT_CONFIG_GLOBAL", "/dev/null")
            .env("GIT_CONFIG_NOSYSTEM", "1");
        for who in ["AUTHOR", "COMMITTER"] {
            command.env(format!("GIT_{who}_NAME"), "test");
            command.env(format!("GIT_{who}_EMAIL"), "test@localhost");
        }
        for place in ["GIT_DIR", "GIT_WORK_TREE", "GIT_INDEX_FILE"] {
            command.env_remove(place);
        }
        command
    }

    fn git(&self, words: &[&str]) {
        let status = self.command("git").args(words).status();
        assert!(status.expect("git starts").success(), "git {words:?}");
    }

    /// The exit status of `scripts/moved`, what it prints and what it complains of.
    fn run(&self, words: &[&str]) -> (Option<i32>, String, String) {
        let script = Path::new(env!("CARGO_MANIFEST_DIR")).join("../../scripts/moved");
        let output = self.command(script).args(words).output();
        let output = output.expect("scripts/moved starts");
        let text = |bytes| String::from_utf8(bytes).expect("UTF-8");
        let code = output.status.code();
        (code, text(output.stdout), text(output.stderr))
    }

    fn says(&self, words: &[&str], expected: &str) {
        let (status, said, complained) = self.run(words);
        assert_eq!((status, complained.as_str()), (Some(0), ""), "{words:?}");
        assert_eq!(said, expected, "{words:?}");
    }
}

/// What `scripts/moved` prints of a pair of trees is what is stored beside them.
fn moves(pair: &str) {
    let repository = Repository::new(pair);
    repository.put(pair, "before");
    repository.commit("before");
    let unmoved = expected(pair, "unmoved.txt");
    repository.says(&["HEAD", "HEAD"], &unmoved);
    repository.says(&["--worktree", "HEAD"], &unmoved);

    // files that git does not know yet are files of the working tree
    repository.put(pair, "after");
    repository.says(&["HEAD"], &unmoved);
    repository.says(&["--worktree", "HEAD"], &expected(pair, "moved.txt"));

    repository.commit("after");
    repository.says(&["HEAD~1"], &expected(pair, "moved.txt"));
    repository.says(&["HEAD~1", "HEAD"], &expected(pair, "moved.txt"));
    repository.says(
        &["HEAD~1", "HEAD", "--markdown"],
        &expected(pair, "moved.md"),
    );
}

#[test]
fn what_moved_between_two_trees() {
    moves("moved");
}

#[test]
fn what_moved_between_two_trees_with_answers() {
    moves("moved_answers");
}

#[test]
fn wrong_words_are_refused() {
    let repository = Repository::new("moved-words");
    repository.put("moved", "before");
    repository.commit("before");
    let wrong: [&[&str]; 5] = [
        &[],
        &["--html", "HEAD"],
        &["HEAD", "HEAD", "HEAD"],
        &["--worktree", "HEAD", "HEAD"],
        &["no-such-revision"],
    ];
    for words in wrong {
        let (status, said, complained) = repository.run(words);
        assert_ne!(status, Some(0), "{words:?}");
        assert_eq!(said, "", "{words:?}");
        assert_ne!(complained, "", "{words:?}");
        assert!(!complained.contains("Traceback"), "{complained}");
    }
}
