//! What `make dist` leaves: packed twice it has the same bytes, and unpacked elsewhere it is whole and
//! can be used. For the other machines `scripts/test-target` does the same under emulation.

mod support;

use std::path::{Path, PathBuf};
use std::process::{Command, Output};
use support::{root, temporary, Apart};

fn run(command: &mut Command) -> Output {
    let output = command.output();
    let output = output.unwrap_or_else(|fault| panic!("{command:?}: {fault}"));
    let said = String::from_utf8_lossy(&output.stderr);
    assert!(output.status.success(), "{command:?}: {said}");
    output
}

/// Makes the tarball, in a shell with this mask of new files' modes and this time zone.
fn make_dist(mask: &str, zone: &str) -> PathBuf {
    let script =
        format!("umask {mask} && make -o build/libflakuzhen.a -o build/libflakuzhen.so dist");
    run(Command::new("bash")
        .args(["-c", &script])
        .current_dir(root())
        .env_remove("MAKEFLAGS")
        .env("TZ", zone));
    let version = env!("CARGO_PKG_VERSION");
    root().join(format!("build/dist/flakuzhen-{version}-x86_64.tar.gz"))
}

#[test]
fn packed_twice_and_used_elsewhere() {
    let packed = make_dist("022", "UTC");
    let first = std::fs::read(&packed).expect("the tarball");
    std::fs::remove_file(&packed).expect("it is ours");
    let packed = make_dist("077", "Asia/Tokyo");
    assert!(
        std::fs::read(&packed).expect("the tarball") == first,
        "other bytes"
    );

    let folder = Apart::new("unpacked");
    run(Command::new("tar")
        .arg("-xzf")
        .arg(&packed)
        .arg("-C")
        .arg(&*folder));
    let name = packed.file_name().and_then(|name| name.to_str());
    let name = name
        .and_then(|name| name.strip_suffix(".tar.gz"))
        .expect("its name");
    use_unpacked(&folder.join(name));
}

fn use_unpacked(folder: &Path) {
    let sums = run(Command::new("sha256sum")
        .args(["--strict", "-c", "SHA256SUMS"])
        .current_dir(folder));
    let said = String::from_utf8_lossy(&sums.stdout);
    for name in [
        "COMMIT",
        "bin/flakuzhen",
        "include/flakuzhen.h",
        "include/flakuzhen_text.h",
        "lib/libflakuzhen.a",
        "lib/pkgconfig/flakuzhen.pc",
        "share/doc/flakuzhen/CLAIMS.md",
        "share/doc/flakuzhen/toolchain.txt",
        "share/man/man1/flakuzhen.1",
        "share/flakuzhen/examples/lost-value/README.md",
    ] {
        assert!(said.contains(&format!("{name}: OK\n")), "{name}");
    }
    let commit = run(Command::new("git")
        .args(["rev-parse", "HEAD"])
        .current_dir(root()))
    .stdout;
    let told = std::fs::read_to_string(folder.join("COMMIT")).expect("its commit");
    let commit = String::from_utf8_lossy(&commit);
    assert!(
        told.starts_with(&format!("commit: {}", commit.trim_end())),
        "{told}"
    );

    // the command needs nothing of this machine
    let examples = folder.join("share/flakuzhen/examples");
    let listed = run(Command::new(folder.join("bin/flakuzhen"))
        .args(["list", "--hex", "signatures/ppc64-figure-3-18.hex"])
        .current_dir(&examples)
        .env_clear());
    let stored = std::fs::read(examples.join("signatures/ppc64-figure-3-18.listing"));
    assert_eq!(listed.stdout, stored.expect("its listing"));

    let words = Command::new("pkg-config")
        .args(["--cflags", "--libs", "--define-prefix", "flakuzhen"])
        .env("PKG_CONFIG_PATH", folder.join("lib/pkgconfig"))
        .output();
    let Ok(words) = words else {
        println!("pkg-config is not installed: its file was not tried");
        return;
    };
    let words = String::from_utf8(words.stdout).expect("words of a compiler");
    let documents = folder.join("share/doc/flakuzhen");
    let program = temporary("call-unpacked");
    run(Command::new("gcc")
        .arg("-o")
        .arg(&program)
        .args(["call.c", "signature_text.c"])
        .args(words.split_whitespace())
        .current_dir(&documents));
    let output = run(Command::new(program).env("LD_LIBRARY_PATH", folder.join("lib")));
    let stored = std::fs::read(examples.join("call.out")).expect("its output");
    assert_eq!(output.stdout, stored);
}
