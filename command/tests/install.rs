//! `make install` into folders of the test's own: what is there, that a C program is built from it by pkg-config alone, and that
//! `make uninstall` takes all of it away. What is installed is built before the tests run.

mod common;

use common::{sample, Folder};
use reference::repository::{repository, text};
use std::path::{Path, PathBuf};
use std::process::{Command, Output};

/// Runs a target of the repository's Makefile, apart from any make around the tests.
fn make(target: &str, variables: &[String]) -> Output {
    let ran = Command::new("make")
        .arg("-s")
        .arg(target)
        .args(variables)
        .current_dir(repository())
        .env_remove("MAKEFLAGS")
        .env_remove("MAKELEVEL")
        .output();
    ran.expect("make starts")
}

fn made(target: &str, variables: &[String]) {
    let ran = make(target, variables);
    assert!(
        ran.status.success(),
        "make {target}: {}",
        String::from_utf8_lossy(&ran.stderr)
    );
}

/// Every file below a folder, from there on.
fn files_below(folder: &Path) -> Vec<PathBuf> {
    let mut found = Vec::new();
    for entry in std::fs::read_dir(folder).unwrap() {
        let path = entry.unwrap().path();
        if path.is_dir() {
            found.extend(files_below(&path));
        } else {
            found.push(path);
        }
    }
    found.sort();
    found
}

const INSTALLED: [&str; 5] = [
    "bin/canceller",
    "include/canceller.h",
    "lib/libcanceller.a",
    "lib/pkgconfig/canceller.pc",
    "share/man/man1/canceller.1",
];

fn below(prefix: &Path) -> Vec<PathBuf> {
    INSTALLED.iter().map(|name| prefix.join(name)).collect()
}

/// What pkg-config says of the canceller that is installed below a prefix.
fn pkg_config(prefix: &Path, words: &str) -> String {
    let said = Command::new("pkg-config")
        .args(words.split(' '))
        .arg("canceller")
        .env("PKG_CONFIG_PATH", prefix.join("lib/pkgconfig"))
        .output()
        .expect("pkg-config starts");
    assert!(
        said.status.success(),
        "pkg-config: {}",
        String::from_utf8_lossy(&said.stderr)
    );
    String::from_utf8(said.stdout).unwrap().trim().to_string()
}

/// Builds the example for C from what is installed below a prefix, and runs it.
fn builds_a_c_program(folder: &Folder, prefix: &Path) {
    let flags = pkg_config(prefix, "--cflags --libs");
    folder.put("judge.c", text("examples/judge.c"));
    folder.put("sample.set", sample("sample.set"));
    // the shell takes the flags apart as a user's would
    let line = format!("cc judge.c {flags} -o judge && ./judge sample.set 7");
    let ran = Command::new("sh")
        .args(["-c", &line])
        .current_dir(&folder.0)
        .output()
        .unwrap();
    let message = String::from_utf8_lossy(&ran.stderr);
    assert_eq!(
        String::from_utf8_lossy(&ran.stdout),
        "fails at word 1\n",
        "{line}: {message}"
    );
    assert_eq!(ran.status.code(), Some(1));
}

#[test]
fn a_c_program_from_what_is_installed() {
    let folder = Folder::new("installed");
    for name in ["prefix", "a prefix with blanks"] {
        let prefix = folder.0.join(name);
        let variable = [format!("PREFIX={}", prefix.display())];
        made("install", &variable);
        assert_eq!(files_below(&prefix), below(&prefix));
        assert_eq!(
            std::fs::read_to_string(prefix.join(INSTALLED[1])).unwrap(),
            text("include/canceller.h")
        );
        assert_eq!(
            std::fs::read_to_string(prefix.join(INSTALLED[4])).unwrap(),
            text("command/canceller.1")
        );
        builds_a_c_program(&folder, &prefix);
        let version = Command::new(prefix.join(INSTALLED[0]))
            .arg("--version")
            .output()
            .unwrap();
        let version = String::from_utf8(version.stdout).unwrap();
        assert_eq!(
            version,
            folder.done(&["--version"]),
            "the command that is installed"
        );
        let number = pkg_config(&prefix, "--modversion");
        assert!(
            version.starts_with(&format!("canceller {number} (")),
            "{version}"
        );
        // again over itself, and away
        made("install", &variable);
        made("uninstall", &variable);
        assert_eq!(files_below(&prefix), Vec::<PathBuf>::new());
        made("uninstall", &variable);
    }
}

#[test]
fn a_destdir_is_put_before_every_path_and_into_no_file() {
    let folder = Folder::new("destdir");
    let destdir = folder.0.join("stage");
    let variables = [
        format!("DESTDIR={}", destdir.display()),
        "PREFIX=/opt/canceller".to_string(),
    ];
    made("install", &variables);
    let prefix = destdir.join("opt/canceller");
    assert_eq!(files_below(&destdir), below(&prefix));
    let flags = pkg_config(&prefix, "--cflags --libs");
    assert_eq!(
        flags,
        "-I/opt/canceller/include -L/opt/canceller/lib -lcanceller"
    );
    made("uninstall", &variables);
    assert_eq!(files_below(&destdir), Vec::<PathBuf>::new());
    let ran = make("install", &["PREFIX=relative".to_string()]);
    assert!(!ran.status.success());
}
