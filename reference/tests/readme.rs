//! README.md: its commands print what it says they print, the programs that it shows are those of examples/, and the bytes in its
//! tables are the sample's.

use reference::both::Both;
use reference::repository::{repository, sample, text};
use reference::second::planning::WORKING;
use std::os::unix::fs::symlink;
use std::path::{Path, PathBuf};
use std::process::Command;

/// A command of the README with the lines that it is shown to print.
struct Shown {
    command: String,
    prints: String,
}

fn shown(readme: &str) -> Vec<Shown> {
    let mut all: Vec<Shown> = Vec::new();
    let mut open = false;
    for line in readme.lines() {
        match line.strip_prefix("    ") {
            Some(command) if command.starts_with("$ ") => {
                all.push(Shown {
                    command: command[2..].to_string(),
                    prints: String::new(),
                });
                open = true;
            }
            Some(printed) if open => {
                let last = all.last_mut().unwrap();
                last.prints += &format!("{printed}\n");
            }
            _ => open = false,
        }
    }
    all
}

/// A folder that holds the repository's folders and whatever the commands write.
fn scratch() -> PathBuf {
    let folder = Path::new(env!("CARGO_TARGET_TMPDIR")).join("readme");
    if folder.exists() {
        std::fs::remove_dir_all(&folder).unwrap();
    }
    std::fs::create_dir_all(&folder).unwrap();
    for name in ["examples", "include", "samples", "target"] {
        let there = repository().join(name).canonicalize().unwrap();
        symlink(there, folder.join(name)).unwrap();
    }
    folder
}

/// What `make` would prove and build is built before the tests run.
fn without_make(command: &str) -> &str {
    match command {
        "make run" => "./target/bin/plan_printer < samples/sample.set",
        "make lib" => "test -r target/staticlib/libcanceller.a",
        "make command" => "test -x target/canceller",
        other => other,
    }
}

#[test]
fn the_commands_print_what_is_shown() {
    let folder = scratch();
    let all = shown(&text("README.md"));
    for Shown { command, prints } in &all {
        let ran = Command::new("sh")
            .arg("-c")
            .arg(format!("{{ {}\n}} 2>&1", without_make(command)))
            .current_dir(&folder)
            .output()
            .expect("sh starts");
        let printed = String::from_utf8(ran.stdout).unwrap();
        assert_eq!(&printed, prints, "{command}");
    }
    let starting = |with: &str| all.iter().filter(|s| s.command.starts_with(with)).count();
    assert!(starting("./") >= 8, "the examples are run");
    assert!(starting("target/canceller ") >= 5, "the command is run");
}

#[test]
fn the_programs_shown_are_those_of_the_examples() {
    let readme = text("README.md");
    for (language, file) in [("c", "examples/judge.c"), ("rust", "examples/judge.rs")] {
        let (_, rest) = readme.split_once(&format!("```{language}\n")).unwrap();
        let (code, _) = rest.split_once("```").unwrap();
        assert!(code.lines().count() > 1);
        assert!(text(file).contains(code), "{file} does not have:\n{code}");
    }
}

#[test]
fn the_text_form_shown_is_the_samples() {
    let shown = format!("```\n{}```\n", text("samples/sample.txt"));
    assert!(text("README.md").contains(&shown), "{shown}");
}

/// The bytes in `..` in the last column of the table under this heading.
fn bytes_in_table(readme: &str, heading: &str) -> Vec<u8> {
    let (_, table) = readme.split_once(heading).expect(heading);
    let rows = table.lines().skip(2).take_while(|l| l.starts_with('|'));
    let mut bytes = Vec::new();
    for row in rows {
        let last = row.trim_end_matches(" |").rsplit('|').next().unwrap();
        for part in last.split('`').skip(1).step_by(2) {
            let digits = part.split(' ');
            bytes.extend(digits.map(|d| u8::from_str_radix(d, 16).expect(part)));
        }
    }
    bytes
}

#[test]
fn the_bytes_in_the_tables_are_the_sample_and_its_plan() {
    let readme = text("README.md");
    let set = sample("sample.set");
    let of_set = bytes_in_table(&readme, "In the sample (44 bytes, in hexadecimal)");
    assert_eq!(of_set, set);
    let mut both = Both::at("the sample");
    let plan = both.plan(&set, WORKING, 64).unwrap();
    let plan = both.write_plan(&plan, 526).unwrap();
    let of_plan = bytes_in_table(&readme, "In the sample's plan (23 bytes, in hexadecimal)");
    assert_eq!(of_plan, plan);
    for (record, signature) in [([1, 1], 3), ([3, 1], 0)] {
        assert_eq!(both.sign(&set, &record), Ok(signature));
        let shown = format!("`{:02x} {:02x}`", record[0], record[1]);
        assert!(readme.contains(&shown), "{shown}");
    }
}
