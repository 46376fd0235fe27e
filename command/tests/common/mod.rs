//! What the tests of the command share: running it, and folders for its files.
#![allow(dead_code)]

use reference::second::plan::Plan;
use reference::second::planning::{plan, WORKING_MOST};
use std::fs::File;
use std::io::Write;
use std::path::{Path, PathBuf};
use std::process::{Child, Command, Stdio};

/// What a run ended with.
#[derive(Debug)]
pub struct Ran {
    pub status: i32,
    pub out: Vec<u8>,
    pub err: String,
}

impl Ran {
    pub fn text(&self) -> &str {
        std::str::from_utf8(&self.out).expect("text on standard output")
    }
}

/// A folder of its own for the files of one test.
pub struct Folder(pub PathBuf);

impl Folder {
    pub fn new(name: &str) -> Folder {
        let path = Path::new(env!("CARGO_TARGET_TMPDIR")).join(name);
        if path.exists() {
            std::fs::remove_dir_all(&path).unwrap();
        }
        std::fs::create_dir_all(&path).unwrap();
        Folder(path)
    }

    pub fn put(&self, name: &str, bytes: impl AsRef<[u8]>) -> String {
        std::fs::write(self.0.join(name), bytes).unwrap();
        name.to_string()
    }

    pub fn get(&self, name: &str) -> Vec<u8> {
        std::fs::read(self.0.join(name)).unwrap_or_else(|e| panic!("{name}: {e}"))
    }

    pub fn text(&self, name: &str) -> String {
        String::from_utf8(self.get(name)).unwrap()
    }

    pub fn names(&self) -> Vec<String> {
        let all = std::fs::read_dir(&self.0).unwrap();
        let mut names: Vec<String> = all
            .map(|e| e.unwrap().file_name().into_string().unwrap())
            .collect();
        names.sort();
        names
    }

    pub fn command(&self, words: &[&str]) -> Command {
        let mut command = Command::new(env!("CARGO_BIN_EXE_canceller"));
        command.args(words).current_dir(&self.0);
        command
    }

    /// Runs the command here, with nothing on standard input.
    pub fn run(&self, words: &[&str]) -> Ran {
        self.run_with(words, b"")
    }

    /// .. with these bytes on standard input.
    pub fn run_with(&self, words: &[&str], input: &[u8]) -> Ran {
        let mut child = self
            .command(words)
            .stdin(Stdio::piped())
            .stdout(Stdio::piped())
            .stderr(Stdio::piped())
            .spawn()
            .expect("the command starts");
        let mut stdin = child.stdin.take().unwrap();
        std::thread::scope(|scope| {
            // the command stops reading where an input is longer than anything that it takes
            scope.spawn(move || stdin.write_all(input).ok());
            ended(child)
        })
    }

    /// Runs the command with its standard output to a file.
    pub fn run_to(&self, words: &[&str], output: File) -> Ran {
        let child = self
            .command(words)
            .stdin(Stdio::null())
            .stdout(output)
            .stderr(Stdio::piped())
            .spawn()
            .expect("the command starts");
        ended(child)
    }

    /// Runs it, which must end with 0 and say nothing on standard error; what it prints.
    pub fn done(&self, words: &[&str]) -> String {
        let ran = self.run(words);
        assert_eq!((ran.status, ran.err.as_str()), (0, ""), "{words:?}");
        ran.text().to_string()
    }
}

pub fn ended(child: Child) -> Ran {
    let output = child.wait_with_output().expect("the command ends");
    Ran {
        status: output.status.code().expect("no signal ends the command"),
        out: output.stdout,
        err: String::from_utf8(output.stderr).expect("text on standard error"),
    }
}

/// A folder with the sample, sample.set, and its plan, sample.plan.
pub fn with_planned_sample(name: &str) -> Folder {
    let folder = Folder::new(name);
    folder.put("sample.set", sample("sample.set"));
    folder.done(&["plan", "sample.set", "-o", "sample.plan"]);
    folder
}

/// Where a set has its inversion word: behind m, of 2 bytes, and the tap word, of 8.
const INVERSION: std::ops::Range<usize> = 10..18;

/// A set with this inversion word in place of its own.
pub fn with_inversion(set: &[u8], word: u64) -> Vec<u8> {
    let mut set = set.to_vec();
    set[INVERSION].copy_from_slice(&word.to_le_bytes());
    set
}

pub fn inversion_of(set: &[u8]) -> u64 {
    u64::from_le_bytes(set[INVERSION].try_into().unwrap())
}

/// The plan of a set by the second implementation, which is lent as many places as the command lends.
pub fn second_plan(set: &[u8]) -> Result<Plan, u64> {
    plan(set, WORKING_MOST, 64).reply
}

/// A file of samples/, and of what the tests have stored.
pub fn sample(name: &str) -> Vec<u8> {
    reference::repository::sample(name)
}

pub fn stored(name: &str) -> String {
    reference::repository::text(&format!("command/tests/stored/{name}"))
}
