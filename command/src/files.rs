//! Files in, without harm whatever their size, and files out, whole or not at all.

use crate::ending::{unusable, Outcome, Stop};
use std::ffi::{OsStr, OsString};
use std::fs::{self, File, OpenOptions};
use std::io::{self, ErrorKind, Read, Write};
use std::os::fd::AsFd;
use std::path::{Path, PathBuf};

/// What `-` stands for among the inputs and outputs.
const STANDARD: &str = "-";

pub fn is_standard(path: &OsStr) -> bool {
    path == STANDARD
}

/// How messages name an input.
pub fn name_of(path: &OsStr) -> String {
    if is_standard(path) {
        "standard input".to_string()
    } else {
        path.to_string_lossy().into_owned()
    }
}

/// An input, opened.
pub fn open(path: &OsStr) -> Outcome<File> {
    let opened = if is_standard(path) {
        io::stdin().as_fd().try_clone_to_owned().map(File::from)
    } else {
        File::open(path)
    };
    opened.or_else(|error| cannot_read(path, &error))
}

pub fn cannot_read<T>(path: &OsStr, error: &io::Error) -> Outcome<T> {
    unusable(format!("{}: can't be read: {error}", name_of(path)))
}

/// An input whole, or its first `most` + 1 bytes where it is longer than `most`.
pub fn read_front(path: &OsStr, most: usize) -> Outcome<Vec<u8>> {
    let mut bytes = Vec::new();
    let mut front = open(path)?.take(most as u64 + 1);
    match front.read_to_end(&mut bytes) {
        Ok(_) => Ok(bytes),
        Err(error) => cannot_read(path, &error),
    }
}

/// Where an output goes.
enum Target {
    /// Standard output, or something that isn't a plain file: written at once.
    Direct,
    /// A plain file: written beside its place, and moved there when it is whole.
    Moved { beside: PathBuf, place: PathBuf },
}

/// An output. Unless `close` is reached, a plain file stays as it was.
pub struct Output {
    file: File,
    name: String,
    target: Target,
    held: Vec<u8>,
}

/// How much is held before it is written.
const HELD: usize = 256 * 1024;

impl Output {
    /// The output of `-o`; without it, and for `-`, standard output.
    pub fn to(path: Option<&OsString>) -> Outcome<Output> {
        match path {
            Some(path) if !is_standard(path) => Output::to_file(Path::new(path)),
            _ => Output::to_standard(),
        }
    }

    fn to_standard() -> Outcome<Output> {
        let name = "standard output".to_string();
        let file = io::stdout().as_fd().try_clone_to_owned().map(File::from);
        Output::made(file, name, Target::Direct)
    }

    fn to_file(path: &Path) -> Outcome<Output> {
        let name = path.to_string_lossy().into_owned();
        // a link stays one: what it leads to is replaced
        let place = fs::canonicalize(path).unwrap_or_else(|_| path.to_path_buf());
        let there = fs::metadata(&place).ok();
        if there.as_ref().is_some_and(|found| !found.is_file()) {
            let file = OpenOptions::new().write(true).open(&place);
            return Output::made(file, name, Target::Direct);
        }
        let beside = beside(&place);
        let file = OpenOptions::new()
            .write(true)
            .create_new(true)
            .open(&beside);
        let output = Output::made(file, name, Target::Moved { beside, place })?;
        if let Some(found) = there {
            output
                .file
                .set_permissions(found.permissions())
                .or_else(|error| output.cannot_write(&error))?;
        }
        Ok(output)
    }

    fn made(file: io::Result<File>, name: String, target: Target) -> Outcome<Output> {
        match file {
            Ok(file) => Ok(Output {
                file,
                name,
                target,
                held: Vec::with_capacity(HELD + HELD / 4),
            }),
            Err(error) => unusable(format!("{name}: can't be written: {error}")),
        }
    }

    fn cannot_write<T>(&self, error: &io::Error) -> Outcome<T> {
        if error.kind() == ErrorKind::BrokenPipe {
            return Err(Stop::ClosedPipe);
        }
        unusable(format!("{}: can't be written: {error}", self.name))
    }

    /// Room for more at the end of what is held; `settle` follows.
    pub fn held(&mut self) -> &mut Vec<u8> {
        &mut self.held
    }

    /// Writes what is held where it is much.
    pub fn settle(&mut self) -> Outcome<()> {
        if self.held.len() >= HELD {
            self.flush()?;
        }
        Ok(())
    }

    pub fn put(&mut self, bytes: &[u8]) -> Outcome<()> {
        self.held.extend_from_slice(bytes);
        self.settle()
    }

    pub fn flush(&mut self) -> Outcome<()> {
        let written = self.file.write_all(&self.held);
        self.held.clear();
        written.or_else(|error| self.cannot_write(&error))
    }

    /// All of it is there: a plain file takes its place.
    pub fn close(mut self) -> Outcome<()> {
        self.flush()?;
        let Target::Moved { beside, place } = &self.target else {
            return Ok(());
        };
        let moved = fs::rename(beside, place);
        moved.or_else(|error| self.cannot_write(&error))?;
        self.target = Target::Direct;
        Ok(())
    }
}

impl Drop for Output {
    fn drop(&mut self) {
        if let Target::Moved { beside, .. } = &self.target {
            let _ = fs::remove_file(beside);
        }
    }
}

/// The name of the file that is written first: hidden, in the same folder, and of this process alone.
fn beside(place: &Path) -> PathBuf {
    let mut name = OsString::from(".");
    name.push(place.file_name().unwrap_or_default());
    name.push(format!(".{}.part", std::process::id()));
    place.with_file_name(name)
}

/// A whole output in one piece.
pub fn write(path: Option<&OsString>, bytes: &[u8]) -> Outcome<()> {
    let mut output = Output::to(path)?;
    output.put(bytes)?;
    output.close()
}
