//! The uses. A new one is a module here with its `USE`, and a line in `ALL`.

mod columns;
mod cut;
mod draw;
mod expect;
mod explain;
mod help;
mod judge;
mod pack;
mod plan;
mod show;
mod sign;
mod version;
mod words;

use crate::arguments::{self, Given};
use crate::canceller::{self, Plan, Reply, PLAN_MAX};
use crate::ending::{of, unusable, Outcome};
use crate::files;
use std::ffi::{OsStr, OsString};
use std::ops::RangeInclusive;

/// A use of the command.
pub struct Use {
    pub name: &'static str,
    /// How it is written, without `canceller`.
    pub forms: &'static [&'static str],
    /// What it does, in a line.
    pub does: &'static str,
    /// More of it, with an example.
    pub more: &'static str,
    /// Its options; each takes a value.
    pub options: &'static [&'static str],
    /// How many operands it takes.
    pub operands: RangeInclusive<usize>,
    pub run: fn(&Given) -> Outcome,
}

/// Every use, in the order in which the help lists them.
pub const ALL: [&Use; 13] = [
    &pack::USE,
    &show::USE,
    &plan::USE,
    &expect::USE,
    &words::USE,
    &cut::USE,
    &sign::USE,
    &judge::USE,
    &draw::USE,
    &columns::USE,
    &explain::USE,
    &help::USE,
    &version::USE,
];

/// Runs the use that these words ask for.
pub fn run(words: &[OsString]) -> Outcome {
    let Some((first, rest)) = words.split_first() else {
        return unusable(format!("no use is given\n{}", help::overview().trim_end()));
    };
    let name = match first.to_str() {
        Some("--help" | "-h") => "help",
        Some("--version" | "-V") => "version",
        Some(name) => name,
        None => "",
    };
    let one = named(name)?;
    if rest.iter().any(|word| word == "--help" || word == "-h") {
        return help::print(one);
    }
    (one.run)(&arguments::take(one, rest)?)
}

/// The use of this name, or which one may have been meant.
fn named(name: &str) -> Outcome<&'static Use> {
    if let Some(one) = ALL.into_iter().find(|one| one.name == name) {
        return Ok(one);
    }
    let nearest = ALL
        .into_iter()
        .map(|one| (distance(name, one.name), one.name))
        .min();
    let meant = match nearest {
        Some((far, near)) if far <= 2 => format!("did you mean 'canceller {near}'?"),
        _ => "'canceller --help' lists the uses".to_string(),
    };
    unusable(format!("no use '{name}': {meant}"))
}

/// How many letters must be put in, taken out or changed to make one word of the other.
fn distance(a: &str, b: &str) -> usize {
    let b: Vec<char> = b.chars().collect();
    let mut row: Vec<usize> = (0..=b.len()).collect();
    for (i, letter) in a.chars().enumerate() {
        let mut corner = row[0];
        row[0] = i + 1;
        for j in 0..b.len() {
            let change = corner + usize::from(letter != b[j]);
            corner = row[j + 1];
            row[j + 1] = change.min(corner + 1).min(row[j] + 1);
        }
    }
    row[b.len()]
}

/// An input of a use: its bytes, and how messages name it.
struct Input {
    bytes: Vec<u8>,
    name: String,
}

impl Input {
    /// At most one byte more than the longest that the library takes: what is longer than that is of the wrong length, and the
    /// earlier numbers are about its front.
    fn read(path: &OsStr, longest: usize) -> Outcome<Input> {
        Ok(Input {
            bytes: files::read_front(path, longest)?,
            name: files::name_of(path),
        })
    }

    /// What the library says of it.
    fn ask<T>(&self, call: impl Fn(&[u8]) -> Reply<T>) -> Outcome<T> {
        of(&self.name, call(&self.bytes))
    }
}

/// A plan file, and what is in it.
fn plan_in(path: &OsStr) -> Outcome<(Input, Plan)> {
    let file = Input::read(path, PLAN_MAX)?;
    let plan = file.ask(canceller::read_plan)?;
    Ok((file, plan))
}
