//! What a long response costs: its slices cut into runs, each with words enough.

use super::{Input, Use};
use crate::arguments::Given;
use crate::canceller::{self, Reply, Set, SET_MAX};
use crate::ending::{unusable, Outcome, Status};
use crate::files;
use crate::numbers::{self, many};
use std::ffi::OsStr;
use std::fmt::Write;
use std::ops::Range;

pub const USE: Use = Use {
    name: "cut",
    forms: &["cut FILE.set K [-o FILE.txt]"],
    does: "cut the slices into runs that leave K words, with the bill",
    more: "\
Each run is to be clocked from zero and judged as a set of its own. Each leaves at least K words, and each is the longest
that does so from its start. The unknown marks alone decide: no cell's value bears on the runs, and no tie, for every unknown
cell is free here. K is decimal or 0x.., from 1 to m.

Prints a line 'run index slices first to last words count bits count' for each run. The words are as many as 'canceller plan'
finds for a set of the run's slices alone, without ties; the control bits are m for each of K words. The last line is the
bill: 'bill count runs x m bits x K words = count control bits'. A set without slices has no runs, and its bill is 0.

Example: canceller cut runs.set 2",
    options: &["-o"],
    operands: 2..=2,
    run,
};

fn run(given: &Given) -> Outcome {
    let k = least_words(&USE, &given.operands[1])?;
    let set = Input::read(&given.operands[0], SET_MAX)?;
    let text = set.ask(|file| Cutting::of(file, k))?.lines();
    files::write(given.option("-o"), text.as_bytes())?;
    Ok(Status::Done)
}

/// The k that a use was given. Whether it is 1 to m is for the library to say.
pub fn least_words(one: &Use, text: &OsStr) -> Outcome<u64> {
    let bytes = text.as_encoded_bytes();
    match numbers::word(bytes) {
        Some(k) => Ok(k),
        None => {
            let (name, found) = (one.name, numbers::found(bytes));
            unusable(format!(
                "{name}: expected K, {}, found {found}",
                numbers::WORD
            ))
        }
    }
}

/// The runs that the slices of a set are cut into.
pub struct Cutting {
    pub m: u64,
    pub k: u64,
    pub runs: Vec<Run>,
    /// The control bits of all runs.
    pub bits: u64,
}

/// A run: its first slice, its last one, and how many words it leaves.
pub struct Run {
    pub first: u64,
    pub last: u64,
    pub words: usize,
}

impl Cutting {
    pub fn of(file: &[u8], k: u64) -> Reply<Cutting> {
        let (starts, bits) = canceller::cut(file, k)?;
        let set = canceller::read_set(file)?;
        let ends = starts.iter().skip(1).chain([&set.s]);
        let run = |(&first, &end)| {
            Ok(Run {
                first,
                last: end - 1,
                words: words_left(file, &set, first..end)?,
            })
        };
        let runs = starts.iter().zip(ends).map(run).collect::<Reply<_>>()?;
        let m = set.m;
        Ok(Cutting { m, k, runs, bits })
    }

    fn lines(&self) -> String {
        let mut text = String::new();
        let (m, k) = (self.m, self.k);
        for (i, Run { first, last, words }) in self.runs.iter().enumerate() {
            let bits = m * k;
            writeln!(
                text,
                "run {i} slices {first} to {last} words {words} bits {bits}"
            )
            .expect("a string grows");
        }
        let runs = many(self.runs.len() as u64, "run");
        let (bits, words) = (many(m, "bit"), many(k, "word"));
        let sum = many(self.bits, "control bit");
        text + &format!("bill {runs} x {bits} x {words} = {sum}\n")
    }
}

/// How many words a set of these slices alone has, every unknown cell free.
fn words_left(file: &[u8], set: &Set, slices: Range<u64>) -> Reply<usize> {
    let (mut values, mut marks) = (Vec::new(), Vec::new());
    for slice in slices.clone() {
        values.extend(canceller::value_row(file, slice)?);
        marks.extend(canceller::mark_row(file, slice)?);
    }
    let alone = Set {
        s: slices.end - slices.start,
        ..set.clone()
    };
    let alone = canceller::write_set(&alone, &values, &marks, &[])?;
    let (_, words) = canceller::plan_words(&alone)?;
    Ok(words.len())
}
