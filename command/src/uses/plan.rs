//! Plans a set.

use super::{Input, Use};
use crate::arguments::Given;
use crate::canceller::{self, Plan, Reply, SET_MAX};
use crate::ending::{Outcome, Status, Stop};
use crate::text_form::{cells_of, unknown_cells};
use crate::{bits, files};
use std::fmt::Write;

pub const USE: Use = Use {
    name: "plan",
    forms: &["plan FILE.set [-o FILE.plan]"],
    does: "print the plan of a set, and write the plan file",
    more: "\
Prints what the plan printer prints: 'set m n s unknowns', a line 'word index word expected' for each word, and 'end q'; a
set that is refused prints 'refused' and the number. Unknown cells are counted, tied or not, and any number of them is taken.
With '-o -' the plan file goes to standard output, and nothing is printed.

Example: canceller plan sample.set -o sample.plan",
    options: &["-o"],
    operands: 1..=1,
    run,
};

fn run(given: &Given) -> Outcome {
    let set = Input::read(&given.operands[0], SET_MAX)?;
    let planned = set.ask(planned);
    if let (Err(Stop::Refused { number, .. }), true) = (&planned, prints(given)) {
        files::write(None, format!("refused {number}\n").as_bytes())?;
    }
    let (plan, lines) = planned?;
    put(given, &set, &plan, &lines)
}

/// Whether lines are printed: not where the plan file goes to standard output.
fn prints(given: &Given) -> bool {
    let output = given.option("-o");
    output.is_none_or(|path| !files::is_standard(path))
}

/// Writes the plan file of a set where -o is given, and prints the lines about it.
pub fn put(given: &Given, set: &Input, plan: &Plan, lines: &str) -> Outcome {
    let output = given.option("-o");
    if output.is_some() {
        files::write(output, &set.ask(|_| canceller::write_plan(plan))?)?;
    }
    if prints(given) {
        files::write(None, lines.as_bytes())?;
    }
    Ok(Status::Done)
}

/// The plan of a set, and its lines.
fn planned(set: &[u8]) -> Reply<(Plan, String)> {
    let plan = canceller::plan(set)?;
    let read = canceller::read_set(set)?;
    let unknowns = unknown_cells(&cells_of(set, &read)?).len();
    let mut text = format!(
        "set {} {} {} {unknowns}\n",
        read.m,
        read.spread.len(),
        read.s
    );
    for (i, word) in plan.words.iter().enumerate() {
        let expected = u8::from(bits::is_set(plan.expected, i as u64));
        writeln!(text, "word {i} {word} {expected}").expect("a string grows");
    }
    writeln!(text, "end {}", plan.words.len()).expect("a string grows");
    Ok((plan, text))
}
