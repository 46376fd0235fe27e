//! What a refusal number means.

use super::Use;
use crate::arguments::Given;
use crate::ending::{unusable, Outcome, Status};
use crate::{files, numbers, refusals};

pub const USE: Use = Use {
    name: "explain",
    forms: &["explain N"],
    does: "tell what a refusal number means and what to do",
    more: "\
A refusal carries a number from 1 to 31: the first that applies, in that order, but that 25 is looked for after 3, and 29
to 31, then 26 to 28, after 10. There is no 16: more than m independent columns can't come up.

Example: canceller explain 17",
    options: &[],
    operands: 1..=1,
    run,
};

fn run(given: &Given) -> Outcome {
    let word = given.operands[0].to_string_lossy();
    let number = numbers::word(word.as_bytes()).unwrap_or(0);
    let Some((why, advice)) = refusals::meaning(number) else {
        return unusable(none(number, &numbers::found(word.as_bytes())));
    };
    let text = format!("refused {number}: {why}\nwhat to do: {advice}\n");
    files::write(None, text.as_bytes())?;
    Ok(Status::Done)
}

/// What is said where no call gives the number.
fn none(number: u64, found: &str) -> String {
    let (last, gap) = (refusals::LAST, refusals::TAKEN_OUT);
    if number == gap {
        return format!(
            "explain: no call gives {gap}: more than m independent columns can't come up"
        );
    }
    format!("explain: expected a number from 1 to {last} but {gap}, found {found}")
}
