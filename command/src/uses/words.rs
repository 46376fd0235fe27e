//! Prints a plan file.

use super::{plan_in, Use};
use crate::arguments::Given;
use crate::canceller::Plan;
use crate::ending::{Outcome, Status};
use crate::{bits, files};

pub const USE: Use = Use {
    name: "words",
    forms: &["words FILE.plan"],
    does: "print the words of a plan file",
    more: "\
For each word: its index, the word in decimal, its bits from M1 on, its expected bit, and the XOR of signature bits that it
is. M1 is bit 0 of the register.

Example: canceller words sample.plan",
    options: &[],
    operands: 1..=1,
    run,
};

fn run(given: &Given) -> Outcome {
    let (_, plan) = plan_in(&given.operands[0])?;
    files::write(None, table(&plan).as_bytes())?;
    Ok(Status::Done)
}

fn table(plan: &Plan) -> String {
    let (m, q) = (plan.m, plan.words.len());
    let mut text = format!("m {m}, q {q}; bits from M1 (bit 0) on\n");
    let wide = |name: &str, longest: usize| name.len().max(longest);
    let longest = plan.words.iter().max().map_or(0, |w| w.to_string().len());
    let (decimal, row) = (wide("decimal", longest), wide("bits", m as usize));
    let mut line = |index: &str, word: &str, bits: &str, expected: &str, xor: &str| {
        text += &format!("{index:>4}  {word:>decimal$}  {bits:<row$}  {expected:>8}  {xor}\n");
    };
    line("word", "decimal", "bits", "expected", "XOR");
    for (i, &word) in plan.words.iter().enumerate() {
        let expected = bits::is_set(plan.expected, i as u64);
        line(
            &i.to_string(),
            &word.to_string(),
            &bits::row(word, m),
            if expected { "1" } else { "0" },
            &bits::xor(word),
        );
    }
    text
}
