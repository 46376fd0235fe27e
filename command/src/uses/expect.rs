//! New expected bits for the words of a plan, from a revised set.

use super::{plan, plan_in, Input, Use};
use crate::arguments::{not_both_standard, Given};
use crate::bits;
use crate::canceller::{self, Plan, Refusal, SET_MAX};
use crate::ending::{of, say, Outcome, Status};
use crate::refusals::NO_WORDS;
use std::fmt::Write;

pub const USE: Use = Use {
    name: "expect",
    forms: &["expect OLD.plan NEW.set [-o NEW.plan]"],
    does: "give a plan the expected bits of a revised set",
    more: "\
For a set whose values were corrected while its unknown marks stayed: the words stay, and some expected bits change. Prints
a line 'word index word expected bit was bit' for each of these, and then 'changed count of q'. With -o the plan file is
written, the same as 'canceller plan' writes for the revised set; it may take the place of the old one. With '-o -' the plan
file goes to standard output, and nothing is printed.

Where more than values has changed (unknown marks, ties, slices, chains, the register) so that the plan's words aren't the
set's own, the plan would let an unknown cell through or leave words out. That is said, nothing is written, and the exit
status is 2; 'canceller plan' makes a new plan.

Example: canceller expect sample.plan revised.set -o revised.plan",
    options: &["-o"],
    operands: 2..=2,
    run,
};

fn run(given: &Given) -> Outcome {
    let (path, revised) = (&given.operands[0], &given.operands[1]);
    not_both_standard(&USE, [path, revised], "the plan and the set")?;
    let (file, old) = plan_in(path)?;
    let set = Input::read(revised, SET_MAX)?;
    if !are_own(&file.name, &old, &set)? {
        say("more than values has changed, and nothing is written; for a new plan: canceller plan FILE.set -o FILE.plan");
        return Ok(Status::Refused);
    }
    let expected = set.ask(|set| canceller::expect(set, &old.words))?;
    let changes = changes(&old, expected);
    plan::put(given, &set, &Plan { expected, ..old }, &changes)
}

/// Whether the words of a plan are the set's own; where they aren't, it says why.
fn are_own(name: &str, plan: &Plan, set: &Input) -> Outcome<bool> {
    let not_own = |why: &str| {
        let file = &set.name;
        say(&format!(
            "{file}: the words of {name} aren't this set's own: {why}"
        ));
        Ok(false)
    };
    let (m, width) = (set.ask(canceller::read_set)?.m, plan.m);
    if m != width {
        return not_own(&format!(
            "the plan is for a register of {width} bits, the set has one of {m}"
        ));
    }
    match canceller::plan_words(&set.bytes) {
        Ok((_, words)) if words == plan.words => Ok(true),
        Ok(_) => not_own("the plan would let an unknown cell through, or leave words out"),
        Err(refusal) => {
            if refusal == Refusal(NO_WORDS) {
                not_own("it has none, and each of them would let an unknown cell through")?;
            }
            of(&set.name, Err(refusal))
        }
    }
}

/// A line for each word of a plan whose expected bit is another one now, and how many there are.
fn changes(old: &Plan, expected: u64) -> String {
    let mut text = String::new();
    let (mut count, q) = (0, old.words.len());
    for (i, word) in old.words.iter().enumerate() {
        let bit = |bits: u64| u8::from(bits::is_set(bits, i as u64));
        let (was, now) = (bit(old.expected), bit(expected));
        if was != now {
            writeln!(text, "word {i} {word} expected {now} was {was}").expect("a string grows");
            count += 1;
        }
    }
    writeln!(text, "changed {count} of {q}").expect("a string grows");
    text
}
