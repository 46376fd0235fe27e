//! Makes a set from its text form.

use super::{Input, Use};
use crate::arguments::Given;
use crate::canceller;
use crate::ending::{of, Outcome, Status};
use crate::{files, text_form};

pub const USE: Use = Use {
    name: "pack",
    forms: &["pack FILE.txt [-o FILE.set]"],
    does: "make a set from its text form",
    more: "\
The text form has one setting a line, in this order; # starts a comment:

    width 3            # register bits
    taps 3             # a word: decimal, 0x.., or 'bits 0 1'
    inversion 0        # a word: the inputs that are inverted; without this line none is
    chains 2
    spread 0 1         # chain 0's spread word
    spread 1 bits 2    # chain 1's
    slices 2
    1X                 # a line for each slice: 0, 1 or X, chain 0 first;
    10                 # blanks between the cells don't count
    tie 0 1 7          # the unknown cell of slice 0, chain 1 holds symbol 7; 'tie 0 1 7 opposite': its opposite

An unknown cell without a tie is free. Ties stand by slice and then by chain.

Example: canceller pack sample.txt -o sample.set",
    options: &["-o"],
    operands: 1..=1,
    run,
};

fn run(given: &Given) -> Outcome {
    let text = Input::read(&given.operands[0], text_form::TEXT_MAX)?;
    let form = text_form::parse(&text.name, &text.bytes)?;
    let written = canceller::write_set(&form.set, &form.values, &form.marks, &form.ties);
    files::write(given.option("-o"), &of(&text.name, written)?)?;
    Ok(Status::Done)
}
