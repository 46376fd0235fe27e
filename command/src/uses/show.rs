//! Prints the text form of a set.

use super::{Input, Use};
use crate::arguments::Given;
use crate::canceller::SET_MAX;
use crate::ending::{Outcome, Status};
use crate::{files, text_form};

pub const USE: Use = Use {
    name: "show",
    forms: &["show FILE.set [-o FILE.txt]"],
    does: "print the text form of a set",
    more: "\
'canceller pack' makes the same bytes of it again. 'canceller help pack' has the text form; where no input of the register is
inverted there is no line 'inversion', and where every unknown cell is free there are no lines 'tie'.

Example: canceller show sample.set",
    options: &["-o"],
    operands: 1..=1,
    run,
};

fn run(given: &Given) -> Outcome {
    let set = Input::read(&given.operands[0], SET_MAX)?;
    let text = set.ask(text_form::print)?;
    files::write(given.option("-o"), text.as_bytes())?;
    Ok(Status::Done)
}
