//! The help.

use super::{named, Use, ALL};
use crate::arguments::Given;
use crate::ending::{Outcome, Status};
use crate::files;

pub const USE: Use = Use {
    name: "help",
    forms: &["--help", "help [USE]"],
    does: "print this, or more of a use",
    more: "Example: canceller help judge",
    options: &[],
    operands: 0..=1,
    run,
};

fn run(given: &Given) -> Outcome {
    match given.operands.first() {
        Some(name) => print(named(&name.to_string_lossy())?),
        None => {
            files::write(None, overview().as_bytes())?;
            Ok(Status::Done)
        }
    }
}

/// All uses on one screen: a line for each form, and behind the last one what the use does.
pub fn overview() -> String {
    const FORM: usize = 39;
    let mut text =
        "Words of signature bits in which every unknown cell cancels. usage: canceller ..\n\n"
            .to_string();
    for one in ALL {
        let (last, others) = one.forms.split_last().expect("a use has a form");
        for form in others {
            text += &format!("  {form}\n");
        }
        let fits = last.len() < FORM;
        text += &format!("  {last}");
        text += &if fits {
            " ".repeat(FORM - last.len())
        } else {
            format!("\n{:1$}", "", FORM + 2)
        };
        text += &format!("{}\n", one.does);
    }
    text + "\nA file '-' is standard input or output. 'canceller help USE' tells more, with an example.\n\
            Exit status: 0 done (judge: all pass), 1 some signature fails, 2 refused, 3 usage, or input\n\
            that can't be read or written.\n"
}

/// More of one use.
pub fn print(one: &Use) -> Outcome {
    let mut text = String::new();
    for form in one.forms {
        text += &format!("usage: canceller {form}\n");
    }
    text += &format!("\nTo {}.\n\n{}\n", one.does, one.more);
    files::write(None, text.as_bytes())?;
    Ok(Status::Done)
}
