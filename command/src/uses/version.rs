//! The version of the header, and of the kit that the library is made with.

use super::Use;
use crate::arguments::Given;
use crate::ending::{Outcome, Status};
use crate::files;

pub const USE: Use = Use {
    name: "version",
    forms: &["--version"],
    does: "print the version",
    more: "The version is the header's; behind it stands the Rattle kit that the library is made with.",
    options: &[],
    operands: 0..=0,
    run,
};

fn run(_: &Given) -> Outcome {
    let (version, kit) = (env!("CANCELLER_VERSION"), env!("CANCELLER_KIT"));
    files::write(None, format!("canceller {version} ({kit})\n").as_bytes())?;
    Ok(Status::Done)
}
