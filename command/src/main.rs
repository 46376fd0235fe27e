//! The command `canceller`. It parses, prints and draws; every answer comes from the proved library, through the wrapper of
//! examples/. `uses/` has a module for each use, and `uses.rs` the list of them.

#[path = "../../examples/canceller.rs"]
mod canceller;

mod arguments;
mod bits;
mod csv;
mod ending;
mod files;
mod numbers;
mod refusals;
mod svg;
mod text_form;
mod uses;
mod wafer;

use std::process::ExitCode;

fn main() -> ExitCode {
    let words: Vec<_> = std::env::args_os().skip(1).collect();
    ending::exit_code(uses::run(&words))
}
