//! The columns of a set's symbols: its unknown cells, alone or tied.

use super::{Input, Use};
use crate::arguments::Given;
use crate::canceller::{self, Reply, Tie, SET_MAX};
use crate::ending::{Outcome, Status};
use crate::text_form::{cells_of, unknown_cells};
use crate::{bits, files};
use std::fmt::Write;

pub const USE: Use = Use {
    name: "columns",
    forms: &["columns FILE.set [-o FILE.txt]"],
    does: "list each unknown cell or symbol with its column",
    more: "\
A line 'slice number chain number column number bits ..' for each unknown cell without a tie, by slice and then by chain; for
each symbol that ties name a line 'symbol number', its cells, 'opposite' behind those that hold its opposite, and the column,
where the first of its cells stands. The column is given in decimal and as the register bits that change; M1 is bit 0.

Example: canceller columns sample.set",
    options: &["-o"],
    operands: 1..=1,
    run,
};

fn run(given: &Given) -> Outcome {
    let set = Input::read(&given.operands[0], SET_MAX)?;
    let text = set.ask(listed)?;
    files::write(given.option("-o"), text.as_bytes())?;
    Ok(Status::Done)
}

fn listed(file: &[u8]) -> Reply<String> {
    let columns = canceller::list_columns(file)?;
    let mut text = String::new();
    for (owner, column) in owners(file)?.iter().zip(columns) {
        let reached = bits::listed(column);
        writeln!(text, "{owner} column {column} bits {reached}").expect("a string grows");
    }
    Ok(text)
}

/// What the columns are of, in their order: each unknown cell without a tie, and each symbol, where its first cell stands.
fn owners(file: &[u8]) -> Reply<Vec<String>> {
    let ties = Tie::all(canceller::ties(file)?);
    let slices = cells_of(file, &canceller::read_set(file)?)?;
    let owner = |(slice, chain): (usize, usize)| {
        let is_here = |tie: &&Tie| (tie.slice.into(), tie.chain.into()) == (slice, chain);
        match ties.iter().find(is_here) {
            None => Some(format!("slice {slice} chain {chain}")),
            Some(tie) => symbol(&ties, tie),
        }
    };
    let cells = unknown_cells(&slices).into_iter();
    Ok(cells.filter_map(owner).collect())
}

/// The symbol of a tie with all its cells, where the tie is the symbol's first.
fn symbol(ties: &[Tie], first: &Tie) -> Option<String> {
    let of_symbol = |tie: &&Tie| tie.symbol == first.symbol;
    let mut all = ties.iter().filter(of_symbol).peekable();
    if all.peek() != Some(&first) {
        return None;
    }
    let cell = |tie: &Tie| {
        let opposite = if tie.opposite { " opposite" } else { "" };
        format!("slice {} chain {}{opposite}", tie.slice, tie.chain)
    };
    let cells: Vec<String> = all.map(cell).collect();
    Some(format!("symbol {} {}", first.symbol, cells.join(", ")))
}
