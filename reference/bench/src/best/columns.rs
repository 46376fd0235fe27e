//! Listing columns: few by the powers of the register, one by one; many by advancing all chains' words together, by one clock for each
//! slice or by eight for every eighth.

use super::clocks::{Clock, Eight, Powers};
use super::set::read_set;
use super::*;
use crate::same::response::Marks;
use crate::same::set::Read;
use crate::same::ties::{opening_flags, set_symbols, unmark, Ties};

/// The marked cells of the first s rows. Rows without one are passed over.
pub fn count_marks(marks: Marks, s: usize) -> usize {
    let mut found = 0;
    for t in 0..s {
        let row = row_words(marks.row(t));
        if row.iter().fold(0, |a, w| a | w) != 0 {
            found += row.iter().map(|w| w.count_ones() as usize).sum::<usize>();
        }
    }
    found
}

/// Fills a list from its end with what `column` gives for the marked chains of a row; how many places are left. A group of 64 marks that
/// are all set is taken whole.
pub fn fill_row(
    columns: &mut [u64],
    row: &[u8],
    words: &[u64; 256],
    column: impl Fn(u64) -> u64,
) -> usize {
    let mut place = columns.len();
    for (i, mut marks) in row_words(row).into_iter().enumerate().rev() {
        let words: &[u64; 64] = words[64 * i..64 * i + 64].try_into().unwrap();
        if marks == u64::MAX {
            let end = place;
            place -= 64;
            for (to, w) in columns[place..end].iter_mut().zip(words) {
                *to = column(*w);
            }
        } else if marks != 0 {
            let end = place;
            place -= marks.count_ones() as usize;
            for to in &mut columns[place..end] {
                *to = column(words[marks.trailing_zeros() as usize]);
                marks &= marks - 1;
            }
        }
    }
    place
}

/// The columns one by one, by the powers of the register.
fn fill_by_powers(marks: Marks, read: Read, spread: &[u64; 256], mut columns: &mut [u64]) {
    let mut powers = Powers::of(Clock::of(read));
    for (clocks, t) in (0..read.s).rev().enumerate() {
        let row = marks.row(t);
        if row_words(row) == [0; 4] {
            continue;
        }
        powers.need(clocks);
        let place = fill_row(columns, row, spread, |w| powers.later(w, clocks));
        columns = &mut columns[..place];
    }
}

/// All chains' words advanced by eight clocks for every eighth slice, and those of marked cells by the clocks between.
fn fill_by_eights(marks: Marks, read: Read, spread: &[u64; 256], mut columns: &mut [u64]) {
    let eight = Eight::of(Clock::of(read));
    let mut words = *spread;
    for (clocks, t) in (0..read.s).rev().enumerate() {
        if clocks % 8 == 0 && clocks != 0 {
            eight.advance(&mut words[..read.n]);
        }
        let between = clocks as u64 % 8;
        let place = fill_row(columns, marks.row(t), &words, |w| eight.later(w, between));
        columns = &mut columns[..place];
    }
}

/// All chains' words advanced by one clock for each slice.
fn fill_by_sweep(marks: Marks, read: Read, spread: &[u64; 256], mut columns: &mut [u64]) {
    let clock = Clock::of(read);
    let mut words = *spread;
    for t in (0..read.s).rev() {
        let place = fill_row(columns, marks.row(t), &words, |w| w);
        columns = &mut columns[..place];
        clock.advance(&mut words[..read.n]);
    }
}

/// What the ways take, measured, in hundredths of a nanosecond: for a column, for a chain in each slice, and for the table of eight clocks.
const POWERS_COLUMN: usize = 2_400;
const EIGHTS_COLUMN: usize = 170;
const EIGHTS_CHAIN: usize = 7;
const EIGHTS_TABLE: usize = 30_000;
const SWEEP_COLUMN: usize = 130;
const SWEEP_CHAIN: usize = 35;

/// Fills the list by the way that takes least.
fn fill_columns(marks: Marks, read: Read, spread: &[u64; 256], columns: &mut [u64]) {
    let (cells, chains) = (columns.len(), read.n * read.s);
    let powers = POWERS_COLUMN * cells;
    let sweep = SWEEP_COLUMN * cells + SWEEP_CHAIN * chains;
    let eights = match read.m {
        8.. => EIGHTS_TABLE + EIGHTS_COLUMN * cells + EIGHTS_CHAIN * chains,
        _ => usize::MAX,
    };
    if powers <= sweep.min(eights) {
        fill_by_powers(marks, read, spread, columns)
    } else if sweep <= eights {
        fill_by_sweep(marks, read, spread, columns)
    } else {
        fill_by_eights(marks, read, spread, columns)
    }
}

/// The columns of the cells that the rows mark over the front of the list, and how many they are.
fn list_marked(
    marks: Marks,
    read: Read,
    spread: &[u64; 256],
    columns: &mut [u64],
) -> Result<usize, u64> {
    let found = count_marks(marks, read.s);
    let columns = columns.get_mut(..found).ok_or(14u64)?;
    fill_columns(marks, read, spread, columns);
    Ok(found)
}

/// The columns; with ties the symbols' own are put in the places of their first cells, as in `same`.
pub fn list_columns(set: &[u8], columns: &mut [u64]) -> Result<usize, u64> {
    let (read, spread) = read_set(set)?;
    let marks = Marks::of_set(set, read.n);
    let ties = Ties::of_set(set, read.n, read.s);
    if ties.len() == 0 {
        return list_marked(marks, read, &spread, columns);
    }
    let flags = opening_flags(ties);
    let heads = unmark(marks, (read.n, read.s), ties, |i| flags[i]);
    let marks = Marks::of_list(&heads, read.n);
    let symbols = list_marked(marks, read, &spread, columns)?;
    set_symbols(read, &spread, ties, &flags, marks, &mut columns[..symbols]);
    Ok(symbols)
}
