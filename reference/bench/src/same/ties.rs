//! Ties: the tests of entries, 29 to 31, the columns of named symbols, and marks without those of named cells.

use super::response::{powers, Marks};
use super::set::{ties_at, Read};
use super::*;

const ENTRY: usize = 7;

/// The entries of a set that has the right length.
#[derive(Clone, Copy)]
pub struct Ties<'a>(&'a [u8]);

impl<'a> Ties<'a> {
    pub fn of_set(set: &'a [u8], n: usize, s: usize) -> Ties<'a> {
        Ties(&set[ties_at(n, s) + 2..])
    }

    pub fn len(self) -> usize {
        self.0.len() / ENTRY
    }

    fn slice(self, i: usize) -> usize {
        count(self.0, ENTRY * i)
    }

    fn chain(self, i: usize) -> usize {
        count(self.0, ENTRY * i + 2)
    }

    fn symbol(self, i: usize) -> u16 {
        count(self.0, ENTRY * i + 4) as u16
    }

    fn side(self, i: usize) -> u8 {
        self.0[ENTRY * i + 6]
    }

    fn cell(self, i: usize) -> (usize, usize) {
        (self.slice(i), self.chain(i))
    }
}

fn is_marked(row: &[u8], c: usize) -> bool {
    row[c / 8] >> (c % 8) & 1 == 1
}

/// The first of 29, 30 and 31 that applies; 0 where none does.
pub fn ties_refusal(ties: Ties, marks: Marks, n: usize, s: usize) -> u64 {
    let wrong = |i: usize| {
        let (t, c) = ties.cell(i);
        t >= s || c >= n || !is_marked(marks.row(t), c)
    };
    if (0..ties.len()).any(wrong) {
        return 29;
    }
    if (1..ties.len()).any(|i| ties.cell(i - 1) >= ties.cell(i)) {
        return 30;
    }
    if (0..ties.len()).any(|i| ties.side(i) > 1) {
        return 31;
    }
    0
}

fn symbol_numbers(ties: Ties) -> [u16; 256] {
    let mut numbers = [0; 256];
    for (i, number) in numbers[..ties.len()].iter_mut().enumerate() {
        *number = ties.symbol(i);
    }
    numbers
}

/// It looks at all numbers, many at once.
fn has_number(numbers: &[u16], j: u16) -> bool {
    numbers.iter().fold(false, |found, &h| found | (h == j))
}

/// For each entry whether it is the first with its symbol number.
pub fn opening_flags(ties: Ties) -> [bool; 256] {
    let numbers = symbol_numbers(ties);
    let mut flags = [false; 256];
    for i in 0..ties.len() {
        flags[i] = !has_number(&numbers[..i], numbers[i]);
    }
    flags
}

pub fn count_flags(flags: &[bool; 256]) -> usize {
    flags.iter().filter(|flag| **flag).count()
}

/// What the columns of entries are made of.
struct Powered<'a> {
    read: Read,
    spread: &'a [u64; 256],
    powers: [u64; 576],
    ties: Ties<'a>,
}

impl<'a> Powered<'a> {
    fn of(read: Read, spread: &'a [u64; 256], ties: Ties<'a>) -> Powered<'a> {
        Powered {
            read,
            spread,
            powers: powers(read, 576),
            ties,
        }
    }

    fn entry_column(&self, i: usize) -> u64 {
        let (t, c) = self.ties.cell(i);
        let later = &self.powers[self.read.s - 1 - t..][..self.read.m as usize];
        from_powers(later, self.spread[c])
    }

    /// The column of the symbol of entry i, which is the first with its number.
    fn symbol_column(&self, numbers: &[u16], i: usize) -> u64 {
        let j = numbers[i];
        if !has_number(&numbers[i + 1..], j) {
            return self.entry_column(i);
        }
        let of_symbol = (i..numbers.len()).filter(|h| numbers[*h] == j);
        of_symbol.fold(0, |sum, h| sum ^ self.entry_column(h))
    }
}

/// The columns of the named symbols over the front of the list, in the order of their first cells.
pub fn fill_symbols(
    read: Read,
    spread: &[u64; 256],
    ties: Ties,
    flags: &[bool; 256],
    places: &mut [u64],
) {
    let powered = Powered::of(read, spread, ties);
    let numbers = &symbol_numbers(ties)[..ties.len()];
    let first = (0..ties.len()).filter(|i| flags[*i]);
    for (place, i) in places.iter_mut().zip(first) {
        *place = powered.symbol_column(numbers, i);
    }
}

/// The XOR of the columns of the cells that take the opposite.
pub fn side_columns(read: Read, spread: &[u64; 256], ties: Ties) -> u64 {
    let opposite = |i: &usize| ties.side(*i) != 0;
    if !(0..ties.len()).any(|i| opposite(&i)) {
        return 0;
    }
    let powered = Powered::of(read, spread, ties);
    let opposites = (0..ties.len()).filter(opposite);
    opposites.fold(0, |sum, i| sum ^ powered.entry_column(i))
}

/// The rows of marks, one after the other, without those of the named cells that `keeps` doesn't keep.
pub fn unmark(
    marks: Marks,
    (n, s): (usize, usize),
    ties: Ties,
    keeps: impl Fn(usize) -> bool,
) -> [u8; 16_384] {
    let b = n.div_ceil(8);
    let mut copy = [0; 16_384];
    for (t, to) in copy.chunks_exact_mut(b).take(s).enumerate() {
        to.copy_from_slice(marks.row(t));
    }
    for i in (0..ties.len()).filter(|i| !keeps(*i)) {
        let (t, c) = ties.cell(i);
        copy[b * t + c / 8] &= !(1 << (c % 8));
    }
    copy
}

/// In a list of the columns of the cells that the rows mark, writes the column of each named symbol at the place of its first cell.
pub fn set_symbols(
    read: Read,
    spread: &[u64; 256],
    ties: Ties,
    flags: &[bool; 256],
    marks: Marks,
    columns: &mut [u64],
) {
    let powered = Powered::of(read, spread, ties);
    let numbers = &symbol_numbers(ties)[..ties.len()];
    let (mut at, mut before) = (0, 0);
    for i in 0..ties.len() {
        let (t, c) = ties.cell(i);
        before += marks.count(at..t);
        at = t;
        if flags[i] {
            let row = marks.row(t);
            let in_row = (0..c).filter(|d| is_marked(row, *d)).count();
            columns[before + in_row] = powered.symbol_column(numbers, i);
        }
    }
}
