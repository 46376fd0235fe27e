//! The words of a set, and planning: columns from the last slice on, until those that are left can't change the words any more.

use super::basis::{put_words, Basis};
use super::clocks::{Clock, Eight, Powers};
use super::even::Even;
use super::response::expected_bits;
use super::set::read_set;
use super::*;
use crate::same::response::Marks;
use crate::same::set::Read;
use crate::same::ties::{count_flags, fill_symbols, opening_flags, unmark, Ties};

/// A portion is closed when it has so many columns; it takes 64 marks at a time.
const PORTION: usize = 64;

/// Some columns.
struct Portion {
    list: [u64; 2 * PORTION],
    length: usize,
}

impl Portion {
    fn columns(&self) -> &[u64] {
        &self.list[..self.length]
    }

    /// Takes in what `column` gives for the marked ones of 64 words.
    fn take(&mut self, mut marks: u64, words: &[u64; 64], column: impl Fn(u64) -> u64) {
        while marks != 0 {
            self.list[self.length % (2 * PORTION)] = column(words[marks.trailing_zeros() as usize]);
            self.length += 1;
            marks &= marks - 1;
        }
    }
}

/// How a column is made: from the powers of the register, or from all chains' words, advanced by eight clocks for every eighth slice.
enum Way {
    Powers(Powers),
    Eights(Eight),
}

/// Where the columns come from: t slices are left, and in the last of them the first `groups` groups of 64 marks.
struct Source<'a> {
    marks: Marks<'a>,
    read: Read,
    /// With powers the spread words, else those of the slice.
    words: [u64; 256],
    way: Way,
    t: usize,
    groups: usize,
}

/// Cells in a slice from which on all chains' words are advanced, and the last slices by which it is chosen.
const CELLS: usize = 2;
const LOOKED_AT: usize = 64;

impl<'a> Source<'a> {
    fn new(marks: Marks<'a>, read: Read, spread: &[u64; 256]) -> Source<'a> {
        let clock = Clock::of(read);
        let last = read.s.min(LOOKED_AT);
        let cells = |t: usize| row_words(marks.row(t)).map(|w| w.count_ones() as usize);
        let found: usize = (read.s - last..read.s).flat_map(cells).sum();
        let way = if read.m < 8 || found < CELLS * last {
            Way::Powers(Powers::of(clock))
        } else {
            Way::Eights(Eight::of(clock))
        };
        Source {
            marks,
            read,
            words: *spread,
            way,
            t: read.s,
            groups: 4,
        }
    }

    /// Goes on to the slice before.
    fn pass_slice(&mut self) {
        self.t -= 1;
        self.groups = 4;
        if let Way::Eights(eight) = &self.way {
            if (self.read.s - self.t) % 8 == 0 {
                eight.advance(&mut self.words[..self.read.n]);
            }
        }
    }

    /// The next columns.
    fn next(&mut self, portion: &mut Portion) {
        portion.length = 0;
        while self.t != 0 && portion.length < PORTION {
            let row = row_words(self.marks.row(self.t - 1));
            if row != [0; 4] {
                self.take_row(portion, row);
            } else {
                self.groups = 0;
            }
            if self.groups == 0 {
                self.pass_slice();
            }
        }
    }

    fn take_row(&mut self, portion: &mut Portion, row: [u64; 4]) {
        let clocks = self.read.s - self.t;
        if let Way::Powers(powers) = &mut self.way {
            powers.need(clocks);
        }
        while self.groups != 0 && portion.length < PORTION {
            self.groups -= 1;
            let i = self.groups % 4;
            let words = self.words[64 * i..64 * i + 64].try_into().unwrap();
            match &self.way {
                Way::Powers(powers) => portion.take(row[i], words, |w| powers.later(w, clocks)),
                Way::Eights(eight) => {
                    portion.take(row[i], words, |w| eight.later(w, clocks as u64 % 8))
                }
            }
        }
    }
}

/// Whether an XOR of the basis' rows, clocked, is one too.
fn is_closed(basis: &Basis, clock: Clock) -> bool {
    let rows = basis.rows().iter();
    rows.map(|row| basis.rest(clock.next(*row)))
        .fold(0, |a, rest| a | rest)
        == 0
}

/// The words of the chains that are marked in one of the rows; how many they are.
fn marked_words(marks: Marks, read: Read, spread: &[u64; 256], list: &mut [u64; 256]) -> usize {
    let mut all = [0; 4];
    for t in 0..read.s {
        for (all, w) in all.iter_mut().zip(row_words(marks.row(t))) {
            *all |= w;
        }
    }
    let mut count = 0;
    for (words, mut marks) in spread.chunks_exact(64).zip(all) {
        while marks != 0 {
            list[count % 256] = words[marks.trailing_zeros() as usize];
            count += 1;
            marks &= marks - 1;
        }
    }
    count
}

/// Whether no column of the set can be new: those are the words of marked chains, clocked.
fn is_settled(basis: &Basis, marks: Marks, read: Read, spread: &[u64; 256]) -> bool {
    if !is_closed(basis, Clock::of(read)) {
        return false;
    }
    let mut list = [0; 256];
    let count = marked_words(marks, read, spread, &mut list);
    Even::of(basis, read.m, count).run(&list[..count]) == count
}

/// Takes the columns of the cells that the rows mark into the basis.
fn add_cells(basis: &mut Basis, marks: Marks, read: Read, spread: &[u64; 256]) {
    let mut source = Source::new(marks, read, spread);
    let mut portion = Portion {
        list: [0; 2 * PORTION],
        length: 0,
    };
    let mut even: Option<Even> = None;
    while source.t != 0 && (basis.rank() as u64) < read.m {
        source.next(&mut portion);
        let columns = portion.columns();
        if even
            .as_ref()
            .is_some_and(|e| e.run(columns) == columns.len())
        {
            continue;
        }
        let rank = basis.rank();
        for column in columns {
            basis.add(*column);
        }
        even = None;
        if rank < basis.rank() && source.t != 0 && is_settled(basis, marks, read, spread) {
            return;
        }
        if rank == basis.rank() {
            even = Some(Even::of(basis, read.m, source.t * 64));
        }
    }
}

/// The words of a set that was read: how many they are. The columns of named symbols come last.
fn fill_words(
    set: &[u8],
    read: Read,
    spread: &[u64; 256],
    working: &mut [u64],
    words: &mut [u64],
) -> Result<usize, u64> {
    let marks = Marks::of_set(set, read.n);
    let ties = Ties::of_set(set, read.n, read.s);
    let mut basis = Basis::new();
    if ties.len() == 0 {
        let working = working.get_mut(..64).ok_or(14u64)?;
        add_cells(&mut basis, marks, read, spread);
        working.fill(0);
    } else {
        let flags = opening_flags(ties);
        let symbols = count_flags(&flags);
        let working = working.get_mut(..64 + symbols).ok_or(14u64)?;
        let free = unmark(marks, (read.n, read.s), ties, |_| false);
        add_cells(&mut basis, Marks::of_list(&free, read.n), read, spread);
        fill_symbols(read, spread, ties, &flags, &mut working[64..]);
        for column in &working[64..] {
            basis.add(*column);
        }
        working.fill(0);
    }
    put_words(&basis, read.m, words)
}

/// The words: m and q.
pub fn plan_words(set: &[u8], working: &mut [u64], words: &mut [u64]) -> Result<[u64; 2], u64> {
    let (read, spread) = read_set(set)?;
    let q = fill_words(set, read, &spread, working, words)?;
    Ok([read.m, q as u64])
}

/// Planning: m, q and the expected bits.
pub fn plan(set: &[u8], working: &mut [u64], words: &mut [u64]) -> Result<[u64; 3], u64> {
    let (read, spread) = read_set(set)?;
    let q = fill_words(set, read, &spread, working, words)?;
    let expected = expected_bits(set, read, &spread, &words[..q]);
    Ok([read.m, q as u64, expected])
}
