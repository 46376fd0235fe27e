//! Words that no column which is left can change: the space of their XORs is closed under the clock, and they are even with every chain
//! that is still marked.

use super::elimination::{pays, skip_even, skip_plainly};
use super::response::{list_row, Marks};
use super::set::Read;
use super::*;

/// The word whose parity with every x is that of w with x one clock later, with all cells 0 and no inversion.
fn transposed(read: Read, w: u64) -> u64 {
    let feedback = shared_parity(w, read.taps) << (read.m - 1);
    w >> 1 ^ feedback
}

/// For each bit a word whose highest bit it is, and 0 where there is none.
fn by_highest(words: &[u64]) -> [u64; 64] {
    let mut tops = [0; 64];
    for w in words {
        tops[w.ilog2() as usize] = *w;
    }
    tops
}

/// What is left of w when for each of its bits the word with that highest bit was XORed in.
fn residue(tops: &[u64; 64], w: u64) -> u64 {
    w ^ xor_marked(tops, w)
}

/// Whether what is even with all words is so one clock later too.
fn is_closed(read: Read, words: &[u64]) -> bool {
    let tops = by_highest(words);
    let mut later = words.iter().map(|&w| transposed(read, w));
    later.all(|w| residue(&tops, w) == 0)
}

/// Puts the marks of a row to those that are there.
#[inline]
fn add_front(all: &mut [u8; 32], row: &[u8]) {
    for (to, from) in all.iter_mut().zip(row) {
        *to |= from;
    }
}

/// The marks of the first t rows together.
fn joint_marks(marks: Marks, t: usize) -> [u8; 32] {
    let mut all = [0; 32];
    for t in 0..t {
        match <&[u8; 32]>::try_from(marks.row(t)) {
            Ok(row) => add_front(&mut all, row),
            Err(_) => add_front(&mut all, marks.row(t)),
        }
    }
    all
}

/// How many of the columns are even with all the words, up to the first that isn't: by a table where it pays.
fn first_odd(words: &[u64], columns: &[u64]) -> usize {
    if pays(words.len(), columns.len()) {
        skip_even(words, columns)
    } else {
        skip_plainly(words, columns)
    }
}

/// Whether the words of the marked chains of a row are even with all of the words held.
fn are_even(held: &[u64], words: &[u64], row: &[u8; 32]) -> bool {
    let mut columns = [0; 256];
    let place = list_row(&mut columns, words, row);
    let columns = &columns[place..];
    first_odd(held, columns) == columns.len()
}

/// Whether it is known that the words held stay as they are, whatever columns the marked cells of the first t rows have.
pub fn is_settled(read: Read, marks: Marks, t: usize, words: &[u64], held: &[u64]) -> bool {
    is_closed(read, held) && are_even(held, words, &joint_marks(marks, t))
}
