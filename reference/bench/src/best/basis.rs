//! The elimination by a basis of the columns. It is kept as few rows as there are, each alone with its pivot, its lowest bit; the words are
//! read off at the end.

use super::beyond;
use super::even::Even;

/// A basis of some columns.
#[derive(Clone)]
pub struct Basis {
    rank: usize,
    rows: [u64; 64],
    /// The rows' pivots together, and for each the place of its row.
    pivots: u64,
    places: [u8; 64],
}

impl Basis {
    pub fn new() -> Basis {
        Basis {
            rank: 0,
            rows: [0; 64],
            pivots: 0,
            places: [0; 64],
        }
    }

    pub fn rank(&self) -> usize {
        self.rank
    }

    pub fn rows(&self) -> &[u64] {
        &self.rows[..self.rank]
    }

    /// What is left of a column: 0 where it is an XOR of rows.
    pub fn rest(&self, column: u64) -> u64 {
        let (mut held, mut rest) = (column & self.pivots, column);
        while held != 0 {
            let place = self.places[held.trailing_zeros() as usize];
            rest ^= self.rows[usize::from(place % 64)];
            held &= held - 1;
        }
        rest
    }

    /// Takes a column in; whether it was new.
    pub fn add(&mut self, column: u64) -> bool {
        let rest = self.rest(column);
        if rest == 0 {
            return false;
        }
        let pivot = rest.trailing_zeros();
        for row in &mut self.rows[..self.rank] {
            *row ^= rest & (*row >> pivot & 1).wrapping_neg();
        }
        self.rows[self.rank] = rest;
        self.places[pivot as usize] = self.rank as u8;
        self.pivots |= 1 << pivot;
        self.rank += 1;
        true
    }

    /// The words for m bits, ascending: for each bit that is no pivot that bit with the pivots of the rows that hold it. How many they are.
    pub fn words(&self, m: u64, words: &mut [u64; 64]) -> usize {
        let mut turned = [0; 64];
        let mut held = self.pivots;
        for _ in 0..self.rank {
            let pivot = held.trailing_zeros() as usize;
            turned[pivot] = self.rows[usize::from(self.places[pivot])];
            held &= held - 1;
        }
        transpose(&mut turned);
        let mut free = !self.pivots & (u64::MAX >> (64 - m));
        let mut q = 0;
        while free != 0 {
            let bit = free.trailing_zeros() as usize;
            words[q] = turned[bit] | 1 << bit;
            free &= free - 1;
            q += 1;
        }
        q
    }
}

/// Bit j of word i becomes bit i of word j.
pub fn transpose(words: &mut [u64; 64]) {
    let mut mask = u64::MAX >> 32;
    let mut step = 32;
    while step != 0 {
        for pair in words.chunks_exact_mut(2 * step) {
            let (low, high) = pair.split_at_mut(step);
            for (a, b) in low.iter_mut().zip(high) {
                let change = (*a >> step ^ *b) & mask;
                *a ^= change << step;
                *b ^= change;
            }
        }
        step /= 2;
        mask ^= mask << step;
    }
}

/// Takes columns in. After one that was not new, all that follow and aren't either are passed over together.
pub fn add_all(basis: &mut Basis, m: u64, mut columns: &[u64]) {
    while let Some((&column, left)) = columns.split_first() {
        if basis.rank as u64 == m {
            return;
        }
        columns = left;
        if !basis.add(column) && 64 <= columns.len() {
            let even = Even::of(basis, m, columns.len());
            columns = &columns[even.run(columns)..];
        }
    }
}

/// The elimination: the words over the front of the list, and the rank and q.
pub fn eliminate(m: u64, columns: &[u64], words: &mut [u64]) -> Result<(u64, usize), u64> {
    if !(1..=64).contains(&m) {
        return Err(2);
    }
    if m < 64 && beyond(m, columns.iter().fold(0, |a, c| a | c)) {
        return Err(15);
    }
    let mut basis = Basis::new();
    add_all(&mut basis, m, columns);
    let q = put_words(&basis, m, words)?;
    Ok((m - q as u64, q))
}

/// A basis' words over the front of the list, and how many there are.
pub fn put_words(basis: &Basis, m: u64, words: &mut [u64]) -> Result<usize, u64> {
    if basis.rank as u64 == m {
        return Err(17);
    }
    let mut made = [0; 64];
    let q = basis.words(m, &mut made);
    words.get_mut(..q).ok_or(18u64)?.copy_from_slice(&made[..q]);
    Ok(q)
}
