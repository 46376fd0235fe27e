//! Deterministic random numbers, and random sets, records, columns and plans made of them.

use crate::second::layout::{record_length, row_bytes, TIE, TIES_MOST};
use crate::second::set::{write_set, Content};
use crate::second::ties::Cell;
use std::collections::BTreeSet;

/// xorshift64*, from a seed that a failing test prints.
#[derive(Clone)]
pub struct Random(u64);

impl Random {
    pub fn new(seed: u64) -> Random {
        let mut r = Random(seed.wrapping_mul(0x9E37_79B9_7F4A_7C15) | 1);
        r.word();
        r.word();
        r
    }

    pub fn word(&mut self) -> u64 {
        self.0 ^= self.0 >> 12;
        self.0 ^= self.0 << 25;
        self.0 ^= self.0 >> 27;
        self.0.wrapping_mul(0x2545_F491_4F6C_DD1D)
    }

    /// A number below n.
    pub fn below(&mut self, n: usize) -> usize {
        ((u128::from(self.word()) * n as u128) >> 64) as usize
    }

    pub fn one_in(&mut self, n: usize) -> bool {
        self.below(n) == 0
    }

    pub fn pick<T: Copy>(&mut self, from: &[T]) -> T {
        from[self.below(from.len())]
    }

    /// A word without a bit at or above m.
    pub fn within(&mut self, m: usize) -> u64 {
        if m >= 64 {
            self.word()
        } else {
            self.word() & ((1 << m) - 1)
        }
    }

    /// .. and not zero.
    pub fn some_within(&mut self, m: usize) -> u64 {
        loop {
            let w = self.within(m);
            if w != 0 {
                return w;
            }
        }
    }

    /// A word with a bit at or above m, often bit m alone; at m 64, where there is none, any word.
    pub fn beyond(&mut self, m: usize) -> u64 {
        if m >= 64 {
            return self.word();
        }
        let above = m + self.below(64 - m);
        let bit = 1 << self.pick(&[m, m, 63, above]);
        let low = self.within(m);
        self.pick(&[bit, bit | low])
    }

    pub fn taps(&mut self, m: usize) -> u64 {
        self.within(m) | 1
    }

    /// An inversion word for m bits: one time in four no input is inverted.
    pub fn inversion(&mut self, m: usize) -> u64 {
        if self.one_in(4) {
            0
        } else {
            self.within(m)
        }
    }

    /// Another generator, which depends on where this one stands and leaves it there: what is drawn from it changes nothing else
    /// that a seed gives.
    fn aside(&self) -> Random {
        Random::new(!self.0)
    }
}

/// The file of a good content.
pub fn file_of(content: &Content) -> Vec<u8> {
    write_set(content, usize::MAX).expect("a good content")
}

/// How many cells a content marks as unknown.
pub fn unknowns_of(content: &Content) -> usize {
    ones(&content.marks)
}

/// Its unknown cells, by slice and then by chain.
pub fn unknown_cells(content: &Content) -> Vec<Cell> {
    let n = content.spread.len();
    let rows = content.marks.chunks(row_bytes(n)).enumerate();
    let in_row = |(t, row): (usize, &[u8])| -> Vec<Cell> {
        let marked = (0..n).filter(|c| row[c / 8] >> (c % 8) & 1 == 1);
        marked.map(|c| (t, c)).collect()
    };
    rows.flat_map(in_row).collect()
}

/// How many symbols its ties name.
pub fn named_of(content: &Content) -> usize {
    let numbers = content.ties.chunks(TIE).map(|entry| [entry[4], entry[5]]);
    numbers.collect::<BTreeSet<_>>().len()
}

/// How many symbols it has: the named ones, and an unknown cell without a tie each.
pub fn symbols_of(content: &Content) -> usize {
    unknowns_of(content) - content.ties.len() / TIE + named_of(content)
}

/// A tie as it stands in a set file.
pub fn tie((slice, chain): Cell, symbol: u16, side: u8) -> [u8; TIE] {
    let (slice, chain) = (slice as u16, chain as u16);
    let numbers = [slice, chain, symbol].map(u16::to_le_bytes);
    let mut bytes = [side; TIE];
    bytes[..TIE - 1].copy_from_slice(&numbers.concat());
    bytes
}

/// Ties of some of a content's unknown cells: of one cell, of all or as many as there can be, or of any number; with one symbol, a few,
/// or as many as cells; none as opposite, all, or half.
pub fn ties(r: &mut Random, content: &Content) -> Vec<u8> {
    let most = unknowns_of(content).min(TIES_MOST);
    let any = r.below(most + 1);
    let count = r.pick(&[most, most, most.min(1), any, any, most / 2]);
    let many = r.pick(&[1, 2, 3, 8, count.max(1)]);
    let symbols: Vec<u16> = (0..many).map(|_| any_symbol(r)).collect();
    let sides = r.pick(&[[0, 0], [1, 1], [0, 1], [0, 1]]);
    some_ties(r, content, count, &symbols, &sides)
}

/// Ties of so many of a content's unknown cells, each with one of these symbols and one of these last bytes.
pub fn some_ties(
    r: &mut Random,
    content: &Content,
    count: usize,
    symbols: &[u16],
    sides: &[u8],
) -> Vec<u8> {
    let cells = unknown_cells(content);
    let mut chosen = some_of(r, cells.len(), count);
    chosen.sort_unstable();
    let entry = |i: usize| tie(cells[i], r.pick(symbols), r.pick(sides));
    chosen.into_iter().flat_map(entry).collect()
}

/// A symbol number, often a small one or one at the ends.
fn any_symbol(r: &mut Random) -> u16 {
    let any = r.word() as u16;
    r.pick(&[any, any, any % 8, any % 300, 0, u16::MAX])
}

/// The same content with such ties.
pub fn tied(r: &mut Random, content: &Content) -> Content {
    Content {
        ties: ties(r, content),
        ..content.clone()
    }
}

fn ones(rows: &[u8]) -> usize {
    rows.iter().map(|b| b.count_ones() as usize).sum()
}

/// Rows of n chains in which `one` of `of` cells is 1 and no spare bit is set.
pub fn rows(r: &mut Random, n: usize, s: usize, one: usize, of: usize) -> Vec<u8> {
    let b = row_bytes(n);
    let mut rows = vec![0u8; b * s];
    for t in 0..s {
        for c in 0..n {
            if r.below(of) < one {
                rows[b * t + c / 8] |= 1 << (c % 8);
            }
        }
    }
    rows
}

/// Rows of n chains with exactly `count` cells 1, all of them in these chains.
fn rows_with(r: &mut Random, n: usize, s: usize, chains: &[usize], count: usize) -> Vec<u8> {
    let mut cells: Vec<usize> = (0..chains.len() * s).collect();
    let mut rows = vec![0u8; record_length(n, s)];
    for i in 0..count {
        let other = i + r.below(cells.len() - i);
        cells.swap(i, other);
        let (t, c) = (cells[i] / chains.len(), chains[cells[i] % chains.len()]);
        rows[row_bytes(n) * t + c / 8] |= 1 << (c % 8);
    }
    rows
}

/// Some of n things: `count` different numbers below n.
pub fn some_of(r: &mut Random, n: usize, count: usize) -> Vec<usize> {
    let mut all: Vec<usize> = (0..n).collect();
    for i in 0..count {
        let other = i + r.below(n - i);
        all.swap(i, other);
    }
    all.truncate(count);
    all
}

/// Values for a content with these marks: half of the known cells are 1.
fn values_beside(r: &mut Random, n: usize, s: usize, marks: &[u8]) -> Vec<u8> {
    let mut values = rows(r, n, s, 1, 2);
    for (v, k) in values.iter_mut().zip(marks) {
        *v &= !k;
    }
    values
}

/// A good content with m bits, n chains and s slices, `one` of `of` cells unknown.
pub fn content(r: &mut Random, m: usize, n: usize, s: usize, one: usize, of: usize) -> Content {
    let marks = rows(r, n, s, one, of);
    Content {
        m: m as u64,
        taps: r.taps(m),
        inversion: r.aside().inversion(m),
        spread: (0..n).map(|_| r.some_within(m)).collect(),
        values: values_beside(r, n, s, &marks),
        marks,
        s: s as u64,
        ties: vec![],
    }
}

/// The same content with some of its known cells' values flipped: a few, or half of them.
pub fn revised(r: &mut Random, content: &Content) -> Content {
    let of = r.pick(&[2, 8, 40]);
    let flips = rows(r, content.spread.len(), content.s as usize, 1, of);
    let mut other = content.clone();
    for ((v, k), flip) in other.values.iter_mut().zip(&content.marks).zip(flips) {
        *v ^= flip & !k;
    }
    other
}

/// The product of two polynomials over GF(2).
fn product(a: u128, b: u128) -> u128 {
    (0..=64)
        .filter(|i| b >> i & 1 == 1)
        .fold(0, |sum, i| sum ^ a << i)
}

/// A polynomial of this degree with bit 0 set.
fn polynomial(r: &mut Random, degree: usize) -> u128 {
    u128::from(r.within(degree)) | 1 | 1 << degree
}

/// The tap word of a register of m bits, and a polynomial d of which the multiples are `rank` dimensions that no clock leaves.
///
/// A state is a polynomial, and a clock multiplies it by x modulo x^m + the tap word. Here that is the product of d and a polynomial of
/// degree `rank`.
fn closed_space(r: &mut Random, m: usize, rank: usize) -> (u64, u128) {
    let divisor = polynomial(r, m - rank);
    let modulus = product(divisor, polynomial(r, rank));
    (modulus as u64 & (u64::MAX >> (64 - m)), divisor)
}

/// A multiple of the divisor that isn't 0.
fn multiple(r: &mut Random, divisor: u128, rank: usize) -> u64 {
    product(divisor, u128::from(r.some_within(rank))) as u64
}

/// A good content with exactly `unknowns` unknown cells, whose columns have exactly this rank, 1 to m.
///
/// The unknown cells stand in chains whose spread words lie in a closed space; half of the chains, where that leaves cells enough, have
/// none and any spread word: were the known cells' words in that space too, every signature would be explained and every expected bit 0.
pub fn content_of_rank(
    r: &mut Random,
    (m, n, s): (usize, usize, usize),
    rank: usize,
    unknowns: usize,
) -> Content {
    loop {
        let (taps, divisor) = closed_space(r, m, rank);
        let chains = some_of(r, n, unknowns.div_ceil(s).max(n.div_ceil(2)));
        let mut spread: Vec<u64> = (0..n).map(|_| r.some_within(m)).collect();
        for &c in &chains {
            spread[c] = multiple(r, divisor, rank);
        }
        let marks = rows_with(r, n, s, &chains, unknowns);
        let content = Content {
            m: m as u64,
            taps,
            inversion: r.aside().inversion(m),
            spread,
            values: values_beside(r, n, s, &marks),
            marks,
            s: s as u64,
            ties: vec![],
        };
        if rank_of(&swept_columns(&content)) == rank {
            return content;
        }
    }
}

/// A good content with these cells unknown, by slice and chain. The spread words of all chains but `outside` lie in a closed space of
/// `rank` dimensions, and those of the others each add one, as long as there is one more.
pub fn content_with_marks(
    r: &mut Random,
    (m, n, s): (usize, usize, usize),
    rank: usize,
    marked: &[(usize, usize)],
    outside: &[usize],
) -> Content {
    let (taps, divisor) = closed_space(r, m, rank);
    let mut spread: Vec<u64> = (0..n).map(|_| multiple(r, divisor, rank)).collect();
    let mut space: Vec<u64> = (0..rank).map(|i| (divisor << i) as u64).collect();
    for &c in outside {
        let more = (rank_of(&space) + 1).min(m);
        space.push(r.some_within(m));
        while rank_of(&space) < more {
            *space.last_mut().expect("a word") = r.some_within(m);
        }
        spread[c] = space[space.len() - 1];
    }
    let mut marks = vec![0u8; record_length(n, s)];
    for (t, c) in marked {
        marks[row_bytes(n) * t + c / 8] |= 1 << (c % 8);
    }
    Content {
        m: m as u64,
        taps,
        inversion: r.inversion(m),
        spread,
        values: values_beside(r, n, s, &marks),
        marks,
        s: s as u64,
        ties: vec![],
    }
}

/// The columns of a content, from the last slice to the first.
fn swept_columns(content: &Content) -> Vec<u64> {
    let (m, n) = (content.m, content.spread.len());
    let mut words = content.spread.clone();
    let mut columns = Vec::new();
    for row in content.marks.chunks(row_bytes(n)).rev() {
        let marked = (0..n).filter(|c| row[c / 8] >> (c % 8) & 1 == 1);
        columns.extend(marked.map(|c| words[c]));
        for w in &mut words {
            let feedback = if *w >> (m - 1) & 1 == 1 {
                content.taps
            } else {
                0
            };
            *w = (*w << 1 & (u64::MAX >> (64 - m))) ^ feedback;
        }
    }
    columns
}

fn rank_of(words: &[u64]) -> usize {
    let mut by_top = [0u64; 64];
    for &word in words {
        let mut left = word;
        while left != 0 {
            let top = left.ilog2() as usize;
            if by_top[top] == 0 {
                by_top[top] = left;
            }
            left ^= by_top[top];
        }
    }
    by_top.iter().filter(|w| **w != 0).count()
}

/// `count` columns of m bits and of exactly this rank, or of rank `count` where that is less.
pub fn columns_of_rank(r: &mut Random, m: usize, rank: usize, count: usize) -> Vec<u64> {
    let mut basis: Vec<u64> = Vec::new();
    while basis.len() < rank.min(count) {
        basis.push(r.within(m));
        if rank_of(&basis) < basis.len() {
            basis.pop();
        }
    }
    let mut columns = basis.clone();
    for _ in basis.len()..count {
        let choice = r.word();
        let chosen = (0..basis.len()).filter(|i| choice >> i & 1 == 1);
        columns.push(chosen.fold(0, |a, i| a ^ basis[i]));
    }
    let order = some_of(r, count, count);
    order.into_iter().map(|i| columns[i]).collect()
}

/// A good content of random small size; two times in three it has ties, where it has unknown cells.
pub fn small_content(
    r: &mut Random,
    largest_m: usize,
    largest_n: usize,
    largest_s: usize,
) -> Content {
    let m = 1 + r.below(largest_m);
    let n = 1 + r.below(largest_n);
    let s = r.below(largest_s + 1);
    let of = r.pick(&[1, 2, 3, 8, 30]);
    let one = usize::from(!r.one_in(4));
    let free = content(r, m, n, s, one, of);
    let mut aside = r.aside();
    match aside.below(3) {
        0 => free,
        _ => tied(&mut aside, &free),
    }
}

/// A record of the shape of a set of n chains and s slices.
pub fn record(r: &mut Random, n: usize, s: usize) -> Vec<u8> {
    rows(r, n, s, 1, 2)
}

/// A reduced list for m: words with the highest bits `tops`, each clear in all others.
pub fn reduced_words(r: &mut Random, m: usize) -> Vec<u64> {
    loop {
        let tops: Vec<usize> = (0..m).filter(|_| r.one_in(2)).collect();
        if tops.is_empty() {
            continue;
        }
        let mask = tops.iter().fold(0u64, |a, &t| a | 1 << t);
        return tops
            .iter()
            .map(|&t| (r.within(t) & !mask) | 1 << t)
            .collect();
    }
}

/// A set without rows and ties: n chains, each with the spread word 1, the slice count s, and the count of ties, 0.
pub fn without_rows(m: u16, taps: u64, inversion: u64, n: u16, s: u16) -> Vec<u8> {
    let mut set = m.to_le_bytes().to_vec();
    set.extend(taps.to_le_bytes());
    set.extend(inversion.to_le_bytes());
    set.extend(n.to_le_bytes());
    for _ in 0..n {
        set.extend(1u64.to_le_bytes());
    }
    set.extend(s.to_le_bytes());
    set.extend([0, 0]);
    set
}
