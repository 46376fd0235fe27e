//! The straightforward algorithms on machine words, to measure against: cell by cell, column by column, bit by bit.

use std::collections::BTreeMap;
use std::ops::Range;

/// A set that was checked: its numbers, and its rows where they stand.
pub struct PlainSet<'a> {
    pub m: u32,
    pub taps: u64,
    pub inversion: u64,
    pub spread: Vec<u64>,
    pub s: usize,
    pub b: usize,
    pub rows: &'a [u8],
    ties: Vec<Tie>,
}

/// An entry: its slice and chain, its symbol number, and whether its cell takes the opposite.
struct Tie {
    cell: (usize, usize),
    symbol: usize,
    opposite: bool,
}

fn count(bytes: &[u8], at: usize) -> usize {
    usize::from(bytes[at]) + 256 * usize::from(bytes[at + 1])
}

fn word(bytes: &[u8], at: usize) -> u64 {
    (0..8).fold(0, |w, i| w | u64::from(bytes[at + i]) << (8 * i))
}

fn bit(row: &[u8], c: usize) -> bool {
    row[c / 8] >> (c % 8) & 1 == 1
}

fn beyond(m: u32, w: u64) -> bool {
    m < 64 && w >> m != 0
}

/// The register and the chains: m, the tap word, the inversion word and the spread words.
fn read_head(set: &[u8]) -> Result<(u32, u64, u64, Vec<u64>), u64> {
    if set.len() < 18 {
        return Err(1);
    }
    let m = count(set, 0) as u32;
    if !(1..=64).contains(&m) {
        return Err(2);
    }
    let taps = word(set, 2);
    if taps & 1 == 0 || beyond(m, taps) {
        return Err(3);
    }
    let inversion = word(set, 10);
    if beyond(m, inversion) {
        return Err(25);
    }
    if set.len() < 20 || !(1..=256).contains(&count(set, 18)) {
        return Err(4);
    }
    let n = count(set, 18);
    if set.len() < 20 + 8 * n {
        return Err(5);
    }
    let spread: Vec<u64> = (0..n).map(|c| word(set, 20 + 8 * c)).collect();
    if spread.iter().any(|&w| w == 0 || beyond(m, w)) {
        return Err(6);
    }
    Ok((m, taps, inversion, spread))
}

/// Whether a row has a spare bit set.
fn spare(row: &[u8], n: usize) -> bool {
    (n..8 * row.len()).any(|c| bit(row, c))
}

/// The set reader, checking cell by cell.
pub fn read_set(set: &[u8]) -> Result<PlainSet<'_>, u64> {
    let (m, taps, inversion, spread) = read_head(set)?;
    let n = spread.len();
    if set.len() < 22 + 8 * n || count(set, 20 + 8 * n) > 512 {
        return Err(7);
    }
    let s = count(set, 20 + 8 * n);
    let b = n.div_ceil(8);
    let ties_at = 22 + 8 * n + 2 * b * s;
    if set.len() < ties_at + 2 || count(set, ties_at) > 256 {
        return Err(8);
    }
    if set.len() != ties_at + 2 + 7 * count(set, ties_at) {
        return Err(8);
    }
    let rows = &set[22 + 8 * n..ties_at];
    if rows.chunks(b).any(|row| spare(row, n)) {
        return Err(9);
    }
    for slice in rows.chunks(2 * b) {
        for c in 0..n {
            if bit(slice, c) && bit(&slice[b..], c) {
                return Err(10);
            }
        }
    }
    let mut read = PlainSet {
        m,
        taps,
        inversion,
        spread,
        s,
        b,
        rows,
        ties: Vec::new(),
    };
    read.ties = read_ties(&read, &set[ties_at + 2..])?;
    Ok(read)
}

/// The entries, with numbers 29 to 31.
fn read_ties(set: &PlainSet, bytes: &[u8]) -> Result<Vec<Tie>, u64> {
    let ties = bytes.chunks(7).map(|entry| Tie {
        cell: (count(entry, 0), count(entry, 2)),
        symbol: count(entry, 4),
        opposite: entry[6] == 1,
    });
    let ties: Vec<Tie> = ties.collect();
    let is_unknown = |(t, c)| t < set.s && c < set.spread.len() && set.unknown(t, c);
    if !ties.iter().all(|tie| is_unknown(tie.cell)) {
        return Err(29);
    }
    if ties.windows(2).any(|two| two[0].cell >= two[1].cell) {
        return Err(30);
    }
    if bytes.chunks(7).any(|entry| entry[6] > 1) {
        return Err(31);
    }
    Ok(ties)
}

impl PlainSet<'_> {
    /// The state after a clock with all cells 0 and nothing inverted.
    fn clocked(&self, state: u64) -> u64 {
        let mask = if self.m == 64 {
            u64::MAX
        } else {
            (1 << self.m) - 1
        };
        let feedback = if state >> (self.m - 1) & 1 == 1 {
            self.taps
        } else {
            0
        };
        (state << 1 & mask) ^ feedback
    }

    /// A record's signature, testing each cell. `step` is the bytes from one row to the next.
    pub fn signature(&self, rows: &[u8], step: usize) -> u64 {
        let mut state = 0;
        for t in 0..self.s {
            state = self.clocked(state);
            for c in 0..self.spread.len() {
                if bit(&rows[step * t..], c) {
                    state ^= self.spread[c];
                }
            }
            state ^= self.inversion;
        }
        state
    }

    fn unknown(&self, t: usize, c: usize) -> bool {
        bit(&self.rows[2 * self.b * t + self.b..], c)
    }

    /// The columns of a run of slices, each clocked to its end.
    fn run_columns(&self, slices: Range<usize>) -> Vec<u64> {
        let mut columns = Vec::new();
        for t in slices.clone() {
            for c in 0..self.spread.len() {
                if self.unknown(t, c) {
                    let mut state = self.spread[c];
                    for _ in t + 1..slices.end {
                        state = self.clocked(state);
                    }
                    columns.push(state);
                }
            }
        }
        columns
    }

    /// The columns, each clocked to the end.
    pub fn columns(&self) -> Vec<u64> {
        self.of_symbols(self.run_columns(0..self.s))
    }

    /// The columns of symbols, from those of all unknown cells: a cell's is put to that of its symbol's first cell.
    fn of_symbols(&self, cells: Vec<u64>) -> Vec<u64> {
        if self.ties.is_empty() {
            return cells;
        }
        let mut columns: Vec<u64> = Vec::new();
        let mut places: BTreeMap<usize, usize> = BTreeMap::new();
        let mut cells = cells.into_iter();
        for t in 0..self.s {
            for c in (0..self.spread.len()).filter(|c| self.unknown(t, *c)) {
                let column = cells.next().expect("a column for each unknown cell");
                let tie = self.ties.binary_search_by_key(&(t, c), |tie| tie.cell);
                let place = match tie {
                    Ok(i) => *places.entry(self.ties[i].symbol).or_insert(columns.len()),
                    Err(_) => columns.len(),
                };
                match columns.get_mut(place) {
                    Some(sum) => *sum ^= column,
                    None => columns.push(column),
                }
            }
        }
        columns
    }

    /// The first slice of each run, by the words of each run that is tried.
    pub fn cut(&self, k: usize) -> Result<Vec<u64>, u64> {
        let leaves = |slices: Range<usize>| {
            let words = eliminate(self.m, &self.run_columns(slices));
            k <= words.map_or(0, |words| words.len())
        };
        let mut starts = Vec::new();
        let mut start = 0;
        while start < self.s {
            if !leaves(start..start + 1) {
                return Err(27);
            }
            starts.push(start as u64);
            let longer = (start + 2..=self.s).take_while(|&end| leaves(start..end));
            start = longer.last().unwrap_or(start + 1);
        }
        Ok(starts)
    }

    /// The columns by a backward sweep: every chain's word advanced by one clock for each slice.
    pub fn swept_columns(&self) -> Vec<u64> {
        let mut words = self.spread.clone();
        let mut columns = Vec::new();
        for t in (0..self.s).rev() {
            for c in (0..words.len()).rev() {
                if self.unknown(t, c) {
                    columns.push(words[c]);
                }
            }
            for w in &mut words {
                *w = self.clocked(*w);
            }
        }
        columns.reverse();
        self.of_symbols(columns)
    }

    /// The words: sweep and walk. None where there is none.
    pub fn words(&self) -> Option<Vec<u64>> {
        eliminate(self.m, &self.swept_columns())
    }

    /// Each word's parity with the signature cell by cell.
    fn expected(&self, words: &[u64]) -> u64 {
        let mut zero = self.signature(self.rows, 2 * self.b);
        for tie in self.ties.iter().filter(|tie| tie.opposite) {
            let (t, c) = tie.cell;
            zero ^= (t + 1..self.s).fold(self.spread[c], |state, _| self.clocked(state));
        }
        words
            .iter()
            .enumerate()
            .map(|(i, w)| u64::from((w & zero).count_ones() & 1) << i)
            .sum()
    }

    /// The expected bits of words that are looked at pair by pair first.
    pub fn expect(&self, words: &[u64]) -> Result<u64, u64> {
        if words.is_empty() || words.len() > self.m as usize {
            return Err(20);
        }
        if !is_reduced(self.m, words) {
            return Err(21);
        }
        Ok(self.expected(words))
    }

    /// Planning: the words, and their expected bits.
    pub fn plan(&self) -> Option<(Vec<u64>, u64)> {
        let words = self.words()?;
        let expected = self.expected(&words);
        Some((words, expected))
    }
}

/// Whether the words are a reduced list for m, pair by pair.
fn is_reduced(m: u32, words: &[u64]) -> bool {
    words.iter().enumerate().all(|(i, &w)| {
        let clear = |&other: &u64| other >> w.ilog2() & 1 == 0;
        let (before, after) = (&words[..i], &words[i + 1..]);
        w != 0
            && !beyond(m, w)
            && before.iter().all(|&other| other < w && clear(&other))
            && after.iter().all(clear)
    })
}

/// The words, by a basis of the columns kept fully reduced. None where there is none.
pub fn eliminate(m: u32, columns: &[u64]) -> Option<Vec<u64>> {
    // basis[i] has pivot bit i, its lowest, which no other has
    let mut basis = [0u64; 64];
    for &column in columns {
        let mut left = column;
        for (i, &row) in basis.iter().enumerate() {
            if left >> i & 1 == 1 && row != 0 {
                left ^= row;
            }
        }
        if left != 0 {
            let pivot = left.trailing_zeros() as usize;
            for row in &mut basis {
                if *row >> pivot & 1 == 1 {
                    *row ^= left;
                }
            }
            basis[pivot] = left;
        }
    }
    // a bit without a pivot gives one word: that bit with the pivots of the rows that hold it
    let mut words = Vec::new();
    for bit in 0..m as usize {
        if basis[bit] == 0 {
            let mut word = 1u64 << bit;
            for (i, row) in basis.iter().enumerate() {
                if row >> bit & 1 == 1 {
                    word |= 1 << i;
                }
            }
            words.push(word);
        }
    }
    if words.is_empty() {
        None
    } else {
        Some(words)
    }
}

/// Judging, bit by bit: the cancelled bits and the first word that disagrees.
pub fn judge(plan: &[u8], signature: u64) -> (u64, Option<usize>) {
    let q = count(plan, 2);
    let at = 6 + 8 * q;
    let mut cancelled = 0;
    let mut first = None;
    for i in 0..q {
        let w = word(plan, 4 + 8 * i);
        let mut odd = false;
        for k in 0..64 {
            if w >> k & 1 == 1 && signature >> k & 1 == 1 {
                odd = !odd;
            }
        }
        if odd {
            cancelled |= 1u64 << i;
        }
        if odd != bit(&plan[at..], i) && first.is_none() {
            first = Some(i);
        }
    }
    (cancelled, first)
}
