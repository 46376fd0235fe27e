//! Cutting: the slices in runs, by one pass over them; and by restarting each run, which makes a run's columns anew for each end tried.

use super::elimination::{reduce, take_columns, unit_words};
use super::low_mask;
use super::response::{fill_swept, list_row, Marks};
use super::set::{read_set, Read};

/// Puts for each word what it was so many clocks earlier.
fn unclock_words(read: Read, clocks: usize, words: &mut [u64]) {
    let one = read.taps >> 1 ^ 1 << (read.m - 1);
    for w in words {
        for _ in 0..clocks {
            *w = *w >> 1 ^ (one & (*w & 1).wrapping_neg());
        }
    }
}

/// For each byte what it was 8 clocks earlier.
fn eight_back(read: Read) -> [u64; 256] {
    let mut table = std::array::from_fn(|x| x as u64);
    unclock_words(read, 8, &mut table);
    table
}

/// Puts for each word what it was 8 clocks earlier.
fn unclock_eight(table: &[u64; 256], words: &mut [u64]) {
    for w in words {
        *w = *w >> 8 ^ table[(*w % 256) as usize];
    }
}

/// The words that a run so far leaves, as a basis of its columns beside them.
struct Held {
    basis: [u64; 64],
    dead: u64,
}

impl Held {
    /// The words of so many single bits: the bits from there on are dead.
    fn single_bits(width: usize) -> Held {
        Held {
            basis: unit_words(),
            dead: !low_mask(width),
        }
    }

    fn count(&self) -> usize {
        64 - self.dead.count_ones() as usize
    }

    fn take_columns(&mut self, columns: &[u64]) {
        self.dead = take_columns(&mut self.basis, self.dead, columns);
    }
}

/// A slice's columns put to the words that its run leaves; where that leaves fewer than k, to the words of single bits, for the slice
/// opens a run. Whether it opened one.
fn put_slice(held: &mut Held, columns: &[u64], width: usize, k: usize) -> bool {
    held.take_columns(columns);
    if k <= held.count() {
        return false;
    }
    *held = Held::single_bits(width);
    held.take_columns(columns);
    true
}

/// The first slice of each run over the front of `starts`, and how many there are.
type CutSlices = fn(&[u8], Read, &[u64; 256], usize, &mut [u64; 512]) -> Result<usize, u64>;

/// The chains' words behind slice t, from those before it: unclocked in eights.
fn pass_slice(table: &[u64; 256], t: usize, words: &mut [u64]) {
    if t % 8 == 7 {
        unclock_eight(table, words);
    }
}

/// By one pass: all columns of a run clocked together have the rank that they had, so a slice's columns are the chains' words unclocked
/// once for each slice before it. All chains' words are unclocked 8 times together, those of marked cells for the slices between.
fn cut_slices(
    set: &[u8],
    read: Read,
    spread: &[u64; 256],
    k: usize,
    starts: &mut [u64; 512],
) -> Result<usize, u64> {
    let mut all = *spread;
    let words = &mut all[..read.n];
    let table = eight_back(read);
    let mut columns = [0; 256];
    let mut held = Held::single_bits(0);
    let marks = Marks::of_set(set, read.n);
    let mut runs = 0;
    for t in 0..read.s {
        let place = list_row(&mut columns, words, marks.row(t));
        unclock_words(read, t % 8, &mut columns[place..]);
        let opened = put_slice(&mut held, &columns[place..], read.m as usize, k);
        if held.count() < k {
            return Err(27);
        }
        if opened {
            starts[runs] = t as u64;
            runs += 1;
        }
        pass_slice(&table, t, words);
    }
    Ok(runs)
}

/// By restarting: the columns of a run are swept from its last slice to its first, and all of them eliminated, for each end tried.
fn restart_slices(
    set: &[u8],
    read: Read,
    spread: &[u64; 256],
    k: usize,
    starts: &mut [u64; 512],
) -> Result<usize, u64> {
    let mut columns = vec![0; read.n * read.s];
    let mut leaves = |start: usize, end: usize| {
        let place = fill_swept(
            Marks::of_set(set, read.n),
            read,
            spread,
            start..end,
            &mut columns,
        );
        k <= reduce(&mut unit_words()[..read.m as usize], &columns[place..])
    };
    let (mut start, mut runs) = (0, 0);
    while start < read.s {
        let mut end = start;
        while end < read.s && leaves(start, end + 1) {
            end += 1;
        }
        if end == start {
            return Err(27);
        }
        starts[runs] = start as u64;
        runs += 1;
        start = end;
    }
    Ok(runs)
}

fn cut_by(slices: CutSlices, set: &[u8], k: u64, cuts: &mut [u64]) -> Result<[u64; 2], u64> {
    let (read, spread) = read_set(set)?;
    if k < 1 || read.m < k {
        return Err(26);
    }
    let mut starts = [0; 512];
    let runs = slices(set, read, &spread, k as usize, &mut starts)?;
    if cuts.len() < runs {
        return Err(28);
    }
    cuts[..runs].copy_from_slice(&starts[..runs]);
    Ok([runs as u64, read.m * k * runs as u64])
}

/// The first slice of each run over the front of the list; the number of runs, and the control bits in all.
pub fn cut(set: &[u8], k: u64, cuts: &mut [u64]) -> Result<[u64; 2], u64> {
    cut_by(cut_slices, set, k, cuts)
}

/// .. by restarting each run.
pub fn restart_and_cut(set: &[u8], k: u64, cuts: &mut [u64]) -> Result<[u64; 2], u64> {
    cut_by(restart_slices, set, k, cuts)
}
