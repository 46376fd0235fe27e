//! Cutting by one pass over the slices. All columns of a run clocked together have the rank that they had, so any run's may be taken as they
//! are at the set's end, or as they were before its first slice.

use super::basis::Basis;
use super::clocks::{Clock, EightBack, Powers};
use super::columns::{count_marks, fill_row};
use super::even::Even;
use super::set::read_set;
use crate::same::response::Marks;
use crate::same::set::Read;

/// A run of slices: the basis of its columns, how many columns it took since the last new one, and a test of columns once these are many.
struct Run {
    basis: Basis,
    calm: usize,
    even: Option<Even>,
}

/// Making the test takes as long as so many columns that aren't new.
const CALM: usize = 64;

impl Run {
    fn new() -> Run {
        Run {
            basis: Basis::new(),
            calm: 0,
            even: None,
        }
    }

    /// Takes the columns of a slice; whether at least k words are left.
    fn take(&mut self, m: u64, k: u64, columns: &[u64]) -> bool {
        let even = self.even.as_ref();
        if even.is_some_and(|even| even.run(columns) == columns.len()) {
            return true;
        }
        let rank = self.basis.rank();
        for column in columns {
            self.basis.add(*column);
            if m - (self.basis.rank() as u64) < k {
                return false;
            }
        }
        if rank < self.basis.rank() {
            (self.calm, self.even) = (0, None);
            return true;
        }
        self.calm += columns.len();
        if CALM <= self.calm && self.even.is_none() {
            self.even = Some(Even::of(&self.basis, m, usize::MAX >> 8));
        }
        true
    }
}

/// The first slice of each run over the front of `starts`, and how many there are. `fill` fills a list from its end with the columns of a
/// slice, and gives how many places are left; it is called for the slices in turn.
fn cut_slices(
    read: Read,
    k: u64,
    starts: &mut [u64; 512],
    mut fill: impl FnMut(usize, &mut [u64; 256]) -> usize,
) -> Result<usize, u64> {
    let (mut run, mut runs) = (Run::new(), 0);
    let mut list = [0; 256];
    for t in 0..read.s {
        let place = fill(t, &mut list);
        if runs == 0 || !run.take(read.m, k, &list[place..]) {
            run = Run::new();
            if !run.take(read.m, k, &list[place..]) {
                return Err(27);
            }
            starts[runs] = t as u64;
            runs += 1;
        }
    }
    Ok(runs)
}

/// Few columns are made by the powers of the register, as they are at the set's end.
fn cut_by_powers(
    marks: Marks,
    read: Read,
    spread: &[u64; 256],
    k: u64,
    starts: &mut [u64; 512],
) -> Result<usize, u64> {
    let mut powers = Powers::of(Clock::of(read));
    powers.need(read.s.saturating_sub(1));
    cut_slices(read, k, starts, |t, list| {
        let clocks = read.s - 1 - t;
        fill_row(list, marks.row(t), spread, |w| powers.later(w, clocks))
    })
}

/// For more, all chains' words are unclocked by eight clocks for every eighth slice, and those of marked cells by the clocks between.
fn cut_by_eights(
    marks: Marks,
    read: Read,
    spread: &[u64; 256],
    k: u64,
    starts: &mut [u64; 512],
) -> Result<usize, u64> {
    let eight = EightBack::of(read);
    let mut words = *spread;
    cut_slices(read, k, starts, |t, list| {
        if t % 8 == 0 && t != 0 {
            eight.unclock(&mut words[..read.n]);
        }
        let row = marks.row(t);
        fill_row(list, row, &words, |w| eight.earlier(w, t as u64 % 8))
    })
}

/// A column by powers takes as long as so many chains' words unclocked for a slice.
const POWERS: usize = 300;

/// The first slice of each run over the front of the list; the number of runs, and the control bits in all.
pub fn cut(set: &[u8], k: u64, cuts: &mut [u64]) -> Result<[u64; 2], u64> {
    let (read, spread) = read_set(set)?;
    if k < 1 || read.m < k {
        return Err(26);
    }
    let marks = Marks::of_set(set, read.n);
    let mut starts = [0; 512];
    let few = POWERS * count_marks(marks, read.s) < read.n * read.s;
    let cut = if few { cut_by_powers } else { cut_by_eights };
    let runs = cut(marks, read, &spread, k, &mut starts)?;
    let cuts = cuts.get_mut(..runs).ok_or(28u64)?;
    cuts.copy_from_slice(&starts[..runs]);
    Ok([runs as u64, read.m * k * runs as u64])
}
