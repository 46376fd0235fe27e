//! Cutting (document 02, No. 5): from each run's start every end is tried, from the last slice down, and the columns of each of these
//! runs are made anew, as those of a set of its own.

use super::elimination::rank;
use super::set::{read_set, Set};
use super::*;

/// What cutting answers: the first slice of each run, and "the control bits in all, m × k for each run".
#[derive(Clone, Debug, PartialEq)]
pub struct Cutting {
    pub cuts: Vec<u64>,
    pub bits: u64,
}

/// The slices from `start` up to `end`: "each run is later judged as a set of its own". No tie is left: "the cutter goes on with every
/// cell free" (No. 7).
fn alone(set: &Set, start: usize, end: usize) -> Set {
    Set {
        circuit: set.circuit.clone(),
        values: set.values[start..end].to_vec(),
        marks: set.marks[start..end].to_vec(),
        ties: vec![],
    }
}

/// The words that this run leaves.
pub fn words_left(set: &Set, start: usize, end: usize) -> u64 {
    set.circuit.m as u64 - rank(&alone(set, start, end).columns())
}

/// "Every run is the longest that does so from its start." A run has a slice at least; where one slice leaves too few, the number is 27.
fn longest_end(set: &Set, k: u64, start: usize) -> usize {
    let mut ends = (start + 1..=set.s()).rev();
    let end = ends.find(|&end| words_left(set, start, end) >= k);
    end.unwrap_or(start + 1)
}

/// The first slice of each run. "A set without slices has no runs."
fn starts(set: &Set, k: u64) -> Vec<u64> {
    let mut starts = Vec::new();
    let mut start = 0;
    while start < set.s() {
        starts.push(start as u64);
        start = longest_end(set, k, start);
    }
    starts
}

/// The call, for a lent cut list of `room` places: "26 for k not 1 to m; 27 for a slice that alone leaves fewer than k; 28 for a cut list
/// too short; in that order after 10", and so after 31.
pub fn cut(bytes: &[u8], k: u64, room: usize) -> Reply<Cutting> {
    let set = read_set(bytes)?;
    let m = set.circuit.m as u64;
    refuse_if(k < 1 || k > m, 26)?;
    refuse_if((0..set.s()).any(|t| words_left(&set, t, t + 1) < k), 27)?;
    let cuts = starts(&set, k);
    refuse_if(room < cuts.len(), 28)?;
    let bits = m * k * cuts.len() as u64;
    Ok(Cutting { cuts, bits })
}
