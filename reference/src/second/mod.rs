//! A second implementation of documents 01 and 02, written from their sentences alone: it shares no code and no idea with the proved
//! library. Cells, states and columns are vectors of bools, a column is found by clocking the response in which only its cell is 1 into
//! the register without its inversions, a symbol's by XORing those of its cells, words by elimination over rows, and a run's end by trying
//! all. It is slow on purpose.

pub mod cutting;
pub mod elimination;
pub mod layout;
pub mod plan;
pub mod planning;
pub mod set;
pub mod ties;

/// A bit vector, bit 0 first.
pub type Bits = Vec<bool>;

/// An answer, or the refusal number.
pub type Reply<T> = Result<T, u64>;

/// The number where the test holds.
fn refuse_if(test: bool, number: u64) -> Reply<()> {
    if test {
        Err(number)
    } else {
        Ok(())
    }
}

pub fn bits_of(word: u64, count: usize) -> Bits {
    (0..count).map(|i| i < 64 && word >> i & 1 == 1).collect()
}

pub fn word_of(bits: &[bool]) -> u64 {
    bits.iter()
        .enumerate()
        .filter(|(_, &b)| b)
        .map(|(i, _)| 1u64 << i)
        .sum()
}

/// Whether the word has a bit at or above m.
pub fn beyond(word: u64, m: usize) -> bool {
    (m..64).any(|i| word >> i & 1 == 1)
}

pub fn xor_into(a: &mut [bool], b: &[bool]) {
    for (x, y) in a.iter_mut().zip(b) {
        *x ^= *y;
    }
}

/// Whether two bit vectors share an odd number of ones.
pub fn odd_with(a: &[bool], b: &[bool]) -> bool {
    a.iter().zip(b).filter(|(x, y)| **x && **y).count() % 2 == 1
}

/// The number of `count` bytes at place `at`, low byte first; None where the bytes end before.
pub fn number_at(bytes: &[u8], at: usize, count: usize) -> Option<u64> {
    let end = at.checked_add(count)?;
    let part = bytes.get(at..end)?;
    Some(part.iter().rev().fold(0, |n, &b| n * 256 + u64::from(b)))
}

pub fn put_number(out: &mut Vec<u8>, n: u64, count: usize) {
    for i in 0..count {
        out.push((n >> (8 * i) & 255) as u8);
    }
}

/// Bit c of a row.
pub fn row_bit(row: &[u8], c: usize) -> bool {
    row[c / 8] >> (c % 8) & 1 == 1
}

/// Whether a row of n chains has a spare bit set.
pub fn has_spare(row: &[u8], n: usize) -> bool {
    (n..8 * row.len()).any(|c| row_bit(row, c))
}
