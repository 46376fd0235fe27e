//! A record's signature, and the expected bits of words.

use super::plan::is_reduced;
use super::set::{drive, has_spare_bit, read_set};
use crate::same::set::{head_length, next_state, Read};
use crate::same::ties::{side_columns, Ties};

/// The XORs of the words of each byte of a group of 64 cells, by doubling.
fn fill_bytes(words: &[u64], table: &mut [[u64; 256]; 8]) {
    for (entries, words) in table.iter_mut().zip(words.chunks_exact(8)) {
        for (k, w) in words.iter().enumerate() {
            let (done, next) = entries.split_at_mut(1 << k);
            for (to, from) in next.iter_mut().zip(done) {
                *to = *from ^ w;
            }
        }
    }
}

/// For each slice the XOR of the spread words of its cells that are 1, by groups of 64 cells, whose table stays near.
fn drives_by_bytes(spread: &[u64; 256], rows: Rows) -> [u64; 512] {
    let mut drives = [0; 512];
    let mut table = [[0; 256]; 8];
    for (g, words) in spread.chunks_exact(64).enumerate().take(rows.b.div_ceil(8)) {
        fill_bytes(words, &mut table);
        let at = 8 * g;
        if at + 8 <= rows.b {
            for (drive, row) in drives.iter_mut().zip(rows.all()) {
                let bytes: &[u8; 8] = row[at..at + 8].try_into().unwrap();
                *drive ^= looked_up(&table, bytes);
            }
        } else {
            for (drive, row) in drives.iter_mut().zip(rows.all()) {
                *drive ^= looked_up(&table, &row[at..rows.b]);
            }
        }
    }
    drives
}

fn looked_up(table: &[[u64; 256]; 8], bytes: &[u8]) -> u64 {
    let entries = table.iter().zip(bytes);
    entries.fold(0, |sum, (entries, &byte)| sum ^ entries[usize::from(byte)])
}

/// .. by the cells themselves, for a few slices.
fn drives_by_cells(spread: &[u64; 256], rows: Rows) -> [u64; 512] {
    let mut drives = [0; 512];
    for (to, row) in drives.iter_mut().zip(rows.all()) {
        *to = drive(spread, &row[..rows.b]);
    }
    drives
}

/// Rows of b bytes that stand in chunks of `stride` bytes, at the front of each.
#[derive(Clone, Copy)]
struct Rows<'a> {
    bytes: &'a [u8],
    stride: usize,
    b: usize,
    s: usize,
}

impl<'a> Rows<'a> {
    fn all(self) -> impl Iterator<Item = &'a [u8]> {
        self.bytes.chunks_exact(self.stride).take(self.s)
    }
}

/// The tables take as long as the cells of so many slices.
const FEW_SLICES: usize = 40;

/// The signature of rows; the spread words behind the n chains are 0.
fn run_rows(read: Read, spread: &[u64; 256], bytes: &[u8], stride: usize) -> u64 {
    let rows = Rows {
        bytes,
        stride,
        b: read.n.div_ceil(8),
        s: read.s,
    };
    let drives = if read.s < FEW_SLICES {
        drives_by_cells(spread, rows)
    } else {
        drives_by_bytes(spread, rows)
    };
    let clocked = |state, drive| next_state(read.m, read.taps, state) ^ drive ^ read.inversion;
    drives[..read.s].iter().fold(0, clocked)
}

/// A record's signature.
pub fn sign(set: &[u8], record: &[u8]) -> Result<u64, u64> {
    let (read, spread) = read_set(set)?;
    let b = read.n.div_ceil(8);
    if record.len() != b * read.s {
        return Err(12);
    }
    if has_spare_bit(read.n, record) {
        return Err(13);
    }
    Ok(run_rows(read, &spread, record, b))
}

/// The expected bits of words for a set that was read.
pub fn expected_bits(set: &[u8], read: Read, spread: &[u64; 256], words: &[u64]) -> u64 {
    let rows = &set[head_length(read.n)..];
    let zero = run_rows(read, spread, rows, 2 * read.n.div_ceil(8));
    let ties = Ties::of_set(set, read.n, read.s);
    let zero = zero ^ side_columns(read, spread, ties);
    let odd = |w: &u64| u64::from((w & zero).count_ones() & 1);
    words.iter().rev().fold(0, |bits, w| 2 * bits + odd(w))
}

/// The expected bits of a list of words.
pub fn expect(set: &[u8], words: &[u64]) -> Result<u64, u64> {
    let (read, spread) = read_set(set)?;
    if words.is_empty() || words.len() as u64 > read.m {
        return Err(20);
    }
    if !is_reduced(read.m, words.iter().copied()) {
        return Err(21);
    }
    Ok(expected_bits(set, read, &spread, words))
}
