//! The set file: its reader, the rows of one slice, its writer; and one clock.

use super::*;
use crate::same::response::Marks;
use crate::same::set::{head_length, next_state, ties_at, Read};
use crate::same::ties::{ties_refusal, Ties};
use reference::second::set::Content;

/// Numbers 1, 2, 3, 25, 4, 5 and 6.
fn read_head(set: &[u8]) -> Result<Read, u64> {
    if set.len() < 18 {
        return Err(1);
    }
    let m = count(set, 0) as u64;
    if !(1..=64).contains(&m) {
        return Err(2);
    }
    let (taps, inversion) = (word(&set[2..]), word(&set[10..]));
    if taps & 1 == 0 || beyond(m, taps) {
        return Err(3);
    }
    if beyond(m, inversion) {
        return Err(25);
    }
    if set.len() < 20 || !(1..=256).contains(&count(set, 18)) {
        return Err(4);
    }
    let n = count(set, 18);
    if set.len() < 20 + 8 * n {
        return Err(5);
    }
    if has_bad_word(m, set[20..20 + 8 * n].chunks_exact(8).map(word)) {
        return Err(6);
    }
    Ok(Read {
        m,
        taps,
        inversion,
        n,
        s: 0,
    })
}

/// The bits that the values and marks of slices of 256 chains have in common, over all slices.
fn shared_by_words(rows: &[u8]) -> u64 {
    let mut shared = [0; 4];
    for slice in rows.chunks_exact(64) {
        let slice: &[u8; 64] = slice.try_into().unwrap();
        for (i, all) in shared.iter_mut().enumerate() {
            *all |= word(&slice[8 * i..]) & word(&slice[32 + 8 * i..]);
        }
    }
    shared.iter().fold(0, |a, w| a | w)
}

/// .. of rows of b bytes, at least 8: by words, of which the last two may overlap.
fn shared_overlapping(rows: &[u8], b: usize) -> u64 {
    let mut shared = 0;
    for slice in rows.chunks_exact(2 * b) {
        let (values, marks) = slice.split_at(b);
        let words = values.chunks_exact(8).zip(marks.chunks_exact(8));
        shared = words.fold(shared, |a, (v, k)| a | (word(v) & word(k)));
        shared |= word(&values[b - 8..]) & word(&marks[b - 8..]);
    }
    shared
}

/// .. of rows of a few bytes.
fn shared_by_bytes(rows: &[u8], b: usize) -> u64 {
    let mut shared = 0;
    for slice in rows.chunks_exact(2 * b) {
        let (values, marks) = slice.split_at(b);
        shared = values.iter().zip(marks).fold(shared, |a, (v, k)| a | v & k);
    }
    shared.into()
}

fn shared(rows: &[u8], b: usize) -> u64 {
    match b {
        32 => shared_by_words(rows),
        8.. => shared_overlapping(rows, b),
        _ => shared_by_bytes(rows, b),
    }
}

/// Whether one of some rows of n chains has a spare bit set.
pub fn has_spare_bit(n: usize, rows: &[u8]) -> bool {
    if n % 8 == 0 {
        return false;
    }
    let b = n.div_ceil(8);
    let last = rows.chunks_exact(b).fold(0, |a, row| a | row[b - 1]);
    last >> (n % 8) != 0
}

/// .. and 7 to 10, and 29 to 31: everything that the reader looks at.
fn check_set(set: &[u8]) -> Result<Read, u64> {
    let mut read = read_head(set)?;
    let n = read.n;
    if set.len() < head_length(n) || count(set, head_length(n) - 2) > 512 {
        return Err(7);
    }
    read.s = count(set, head_length(n) - 2);
    let at = ties_at(n, read.s);
    if set.len() < at + 2 || count(set, at) > 256 || set.len() != at + 2 + 7 * count(set, at) {
        return Err(8);
    }
    let rows = &set[head_length(n)..at];
    if has_spare_bit(n, rows) {
        return Err(9);
    }
    if shared(rows, n.div_ceil(8)) != 0 {
        return Err(10);
    }
    let ties = Ties::of_set(set, n, read.s);
    match ties.len() {
        0 => Ok(read),
        _ => match ties_refusal(ties, Marks::of_set(set, n), n, read.s) {
            0 => Ok(read),
            number => Err(number),
        },
    }
}

pub fn read_set(set: &[u8]) -> Result<(Read, [u64; 256]), u64> {
    let read = check_set(set)?;
    let mut spread = [0; 256];
    for (w, bytes) in spread[..read.n].iter_mut().zip(set[20..].chunks_exact(8)) {
        *w = word(bytes);
    }
    Ok((read, spread))
}

/// Where the value row of a slice stands, and its bytes.
pub fn value_row(set: &[u8], slice: u64) -> Result<(usize, usize), u64> {
    let read = check_set(set)?;
    if slice >= read.s as u64 {
        return Err(11);
    }
    let b = read.n.div_ceil(8);
    Ok((head_length(read.n) + 2 * b * slice as usize, b))
}

pub fn mark_row(set: &[u8], slice: u64) -> Result<(usize, usize), u64> {
    value_row(set, slice).map(|(start, bytes)| (start + bytes, bytes))
}

/// The numbers of a register and its chains: 2, 3, 25, 4 and 6.
fn register_refusal(m: u64, taps: u64, inversion: u64, spread: &[u64]) -> u64 {
    if !(1..=64).contains(&m) {
        return 2;
    }
    if taps & 1 == 0 || beyond(m, taps) {
        return 3;
    }
    if beyond(m, inversion) {
        return 25;
    }
    if !(1..=256).contains(&spread.len()) {
        return 4;
    }
    if has_bad_word(m, spread.iter().copied()) {
        return 6;
    }
    0
}

fn write_refusal(c: &Content, room: usize) -> u64 {
    let number = register_refusal(c.m, c.taps, c.inversion, &c.spread);
    if number != 0 {
        return number;
    }
    if c.s > 512 {
        return 7;
    }
    let n = c.spread.len();
    let (rows, ties) = (n.div_ceil(8) * c.s as usize, c.ties.len());
    if c.values.len() != rows || c.marks.len() != rows || ties % 7 != 0 || ties > 7 * 256 {
        return 8;
    }
    if has_spare_bit(n, &c.values) || has_spare_bit(n, &c.marks) {
        return 9;
    }
    let both = c.values.iter().zip(&c.marks);
    if both.fold(0, |a, (v, k)| a | v & k) != 0 {
        return 10;
    }
    if room < ties_at(n, c.s as usize) + 2 + ties {
        return 24;
    }
    0
}

/// Rows of the values and of the marks by turns; those of 32 bytes without a call for each.
fn write_rows(b: usize, values: &[u8], marks: &[u8], out: &mut [u8]) {
    let rows = values.chunks_exact(b).zip(marks.chunks_exact(b));
    for (to, (values, marks)) in out.chunks_exact_mut(2 * b).zip(rows) {
        if b == 32 {
            let to: &mut [u8; 64] = to.try_into().unwrap();
            to[..32].copy_from_slice(values.try_into().map(|v: &[u8; 32]| v).unwrap());
            to[32..].copy_from_slice(marks.try_into().map(|k: &[u8; 32]| k).unwrap());
        } else {
            to[..b].copy_from_slice(values);
            to[b..].copy_from_slice(marks);
        }
    }
}

/// The set writer.
pub fn write_set(c: &Content, out: &mut [u8]) -> Result<usize, u64> {
    let number = write_refusal(c, out.len());
    if number != 0 {
        return Err(number);
    }
    let (n, s) = (c.spread.len(), c.s as usize);
    let (head, at) = (head_length(n), ties_at(n, s));
    let end = at + 2 + c.ties.len();
    out[..2].copy_from_slice(&(c.m as u16).to_le_bytes());
    out[2..10].copy_from_slice(&c.taps.to_le_bytes());
    out[10..18].copy_from_slice(&c.inversion.to_le_bytes());
    out[18..20].copy_from_slice(&(n as u16).to_le_bytes());
    for (to, w) in out[20..head - 2].chunks_exact_mut(8).zip(&c.spread) {
        to.copy_from_slice(&w.to_le_bytes());
    }
    out[head - 2..head].copy_from_slice(&(c.s as u16).to_le_bytes());
    write_rows(n.div_ceil(8), &c.values, &c.marks, &mut out[head..at]);
    out[at..at + 2].copy_from_slice(&(c.ties.len() as u16 / 7).to_le_bytes());
    out[at + 2..end].copy_from_slice(&c.ties);
    Ok(end)
}

/// The XOR of the spread words of a row's cells that are 1.
pub fn drive(spread: &[u64], row: &[u8]) -> u64 {
    let mut sum = 0;
    for (words, mut bits) in spread.chunks(64).zip(row_words(row)) {
        while bits != 0 {
            sum ^= words[bits.trailing_zeros() as usize];
            bits &= bits - 1;
        }
    }
    sum
}

/// One clock with the cells of a row.
pub fn clock(
    m: u64,
    taps: u64,
    inversion: u64,
    state: u64,
    spread: &[u64],
    row: &[u8],
) -> Result<u64, u64> {
    let number = register_refusal(m, taps, inversion, spread);
    if number != 0 {
        return Err(number);
    }
    if row.len() != spread.len().div_ceil(8) {
        return Err(8);
    }
    if has_spare_bit(spread.len(), row) {
        return Err(9);
    }
    if beyond(m, state) {
        return Err(23);
    }
    Ok(next_state(m, taps, state) ^ drive(spread, row) ^ inversion)
}
