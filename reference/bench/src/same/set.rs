//! The set file: its reader, the rows of one slice, its writer; and the register's clock.

use super::response::Marks;
use super::ties::{ties_refusal, Ties};
use super::*;
use reference::second::set::Content;

#[derive(Clone, Copy)]
pub struct Read {
    pub m: u64,
    pub taps: u64,
    pub inversion: u64,
    pub n: usize,
    pub s: usize,
}

/// The places of the tap word, of the inversion word, of n and of the first spread word.
const TAPS_AT: usize = 2;
const INVERSION_AT: usize = 10;
const CHAINS_AT: usize = 18;
const SPREAD_AT: usize = 20;

/// The place of s.
fn slices_at(n: usize) -> usize {
    SPREAD_AT + 8 * n
}

/// The bytes before the rows.
pub fn head_length(n: usize) -> usize {
    slices_at(n) + 2
}

/// The place of the count of ties, behind the rows.
pub fn ties_at(n: usize, s: usize) -> usize {
    head_length(n) + 2 * n.div_ceil(8) * s
}

/// Whether the ties are absent, too many, too few for their count, or followed by more.
fn bad_ties(set: &[u8], at: usize) -> bool {
    set.len() < at + 2 || count(set, at) > 256 || set.len() != at + 2 + 7 * count(set, at)
}

/// Number 6, the spread words read where they stand.
fn has_bad_spread(set: &[u8], m: u64, n: usize) -> bool {
    let words = set[SPREAD_AT..slices_at(n)].chunks_exact(8);
    is_bad_spread(m, words.map(|b| word(b, 0)))
}

/// Numbers 1, 2, 3, 25, 4, 5 and 6.
fn head_refusal(set: &[u8]) -> u64 {
    if set.len() < CHAINS_AT {
        return 1;
    }
    let m = count(set, 0) as u64;
    if !(1..=64).contains(&m) {
        return 2;
    }
    if is_bad_taps(m, word(set, TAPS_AT)) {
        return 3;
    }
    if bad_inversion(m, word(set, INVERSION_AT)) {
        return 25;
    }
    if set.len() < SPREAD_AT || !(1..=256).contains(&count(set, CHAINS_AT)) {
        return 4;
    }
    let n = count(set, CHAINS_AT);
    if set.len() < slices_at(n) {
        return 5;
    }
    if has_bad_spread(set, m, n) {
        return 6;
    }
    0
}

/// Whether a byte of the values and the byte of the marks at the same place have a bit in common.
fn share_a_bit(values: &[u8], marks: &[u8]) -> bool {
    let shared = values.iter().zip(marks).fold(0, |a, (v, k)| a | (v & k));
    shared != 0
}

/// Of two rows of 32 bytes, one behind the other: what the words at place `at` share, and those 16 bytes after it.
fn shared_words(pair: &[u8; 64], at: usize) -> u64 {
    word(pair, at) & word(pair, at + 32) | word(pair, at + 16) & word(pair, at + 48)
}

/// Whether a pair of rows of 32 bytes has a bit in common, gathered in two words and asked about once, at the end.
fn pairs_share_a_bit(rows: &[u8]) -> bool {
    let (mut even, mut odd) = (0, 0);
    for pair in rows.chunks_exact(64) {
        let pair = pair.try_into().unwrap();
        even |= shared_words(pair, 0);
        odd |= shared_words(pair, 8);
    }
    even | odd != 0
}

/// Number 10: rows of 32 bytes by words, others by whole bytes.
fn has_valued_unknown(rows: &[u8], b: usize) -> bool {
    if b == 32 {
        return pairs_share_a_bit(rows);
    }
    let mut pairs = rows.chunks_exact(2 * b);
    pairs.any(|pair| share_a_bit(&pair[..b], &pair[b..]))
}

/// .. 7 to 10, and 29 to 31: 9 by one byte of each row.
fn first_refusal(set: &[u8]) -> u64 {
    let number = head_refusal(set);
    if number != 0 {
        return number;
    }
    let n = count(set, CHAINS_AT);
    if set.len() < head_length(n) || count(set, slices_at(n)) > 512 {
        return 7;
    }
    let (b, s) = (n.div_ceil(8), count(set, slices_at(n)));
    if bad_ties(set, ties_at(n, s)) {
        return 8;
    }
    let rows = &set[head_length(n)..ties_at(n, s)];
    if has_spare_row(n, rows) {
        return 9;
    }
    if has_valued_unknown(rows, b) {
        return 10;
    }
    let ties = Ties::of_set(set, n, s);
    if ties.len() == 0 {
        return 0;
    }
    ties_refusal(ties, Marks::of_set(set, n), n, s)
}

pub fn read_set(set: &[u8]) -> Result<(Read, [u64; 256]), u64> {
    let number = first_refusal(set);
    if number != 0 {
        return Err(number);
    }
    let n = count(set, CHAINS_AT);
    let mut spread = [0; 256];
    let words = set[SPREAD_AT..].chunks_exact(8);
    for (w, bytes) in spread[..n].iter_mut().zip(words) {
        *w = word(bytes, 0);
    }
    let read = Read {
        m: count(set, 0) as u64,
        taps: word(set, TAPS_AT),
        inversion: word(set, INVERSION_AT),
        n,
        s: count(set, slices_at(n)),
    };
    Ok((read, spread))
}

/// Where the value row of a slice stands, and its bytes.
pub fn value_row(set: &[u8], slice: u64) -> Result<(usize, usize), u64> {
    let number = first_refusal(set);
    if number != 0 {
        return Err(number);
    }
    let n = count(set, CHAINS_AT);
    if slice >= count(set, slices_at(n)) as u64 {
        return Err(11);
    }
    let b = n.div_ceil(8);
    Ok((head_length(n) + 2 * b * slice as usize, b))
}

pub fn mark_row(set: &[u8], slice: u64) -> Result<(usize, usize), u64> {
    value_row(set, slice).map(|(start, bytes)| (start + bytes, bytes))
}

fn write_refusal(c: &Content, room: usize) -> u64 {
    if !(1..=64).contains(&c.m) {
        return 2;
    }
    if is_bad_taps(c.m, c.taps) {
        return 3;
    }
    if bad_inversion(c.m, c.inversion) {
        return 25;
    }
    let n = c.spread.len();
    if !(1..=256).contains(&n) {
        return 4;
    }
    if is_bad_spread(c.m, c.spread.iter().copied()) {
        return 6;
    }
    if c.s > 512 {
        return 7;
    }
    let rows = n.div_ceil(8) * c.s as usize;
    let ties = c.ties.len();
    if c.values.len() != rows || c.marks.len() != rows || ties % 7 != 0 || ties > 7 * 256 {
        return 8;
    }
    if has_spare_row(n, &c.values) || has_spare_row(n, &c.marks) {
        return 9;
    }
    if share_a_bit(&c.values, &c.marks) {
        return 10;
    }
    if room < ties_at(n, c.s as usize) + 2 + ties {
        return 24;
    }
    0
}

fn write_any_slices(out: &mut [u8], b: usize, values: &[u8], marks: &[u8]) {
    let rows = values.chunks_exact(b).zip(marks.chunks_exact(b));
    for (to, (values, marks)) in out.chunks_exact_mut(2 * b).zip(rows) {
        to[..b].copy_from_slice(values);
        to[b..].copy_from_slice(marks);
    }
}

/// The same for rows of 32 bytes: of a known length they are copied without a call.
fn write_wide_slices(out: &mut [u8], values: &[u8], marks: &[u8]) {
    let rows = values.chunks_exact(32).zip(marks.chunks_exact(32));
    for (to, (values, marks)) in out.chunks_exact_mut(64).zip(rows) {
        to[..32].copy_from_slice(values);
        to[32..].copy_from_slice(marks);
    }
}

/// The value rows and mark rows of b bytes, in turn.
fn write_slices(out: &mut [u8], b: usize, values: &[u8], marks: &[u8]) {
    if b == 32 {
        write_wide_slices(out, values, marks);
    } else {
        write_any_slices(out, b, values, marks);
    }
}

/// The set writer.
pub fn write_set(c: &Content, out: &mut [u8]) -> Result<usize, u64> {
    let number = write_refusal(c, out.len());
    if number != 0 {
        return Err(number);
    }
    let n = c.spread.len();
    let b = n.div_ceil(8);
    out[..2].copy_from_slice(&(c.m as u16).to_le_bytes());
    out[TAPS_AT..INVERSION_AT].copy_from_slice(&c.taps.to_le_bytes());
    out[INVERSION_AT..CHAINS_AT].copy_from_slice(&c.inversion.to_le_bytes());
    out[CHAINS_AT..SPREAD_AT].copy_from_slice(&(n as u16).to_le_bytes());
    for (to, w) in out[SPREAD_AT..].chunks_exact_mut(8).zip(&c.spread) {
        to.copy_from_slice(&w.to_le_bytes());
    }
    let at = head_length(n);
    out[at - 2..at].copy_from_slice(&(c.s as u16).to_le_bytes());
    write_slices(&mut out[at..], b, &c.values, &c.marks);
    let at = ties_at(n, c.s as usize);
    let (entries, end) = (at + 2, at + 2 + c.ties.len());
    out[at..entries].copy_from_slice(&(c.ties.len() as u16 / 7).to_le_bytes());
    out[entries..end].copy_from_slice(&c.ties);
    Ok(end)
}

/// The state after one clock with all cells 0 and nothing inverted.
pub fn next_state(m: u64, taps: u64, state: u64) -> u64 {
    let feedback = if state >> (m - 1) & 1 == 1 { taps } else { 0 };
    (state << 1 & (u64::MAX >> (64 - m))) ^ feedback
}

/// The XOR of the spread words of the chains whose cell in the row is 1, by words of 64 cells.
fn driven_word(spread: &[u64], row: &[u8]) -> u64 {
    let words = spread.chunks(64).enumerate();
    words.fold(0, |drive, (i, words)| {
        drive ^ xor_marked(words, word(row, 8 * i))
    })
}

/// One clock with the cells of a row.
pub fn clock(
    m: u64,
    taps: u64,
    inversion: u64,
    state: u64,
    spread: &[u64],
    row: &[u8],
) -> Result<u64, u64> {
    if !(1..=64).contains(&m) {
        return Err(2);
    }
    if is_bad_taps(m, taps) {
        return Err(3);
    }
    if bad_inversion(m, inversion) {
        return Err(25);
    }
    let n = spread.len();
    if !(1..=256).contains(&n) {
        return Err(4);
    }
    if is_bad_spread(m, spread.iter().copied()) {
        return Err(6);
    }
    if row.len() != n.div_ceil(8) {
        return Err(8);
    }
    if has_spare_bit(n, row) {
        return Err(9);
    }
    if is_beyond(m, state) {
        return Err(23);
    }
    Ok(next_state(m, taps, state) ^ driven_word(spread, row) ^ inversion)
}
