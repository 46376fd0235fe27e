//! Responses: a record's signature, the signature for all unknowns 0, and the columns; and planning, its words and its expected bits,
//! also the way it was before it had a working list, by listing all columns.

use super::elimination::eliminate;
use super::plan::{is_bad_word_count, is_reduced};
use super::set::{head_length, next_state, read_set, Read};
use super::ties::{opening_flags, set_symbols, side_columns, unmark, Ties};
use super::words::fill_words;
use super::*;
use std::ops::Range;

/// What the chains drive in each slice: 64 chains at a time, by a table of what their cells' bytes drive.
fn slice_drives(
    read: Read,
    spread: &[u64],
    row: impl Fn(usize) -> Range<usize>,
    bytes: &[u8],
) -> [u64; 512] {
    let mut drives = [0; 512];
    for (g, words) in spread.chunks(64).enumerate() {
        let table = xor_table(words);
        for (t, drive) in drives[..read.s].iter_mut().enumerate() {
            *drive ^= looked_up(&table, word(&bytes[row(t)], 8 * g));
        }
    }
    drives
}

/// The XOR of the spread words of the cells of a row that are 1.
fn driven_word(spread: &[u64], row: &[u8]) -> u64 {
    let words = spread.chunks(64).enumerate();
    words.fold(0, |drive, (i, words)| {
        drive ^ xor_marked(words, word(row, 8 * i))
    })
}

/// The XORs of the spread words of each half byte of a row: each word doubles the entries of its half byte.
fn half_bytes(spread: &[u64]) -> [u64; 1024] {
    let mut table = [0; 1024];
    for (entries, words) in table.chunks_exact_mut(16).zip(spread.chunks(4)) {
        for k in 0..4 {
            let w = words.get(k).copied().unwrap_or(0);
            double_entries(entries, 1 << k, w);
        }
    }
    table
}

/// The XOR of the table's entries for the half bytes of some bytes.
fn looked_bytes(entries: &[u64], bytes: &[u8]) -> u64 {
    let mut drive = 0;
    for (half_pair, &byte) in entries.chunks_exact(32).zip(bytes) {
        drive ^= half_pair[usize::from(byte % 16)] ^ half_pair[16 + usize::from(byte / 16)];
    }
    drive
}

/// .. of a row, eight bytes a turn.
fn looked_row(table: &[u64; 1024], row: &[u8]) -> u64 {
    let eights = row.chunks_exact(8);
    let rest = &table[256 * eights.len()..];
    let mut drive = looked_bytes(rest, eights.remainder());
    for (entries, bytes) in table.chunks_exact(256).zip(eights) {
        drive ^= looked_bytes(entries, bytes);
    }
    drive
}

/// Up to so many slices go by their cells, and from so many on by tables of bytes.
const FEW_SLICES: usize = 8;
const MANY_SLICES: usize = 192;

/// The signature of the rows of b bytes that stand `stride` bytes apart: by cells, by half bytes or by tables of bytes.
fn run_rows(read: Read, spread: &[u64], bytes: &[u8], stride: usize, b: usize) -> u64 {
    let row = |t: usize| stride * t..stride * t + b;
    let clocked = |state, drive| next_state(read.m, read.taps, state) ^ drive ^ read.inversion;
    if read.s < FEW_SLICES {
        let drives = (0..read.s).map(|t| driven_word(spread, &bytes[row(t)]));
        return drives.fold(0, clocked);
    }
    if read.s < MANY_SLICES || b % 8 != 0 {
        let table = half_bytes(spread);
        let drives = (0..read.s).map(|t| looked_row(&table, &bytes[row(t)]));
        return drives.fold(0, clocked);
    }
    let drives = slice_drives(read, spread, row, bytes);
    drives[..read.s].iter().copied().fold(0, clocked)
}

/// A record's signature.
pub fn sign(set: &[u8], record: &[u8]) -> Result<u64, u64> {
    let (read, spread) = read_set(set)?;
    let b = read.n.div_ceil(8);
    if record.len() != b * read.s {
        return Err(12);
    }
    if has_spare_row(read.n, record) {
        return Err(13);
    }
    Ok(run_rows(read, &spread[..read.n], record, b, b))
}

/// How many bits of four words are 1; where none is, it is known by one test.
fn count_words([a, b, c, d]: [u64; 4]) -> usize {
    if a | b | c | d == 0 {
        return 0;
    }
    let ones = [a, b, c, d].map(|w| w.count_ones() as usize);
    ones.iter().sum()
}

/// The marked cells of a row, by four words of 64 marks; those of a row of 32 bytes are all there.
fn count_row(row: &[u8]) -> usize {
    match row.try_into() {
        Ok(row) => count_32(row),
        Err(_) => count_words(std::array::from_fn(|i| word(row, 8 * i))),
    }
}

fn count_32(row: &[u8; 32]) -> usize {
    count_words(std::array::from_fn(|i| word(row, 8 * i)))
}

/// Rows of marks: those of a set, or some that stand one after the other in a list of nothing else.
#[derive(Clone, Copy)]
pub struct Marks<'a> {
    list: &'a [u8],
    stride: usize,
    bytes: usize,
}

impl<'a> Marks<'a> {
    pub fn of_set(set: &'a [u8], n: usize) -> Marks<'a> {
        let bytes = n.div_ceil(8);
        Marks {
            list: set.get(head_length(n) + bytes..).unwrap_or_default(),
            stride: 2 * bytes,
            bytes,
        }
    }

    pub fn of_list(list: &'a [u8], n: usize) -> Marks<'a> {
        let bytes = n.div_ceil(8);
        Marks {
            list,
            stride: bytes,
            bytes,
        }
    }

    pub fn row(self, t: usize) -> &'a [u8] {
        &self.list[self.stride * t..][..self.bytes]
    }

    /// The marked cells of some slices.
    pub fn count(self, slices: Range<usize>) -> usize {
        slices.map(|t| count_row(self.row(t))).sum()
    }

    /// About how many cells of s rows are marked: from 64 rows on every eighth row is counted for eight.
    pub fn estimate(self, s: usize) -> usize {
        if s < 64 {
            return self.count(0..s);
        }
        let rows = (0..s / 8).map(|t| count_row(self.row(8 * t)));
        8 * rows.sum::<usize>()
    }

    /// How many of the first t rows there are up to the last marked one; 0 where none is marked.
    pub fn marked_end(self, t: usize) -> usize {
        let last = (0..t).rev().find(|&t| count_row(self.row(t)) != 0);
        last.map_or(0, |t| t + 1)
    }
}

/// Marks 64 i to 64 i + 63 of a row, as far as there are chains.
pub fn marks_at(row: &[u8], i: usize, chains: usize) -> u64 {
    word(row, 8 * i) & low_mask(chains - 64 * i)
}

/// The words of the marked chains over the end of the list; how many places stand before them. (The library has a second way here, for
/// lists that are too short: no call comes to it.)
pub fn list_word(columns: &mut [u64], words: &[u64], mut marks: u64) -> usize {
    if marks == 0 {
        return columns.len();
    }
    let place = columns.len() - marks.count_ones() as usize;
    if marks == u64::MAX {
        columns[place..].copy_from_slice(&words[..64]);
        return place;
    }
    for column in &mut columns[place..] {
        *column = words[marks.trailing_zeros() as usize];
        marks &= marks - 1;
    }
    place
}

/// .. of 256 chains, by a row with all their marks: no word of it is short, and none needs a mask.
fn list_256(columns: &mut [u64], words: &[u64; 256], row: &[u8; 32]) -> usize {
    let mut place = columns.len();
    for i in (0..4).rev() {
        place = list_word(&mut columns[..place], &words[64 * i..], word(row, 8 * i));
    }
    place
}

/// The words of a row's marked chains over the end of the list, by words of 64 marks; how many places stand before them.
pub fn list_row(columns: &mut [u64], words: &[u64], row: &[u8]) -> usize {
    if let (Ok(words), Ok(row)) = (words.try_into(), row.try_into()) {
        return list_256(columns, words, row);
    }
    let mut place = columns.len();
    for i in (0..words.len().div_ceil(64)).rev() {
        let marks = marks_at(row, i, words.len());
        place = list_word(&mut columns[..place], &words[64 * i..], marks);
    }
    place
}

/// Advances each word by one clock.
pub fn advance_words(read: Read, words: &mut [u64]) {
    for w in words {
        *w = next_state(read.m, read.taps, *w);
    }
}

/// The columns of a run of slices over the end of the list, from the last slice on, all chains' words advanced by one clock for each; how
/// many places stand before them.
pub fn fill_swept(
    marks: Marks,
    read: Read,
    spread: &[u64; 256],
    slices: Range<usize>,
    columns: &mut [u64],
) -> usize {
    let mut all = *spread;
    let words = &mut all[..read.n];
    let mut place = columns.len();
    for t in slices.rev() {
        place = list_row(&mut columns[..place], words, marks.row(t));
        advance_words(read, words);
    }
    place
}

/// The word 1 after 0 clocks, 1 and so on, so many of them.
pub fn powers(read: Read, count: usize) -> [u64; 576] {
    let mut table = [0; 576];
    let mut power = 1;
    for entry in &mut table[..count] {
        *entry = power;
        power = next_state(read.m, read.taps, power);
    }
    table
}

/// Puts for each word the XOR of the powers whose bit in it is 1.
pub fn power_words(powers: &[u64], words: &mut [u64]) {
    for word in words {
        *word = from_powers(powers, *word);
    }
}

/// Each column from the powers of the register: bit i of the spread word, j clocks later, is bit 0 after i + j clocks. Slices without a
/// marked cell are passed over.
fn fill_sparse(marks: Marks, read: Read, spread: &[u64; 256], columns: &mut [u64]) {
    let width = read.m as usize;
    let table = powers(read, read.s + width);
    let mut place = columns.len();
    let mut t = marks.marked_end(read.s);
    while 0 < t {
        let start = list_row(&mut columns[..place], &spread[..read.n], marks.row(t - 1));
        let later = &table[read.s - t..][..width];
        power_words(later, &mut columns[start..place]);
        place = start;
        t = marks.marked_end(t - 1);
    }
}

/// For each byte what it is 8 clocks later, where it stands at the top of the register.
pub fn eight_on(read: Read) -> [u64; 256] {
    let mut table = [0; 256];
    let mut bit = read.taps;
    for i in 0..8 {
        double_entries(&mut table, 1 << i, bit);
        bit = next_state(read.m, read.taps, bit);
    }
    table
}

/// Puts for each word what it is so many clocks later, 1 to 8.
pub fn advance_few(m: u64, table: &[u64], clocks: u64, words: &mut [u64]) {
    let (mask, out, down) = (low_mask(m as usize), low_mask(clocks as usize), m - clocks);
    for w in words {
        *w = (*w << clocks & mask) ^ table[(*w >> down & out) as usize];
    }
}

/// All chains' words advanced by eight clocks for every eighth slice, and those of marked cells by the clocks between, in a register of 64 bits.
fn fill_wide(marks: Marks, read: Read, mut all: [u64; 256], columns: &mut [u64]) {
    let table = eight_on(read);
    let words = &mut all[..read.n];
    let mut place = columns.len();
    for (clocks, t) in (0..read.s).rev().enumerate() {
        let start = list_row(&mut columns[..place], words, marks.row(t));
        let few = clocks as u64 % 8;
        if few != 0 {
            advance_few(64, &table, few, &mut columns[start..place]);
        }
        place = start;
        if few == 7 {
            advance_few(64, &table, 8, words);
        }
    }
}

/// .. in any register, raised to 64 bits.
fn fill_by_eights(marks: Marks, read: Read, spread: &[u64; 256], columns: &mut [u64]) {
    let up = 64 - read.m;
    let raised = Read {
        m: 64,
        taps: read.taps << up,
        ..read
    };
    fill_wide(marks, raised, spread.map(|w| w << up), columns);
    for column in columns {
        *column >>= up;
    }
}

/// From so many columns on a sweep costs least.
const MANY: usize = 65_536;

/// What so many columns cost by a sweep, where one word advanced by one clock costs 1.
fn sweep_cost(read: Read) -> usize {
    read.n * read.s + 16 * read.s
}

/// .. by eights of clocks.
fn eights_cost(count: usize, read: Read) -> usize {
    read.n * read.s / 5 + 20 * read.s + 2 * count + 128
}

/// .. one by one.
fn ones_cost(count: usize, read: Read) -> usize {
    (read.m as usize + 16) * count + 4 * read.s + 256
}

/// Whether so many columns cost less by eights of clocks than by a sweep and than one by one.
fn eights_least(count: usize, read: Read) -> bool {
    let eights = eights_cost(count, read);
    count < MANY && eights < sweep_cost(read) && eights < ones_cost(count, read)
}

/// Whether they cost less one by one than by a sweep.
fn ones_less(count: usize, read: Read) -> bool {
    count < MANY && ones_cost(count, read) < sweep_cost(read)
}

/// Whether so many columns are to be made with all chains' words advanced together.
pub fn needs_sweep(read: Read, spread: &[u64; 256], count: usize) -> bool {
    !ones_less(count, read) || is_bad_spread(read.m, spread[..read.n].iter().copied())
}

/// A few columns are made one by one; for many, all the chains' words are advanced together, by eights of clocks or by one for each slice.
fn fill_columns(marks: Marks, read: Read, spread: &[u64; 256], columns: &mut [u64]) {
    if eights_least(columns.len(), read) {
        fill_by_eights(marks, read, spread, columns);
    } else if needs_sweep(read, spread, columns.len()) {
        fill_swept(marks, read, spread, 0..read.s, columns);
    } else {
        fill_sparse(marks, read, spread, columns)
    }
}

/// The columns of the cells that the rows mark over the front of the list, and how many they are.
fn list_marked(
    marks: Marks,
    read: Read,
    spread: &[u64; 256],
    columns: &mut [u64],
) -> Result<usize, u64> {
    let found = marks.count(0..read.s);
    if columns.len() < found {
        return Err(14);
    }
    fill_columns(marks, read, spread, &mut columns[..found]);
    Ok(found)
}

/// The symbols' columns over the front of the list, and how many they are: with ties, those of a symbol's first cell and of unnamed cells
/// first, and then the symbols' own in the places of the first cells.
fn listed(set: &[u8], read: Read, spread: &[u64; 256], columns: &mut [u64]) -> Result<usize, u64> {
    let marks = Marks::of_set(set, read.n);
    let ties = Ties::of_set(set, read.n, read.s);
    if ties.len() == 0 {
        return list_marked(marks, read, spread, columns);
    }
    let flags = opening_flags(ties);
    let heads = unmark(marks, (read.n, read.s), ties, |i| flags[i]);
    let marks = Marks::of_list(&heads, read.n);
    let symbols = list_marked(marks, read, spread, columns)?;
    set_symbols(read, spread, ties, &flags, marks, &mut columns[..symbols]);
    Ok(symbols)
}

/// The columns.
pub fn list_columns(set: &[u8], columns: &mut [u64]) -> Result<usize, u64> {
    let (read, spread) = read_set(set)?;
    listed(set, read, &spread, columns)
}

/// The words of a set that was read, from a list of all columns: how many they are.
fn words_of_all_columns(
    set: &[u8],
    read: Read,
    spread: &[u64; 256],
    columns: &mut [u64],
    words: &mut [u64],
) -> Result<usize, u64> {
    let unknowns = listed(set, read, spread, columns)?;
    let (_, q) = eliminate(read.m, &columns[..unknowns], words)?;
    Ok(q)
}

/// Makes the words of a set that was read: of a working list, or of a column list.
type FillWords = fn(&[u8], Read, &[u64; 256], &mut [u64], &mut [u64]) -> Result<usize, u64>;

/// The expected bits of words for a set that was read.
fn expected_bits(set: &[u8], read: Read, spread: &[u64; 256], words: &[u64]) -> u64 {
    let b = read.n.div_ceil(8);
    let rows = &set[head_length(read.n)..];
    let zero = run_rows(read, &spread[..read.n], rows, 2 * b, b);
    let ties = Ties::of_set(set, read.n, read.s);
    word_parities(words, zero ^ side_columns(read, spread, ties))
}

fn worded(
    set: &[u8],
    list: &mut [u64],
    words: &mut [u64],
    fill: FillWords,
) -> Result<[u64; 2], u64> {
    let (read, spread) = read_set(set)?;
    let q = fill(set, read, &spread, list, words)?;
    Ok([read.m, q as u64])
}

/// The words: m and q.
pub fn plan_words(set: &[u8], working: &mut [u64], words: &mut [u64]) -> Result<[u64; 2], u64> {
    worded(set, working, words, fill_words)
}

/// .. by listing all columns.
pub fn list_and_word(set: &[u8], columns: &mut [u64], words: &mut [u64]) -> Result<[u64; 2], u64> {
    worded(set, columns, words, words_of_all_columns)
}

/// The expected bits of a list of words.
pub fn expect(set: &[u8], words: &[u64]) -> Result<u64, u64> {
    let (read, spread) = read_set(set)?;
    if is_bad_word_count(read.m, words.len()) {
        return Err(20);
    }
    if !is_reduced(read.m, words.iter().copied()) {
        return Err(21);
    }
    Ok(expected_bits(set, read, &spread, words))
}

fn planned(
    set: &[u8],
    list: &mut [u64],
    words: &mut [u64],
    fill: FillWords,
) -> Result<[u64; 3], u64> {
    let (read, spread) = read_set(set)?;
    let q = fill(set, read, &spread, list, words)?;
    let expected = expected_bits(set, read, &spread, &words[..q]);
    Ok([read.m, q as u64, expected])
}

/// Planning: m, q and the expected bits; the set is read once.
pub fn plan(set: &[u8], working: &mut [u64], words: &mut [u64]) -> Result<[u64; 3], u64> {
    planned(set, working, words, fill_words)
}

/// .. by listing all columns.
pub fn list_and_plan(set: &[u8], columns: &mut [u64], words: &mut [u64]) -> Result<[u64; 3], u64> {
    planned(set, columns, words, words_of_all_columns)
}
