//! The library's own algorithms in ordinary Rust, thresholds and tables included, to measure what proof and Rattle's compiler cost.
//! Built for plain x86-64, as the library is. The files follow its crates, and a function that does what one of the library's does has
//! its name.

pub mod closed_words;
pub mod cutting;
pub mod elimination;
pub mod plan;
pub mod response;
pub mod set;
pub mod ties;
pub mod words;

/// The count of two bytes at place `at`, which are there.
fn count(bytes: &[u8], at: usize) -> usize {
    usize::from(bytes[at]) | usize::from(bytes[at + 1]) << 8
}

/// The word of eight bytes at place `at`; bytes past the end count as 0.
fn word(bytes: &[u8], at: usize) -> u64 {
    match bytes.get(at..at + 8) {
        Some(eight) => u64::from_le_bytes(eight.try_into().unwrap()),
        None => short_word(bytes, at),
    }
}

fn short_word(bytes: &[u8], at: usize) -> u64 {
    let there = bytes.iter().skip(at).take(8).rev();
    there.fold(0, |w, &b| w << 8 | u64::from(b))
}

/// The lowest bits 1, so many of them; all 64 where that is more.
fn low_mask(bits: usize) -> u64 {
    if bits < 64 {
        (1 << bits) - 1
    } else {
        u64::MAX
    }
}

fn is_beyond(m: u64, w: u64) -> bool {
    m < 64 && w >> m != 0
}

fn shared_parity(a: u64, b: u64) -> u64 {
    u64::from((a & b).count_ones() & 1)
}

/// The XOR of the words whose bit in `marks` is 1, from one such bit to the next.
fn xor_marked(words: &[u64], marks: u64) -> u64 {
    let mut left = marks & low_mask(words.len());
    let mut sum = 0;
    while left != 0 {
        sum ^= words[left.trailing_zeros() as usize];
        left &= left - 1;
    }
    sum
}

/// The XOR of the powers whose bit in w is 1.
fn from_powers(powers: &[u64], w: u64) -> u64 {
    xor_marked(powers, w)
}

/// The h entries behind the first h of a table: each of these with the word w XORed in.
fn double_entries(table: &mut [u64], h: usize, w: u64) {
    let (made, next) = table.split_at_mut(h);
    for (to, from) in next.iter_mut().zip(made) {
        *to = *from ^ w;
    }
}

/// The XORs of the words of each byte of 64 marks: word i doubles the entries that its byte has so far.
fn xor_table(words: &[u64]) -> [u64; 2048] {
    let mut table = [0; 2048];
    for i in 0..64 {
        let w = words.get(i).copied().unwrap_or(0);
        double_entries(&mut table[256 * (i / 8)..], 1 << (i % 8), w);
    }
    table
}

/// The XOR of the table's entries for the eight bytes of a word.
fn looked_up(table: &[u64; 2048], x: u64) -> u64 {
    let entries = table.chunks_exact(256).zip(x.to_le_bytes());
    entries.fold(0, |all, (entry, byte)| all ^ entry[usize::from(byte)])
}

/// The parities of the words with y as one word, bit i for word i.
fn word_parities(words: &[u64], y: u64) -> u64 {
    words
        .iter()
        .rev()
        .fold(0, |bits, &w| 2 * bits + shared_parity(w, y))
}

fn is_bad_taps(m: u64, taps: u64) -> bool {
    taps & 1 == 0 || is_beyond(m, taps)
}

fn bad_inversion(m: u64, inversion: u64) -> bool {
    is_beyond(m, inversion)
}

/// Number 6, the words looked at together: one has a bit at or above m exactly when the OR of all has.
fn is_bad_spread(m: u64, spread: impl Iterator<Item = u64>) -> bool {
    let look = |(seen, none), w| (seen | w, none | (w == 0));
    let (seen, none) = spread.fold((0, false), look);
    none | is_beyond(m, seen)
}

/// Whether a row of n chains has a spare bit set, by one byte.
fn has_spare_bit(n: usize, row: &[u8]) -> bool {
    n % 8 != 0 && row[n / 8] >> (n % 8) != 0
}

/// .. one of some rows; rows of whole bytes have none.
fn has_spare_row(n: usize, rows: &[u8]) -> bool {
    n % 8 != 0
        && rows
            .chunks_exact(n.div_ceil(8))
            .any(|row| has_spare_bit(n, row))
}
