//! The fastest that we know for each call in scalar Rust, for plain x86-64 as the library is, and bound to none of the library's ways. What
//! takes no time worth saving, or where nothing faster is known, is that of `same`.

pub mod basis;
pub mod clocks;
pub mod columns;
pub mod cutting;
pub mod even;
pub mod plan;
pub mod response;
pub mod set;
#[cfg(test)]
mod tests;
pub mod words;

/// The count of two bytes at place `at`, which are there.
fn count(bytes: &[u8], at: usize) -> usize {
    usize::from(u16::from_le_bytes([bytes[at], bytes[at + 1]]))
}

/// The word of the first eight bytes, which are there.
fn word(bytes: &[u8]) -> u64 {
    u64::from_le_bytes(bytes[..8].try_into().unwrap())
}

fn beyond(m: u64, w: u64) -> bool {
    m < 64 && w >> m != 0
}

/// Whether a word is 0 or has a bit at or above m. All words are looked at, many at once: a word that isn't 0, or its negative, has the
/// highest bit.
fn has_bad_word(m: u64, words: impl Iterator<Item = u64>) -> bool {
    let all = |(any, both): (u64, u64), w: u64| (any | w, both & (w | w.wrapping_neg()));
    let (any, both) = words.fold((0, u64::MAX), all);
    both >> 63 == 0 || beyond(m, any)
}

/// A row as four words; chains that aren't there count as 0.
fn row_words(row: &[u8]) -> [u64; 4] {
    match <&[u8; 32]>::try_from(row) {
        Ok(row) => words_of(row),
        Err(_) => {
            let mut longer = [0; 32];
            longer[..row.len()].copy_from_slice(row);
            words_of(&longer)
        }
    }
}

fn words_of(row: &[u8; 32]) -> [u64; 4] {
    std::array::from_fn(|i| word(&row[8 * i..]))
}
