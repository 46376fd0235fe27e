//! Where things stand in set, plan and record files, and how long the files are: document 01, "Files", and document 02, Nos. 1 and 7.

/// Bytes of a count and of a word.
pub const COUNT: usize = 2;
pub const WORD: usize = 8;

/// In a set: m stands first, then the tap word, the inversion word, n, and the spread words.
pub const WIDTH_AT: usize = 0;
pub const TAPS_AT: usize = WIDTH_AT + COUNT;
pub const INVERSION_AT: usize = TAPS_AT + WORD;
pub const CHAINS_AT: usize = INVERSION_AT + WORD;
pub const SPREAD_AT: usize = CHAINS_AT + COUNT;

/// In a plan: m stands first, then q and the words.
pub const PLAN_COUNT_AT: usize = WIDTH_AT + COUNT;
pub const WORDS_AT: usize = PLAN_COUNT_AT + COUNT;

/// Bytes of a row of n chains: n ÷ 8 rounded up.
pub fn row_bytes(n: usize) -> usize {
    let mut bytes = 0;
    while bytes * 8 < n {
        bytes += 1;
    }
    bytes
}

pub fn spread_word_at(chain: usize) -> usize {
    SPREAD_AT + WORD * chain
}

/// The place of s, behind the spread words.
pub fn slices_at(n: usize) -> usize {
    spread_word_at(n)
}

/// The place of slice t's value row; its mark row stands behind it.
pub fn value_row_at(n: usize, t: usize) -> usize {
    slices_at(n) + COUNT + 2 * row_bytes(n) * t
}

pub fn mark_row_at(n: usize, t: usize) -> usize {
    value_row_at(n, t) + row_bytes(n)
}

/// Bytes of an entry: "slice, chain and symbol number (2 bytes each) and a byte".
pub const TIE: usize = 3 * COUNT + 1;

/// The most entries that a set has.
pub const TIES_MOST: usize = 256;

/// The place of the count of ties, behind the slices.
pub fn tie_count_at(n: usize, s: usize) -> usize {
    value_row_at(n, s)
}

/// The place of entry i.
pub fn tie_at(n: usize, s: usize, i: usize) -> usize {
    tie_count_at(n, s) + COUNT + TIE * i
}

/// The bytes of a set with so many ties.
pub fn set_length(n: usize, s: usize, ties: usize) -> usize {
    tie_at(n, s, ties)
}

pub fn record_length(n: usize, s: usize) -> usize {
    row_bytes(n) * s
}

pub fn word_at(i: usize) -> usize {
    WORDS_AT + WORD * i
}

/// The place of the second q, behind the words.
pub fn second_count_at(q: usize) -> usize {
    word_at(q)
}

/// The place of the expected bits.
pub fn expected_at(q: usize) -> usize {
    second_count_at(q) + COUNT
}

pub fn plan_length(q: usize) -> usize {
    expected_at(q) + row_bytes(q)
}
