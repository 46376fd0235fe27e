//! The plan file, and judging.

use super::*;

/// Whether a plan for m can't have q words.
pub fn is_bad_word_count(m: u64, q: usize) -> bool {
    q == 0 || q as u64 > m
}

/// Whether the word w can be the next one of a reduced list, where `seen` holds the earlier words' highest bits.
fn is_next(seen: u64, w: u64) -> bool {
    seen < w && seen & w == 0
}

/// The bits `seen`, with w's highest bit.
fn with_highest(seen: u64, w: u64) -> u64 {
    seen | 1 << (63 - w.leading_zeros())
}

/// Whether the words are a reduced list for m, by one pass. They ascend, so only behind the last is it asked whether one goes beyond m.
pub fn is_reduced(m: u64, words: impl Iterator<Item = u64>) -> bool {
    let mut seen = 0;
    for w in words {
        if !is_next(seen, w) {
            return false;
        }
        seen = with_highest(seen, w);
    }
    !is_beyond(m, seen)
}

/// m, and the words where they stand; none where the plan ends before its last word.
fn words_in(plan: &[u8]) -> Option<(u64, impl ExactSizeIterator<Item = u64> + '_)> {
    if plan.len() < 4 {
        return None;
    }
    let words = plan.get(4..4 + 8 * count(plan, 2))?.chunks_exact(8);
    Some((count(plan, 0) as u64, words.map(|b| word(b, 0))))
}

/// Number 21, for a plan that doesn't end before its last word.
fn is_bad_word_list(plan: &[u8]) -> bool {
    match words_in(plan) {
        Some((m, words)) => !is_reduced(m, words),
        None => true,
    }
}

/// The expected bits of a plan of q words that has the exact length: they are the highest of its last 8 bytes.
fn expected_bits(plan: &[u8], q: usize) -> u64 {
    let others = 8 - q.div_ceil(8);
    word(plan, plan.len() - 8) >> (8 * others)
}

/// Numbers 19 to 22, where `bad` says whether 21 applies: m, q and the expected bits.
fn check_listed(plan: &[u8], bad: bool) -> Result<(u64, usize, u64), u64> {
    if plan.len() < 2 || !(1..=64).contains(&count(plan, 0)) {
        return Err(19);
    }
    let m = count(plan, 0) as u64;
    if plan.len() < 4 {
        return Err(20);
    }
    let q = count(plan, 2);
    if is_bad_word_count(m, q) || plan.len() < 4 + 8 * q {
        return Err(20);
    }
    if bad {
        return Err(21);
    }
    let at = 6 + 8 * q;
    if plan.len() != at + q.div_ceil(8) || count(plan, 4 + 8 * q) != q {
        return Err(22);
    }
    let expected = expected_bits(plan, q);
    if is_beyond(q as u64, expected) {
        return Err(22);
    }
    Ok((m, q, expected))
}

fn check_plan(plan: &[u8]) -> Result<(u64, usize, u64), u64> {
    check_listed(plan, is_bad_word_list(plan))
}

/// One pass over at most 64 words: their highest bits, and their parities with a signature; none where they aren't a reduced list.
fn pass_words(words: impl Iterator<Item = u64>, signature: u64) -> Option<(u64, u64)> {
    let (mut tops, mut bits) = (0, 0);
    for (i, w) in words.enumerate() {
        if !is_next(tops, w) {
            return None;
        }
        tops = with_highest(tops, w);
        bits |= shared_parity(w, signature) << i;
    }
    Some((tops, bits))
}

/// The cancelled bits, of a plan of at most 64 words that doesn't end before its last one; none where they aren't a reduced list.
fn find_bits(plan: &[u8], signature: u64) -> Option<u64> {
    let (m, words) = words_in(plan)?;
    if words.len() > 64 {
        return None;
    }
    let (tops, bits) = pass_words(words, signature)?;
    (!is_beyond(m, tops)).then_some(bits)
}

/// Judging: the cancelled bits and the first word that disagrees.
pub fn judge(plan: &[u8], signature: u64) -> Result<(u64, Option<u32>), u64> {
    let found = find_bits(plan, signature);
    let (m, _, expected) = check_listed(plan, found.is_none())?;
    let cancelled = found.unwrap_or(0);
    if is_beyond(m, signature) {
        return Err(23);
    }
    let differing = cancelled ^ expected;
    let first = (differing != 0).then(|| differing.trailing_zeros());
    Ok((cancelled, first))
}

/// The plan reader: m, q and the expected bits.
pub fn read_plan(plan: &[u8], words: &mut [u64]) -> Result<[u64; 3], u64> {
    let (m, q, expected) = check_plan(plan)?;
    if words.len() < q {
        return Err(18);
    }
    for (to, from) in words.iter_mut().zip(plan[4..4 + 8 * q].chunks_exact(8)) {
        *to = word(from, 0);
    }
    Ok([m, q as u64, expected])
}

/// The plan writer.
pub fn write_plan(m: u64, words: &[u64], expected: u64, out: &mut [u8]) -> Result<usize, u64> {
    if !(1..=64).contains(&m) {
        return Err(19);
    }
    let q = words.len();
    if is_bad_word_count(m, q) {
        return Err(20);
    }
    if !is_reduced(m, words.iter().copied()) {
        return Err(21);
    }
    if is_beyond(q as u64, expected) {
        return Err(22);
    }
    let at = 6 + 8 * q;
    let length = at + q.div_ceil(8);
    if out.len() < length {
        return Err(24);
    }
    out[..2].copy_from_slice(&(m as u16).to_le_bytes());
    out[2..4].copy_from_slice(&(q as u16).to_le_bytes());
    for (to, w) in out[4..at - 2].chunks_exact_mut(8).zip(words) {
        to.copy_from_slice(&w.to_le_bytes());
    }
    out[at - 2..at].copy_from_slice(&(q as u16).to_le_bytes());
    for (i, b) in out[at..length].iter_mut().enumerate() {
        *b = (expected >> (8 * i)) as u8;
    }
    Ok(length)
}
