//! The plan file, and judging.

use super::*;

/// Whether the words are a reduced list for m; all are looked at.
pub fn is_reduced(m: u64, words: impl Iterator<Item = u64>) -> bool {
    let (mut last, mut seen, mut good) = (0, 0, true);
    for w in words {
        good &= last < w && w & seen == 0;
        seen |= 1u64 << (w | 1).ilog2();
        last = w;
    }
    good && !beyond(m, last)
}

/// The expected bits, in as many bytes as they take.
fn expected_of(bytes: &[u8]) -> u64 {
    bytes.iter().rev().fold(0, |w, &b| w << 8 | u64::from(b))
}

/// m, q and the bytes of the words, with numbers 19 and 20.
fn read_head(plan: &[u8]) -> Result<(u64, usize, &[u8]), u64> {
    if plan.len() < 2 || !(1..=64).contains(&count(plan, 0)) {
        return Err(19);
    }
    let m = count(plan, 0);
    if plan.len() < 4 {
        return Err(20);
    }
    let q = count(plan, 2);
    if q == 0 || m < q || plan.len() < 4 + 8 * q {
        return Err(20);
    }
    Ok((m as u64, q, &plan[4..4 + 8 * q]))
}

/// The expected bits of a plan of q words, with number 22.
fn read_expected(plan: &[u8], q: usize) -> Result<u64, u64> {
    let at = 6 + 8 * q;
    if plan.len() != at + q.div_ceil(8) || count(plan, at - 2) != q {
        return Err(22);
    }
    let expected = expected_of(&plan[at..]);
    if beyond(q as u64, expected) {
        return Err(22);
    }
    Ok(expected)
}

/// Judging: the cancelled bits and the first word that disagrees. One pass looks at the words and cancels.
pub fn judge(plan: &[u8], signature: u64) -> Result<(u64, Option<u32>), u64> {
    let (m, q, words) = read_head(plan)?;
    let (mut last, mut seen, mut good, mut cancelled) = (0, 0, true, 0);
    for (i, w) in words.chunks_exact(8).map(word).enumerate() {
        good &= last < w && w & seen == 0;
        seen |= 1u64 << (w | 1).ilog2();
        last = w;
        cancelled |= u64::from((w & signature).count_ones() & 1) << (i % 64);
    }
    if !good || beyond(m, last) {
        return Err(21);
    }
    let expected = read_expected(plan, q)?;
    if beyond(m, signature) {
        return Err(23);
    }
    let differing = cancelled ^ expected;
    let first = (differing != 0).then(|| differing.trailing_zeros());
    Ok((cancelled, first))
}

/// The plan reader: m, q and the expected bits.
pub fn read_plan(plan: &[u8], words: &mut [u64]) -> Result<[u64; 3], u64> {
    let (m, q, from) = read_head(plan)?;
    if !is_reduced(m, from.chunks_exact(8).map(word)) {
        return Err(21);
    }
    let expected = read_expected(plan, q)?;
    let words = words.get_mut(..q).ok_or(18u64)?;
    for (w, from) in words.iter_mut().zip(from.chunks_exact(8)) {
        *w = word(from);
    }
    Ok([m, q as u64, expected])
}

/// The plan writer.
pub fn write_plan(m: u64, words: &[u64], expected: u64, out: &mut [u8]) -> Result<usize, u64> {
    if !(1..=64).contains(&m) {
        return Err(19);
    }
    let q = words.len();
    if q == 0 || m < q as u64 {
        return Err(20);
    }
    if !is_reduced(m, words.iter().copied()) {
        return Err(21);
    }
    if beyond(q as u64, expected) {
        return Err(22);
    }
    let (at, bytes) = (6 + 8 * q, q.div_ceil(8));
    let out = out.get_mut(..at + bytes).ok_or(24u64)?;
    out[..2].copy_from_slice(&(m as u16).to_le_bytes());
    out[2..4].copy_from_slice(&(q as u16).to_le_bytes());
    for (to, w) in out[4..at - 2].chunks_exact_mut(8).zip(words) {
        to.copy_from_slice(&w.to_le_bytes());
    }
    out[at - 2..at].copy_from_slice(&(q as u16).to_le_bytes());
    out[at..].copy_from_slice(&expected.to_le_bytes()[..bytes]);
    Ok(at + bytes)
}
