//! Plan files and judging.

use super::elimination::is_reduced;
use super::layout::*;
use super::*;

#[derive(Clone, Debug, PartialEq)]
pub struct Plan {
    pub m: u64,
    pub words: Vec<u64>,
    pub expected: u64,
}

/// Whether there can't be so many words for m: none, or more than m.
fn bad_word_count(m: u64, q: u64) -> bool {
    q == 0 || q > m
}

/// Numbers 20 and 21: a list of words handed over for m.
pub fn take_words(m: u64, words: &[u64]) -> Reply<()> {
    refuse_if(bad_word_count(m, words.len() as u64), 20)?;
    refuse_if(!is_reduced(m as usize, words), 21)?;
    Ok(())
}

/// For each word the parity of the bits it shares with a signature: bit i for word i.
pub fn parities(words: &[u64], signature: u64) -> u64 {
    let signature = bits_of(signature, 64);
    let odd = |&w: &u64| odd_with(&bits_of(w, 64), &signature);
    word_of(&words.iter().map(odd).collect::<Bits>())
}

/// Numbers 19 to 22.
pub fn read_plan(bytes: &[u8]) -> Reply<Plan> {
    let m = number_at(bytes, WIDTH_AT, COUNT).ok_or(19u64)?;
    refuse_if(m < 1 || m > 64, 19)?;
    let q = number_at(bytes, PLAN_COUNT_AT, COUNT).ok_or(20u64)?;
    refuse_if(bad_word_count(m, q), 20)?;
    let q = q as usize;
    let mut words = Vec::new();
    for i in 0..q {
        words.push(number_at(bytes, word_at(i), WORD).ok_or(20u64)?);
    }
    refuse_if(!is_reduced(m as usize, &words), 21)?;
    let again = number_at(bytes, second_count_at(q), COUNT).ok_or(22u64)?;
    refuse_if(again != q as u64, 22)?;
    refuse_if(bytes.len() != plan_length(q), 22)?;
    let bits = &bytes[expected_at(q)..];
    refuse_if(has_spare(bits, q), 22)?;
    let expected = (0..q)
        .filter(|&i| row_bit(bits, i))
        .map(|i| 1u64 << i)
        .sum();
    Ok(Plan { m, words, expected })
}

/// The reader with a lent list of `room` places: 18 comes after 22.
pub fn read_plan_into(bytes: &[u8], room: usize) -> Reply<Plan> {
    let plan = read_plan(bytes)?;
    refuse_if(room < plan.words.len(), 18)?;
    Ok(plan)
}

pub fn write_plan(plan: &Plan, room: usize) -> Reply<Vec<u8>> {
    let Plan { m, words, expected } = plan;
    refuse_if(*m < 1 || *m > 64, 19)?;
    take_words(*m, words)?;
    let q = words.len();
    refuse_if(beyond(*expected, q), 22)?;
    let mut file = Vec::new();
    put_number(&mut file, *m, COUNT);
    put_number(&mut file, q as u64, COUNT);
    for &w in words {
        put_number(&mut file, w, WORD);
    }
    put_number(&mut file, q as u64, COUNT);
    let mut bits = vec![0u8; row_bytes(q)];
    for i in 0..q {
        if expected >> i & 1 == 1 {
            bits[i / 8] |= 1 << (i % 8);
        }
    }
    file.extend(bits);
    refuse_if(room < file.len(), 24)?;
    Ok(file)
}

#[derive(Clone, Copy, Debug, PartialEq)]
pub struct Judged {
    pub cancelled: u64,
    /// None passes; Some carries the index of the first word that disagrees.
    pub fails_at: Option<u64>,
}

pub fn judge(bytes: &[u8], signature: u64) -> Reply<Judged> {
    let plan = read_plan(bytes)?;
    refuse_if(beyond(signature, plan.m as usize), 23)?;
    let cancelled = parities(&plan.words, signature);
    let fails_at = (0..plan.words.len())
        .find(|&i| cancelled >> i & 1 != plan.expected >> i & 1)
        .map(|i| i as u64);
    Ok(Judged {
        cancelled,
        fails_at,
    })
}
