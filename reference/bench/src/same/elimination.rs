//! The elimination: it keeps the word list itself, takes the first columns by a basis of them, and passes over columns that change nothing by a
//! table of parities of bytes.

use super::*;

/// Takes a column into the words; how many are left.
fn add_column(words: &mut [u64], column: u64) -> usize {
    let Some(at) = words.iter().position(|&w| shared_parity(w, column) == 1) else {
        return words.len();
    };
    let pivot = words[at];
    for i in at + 1..words.len() {
        let w = words[i];
        words[i - 1] = if shared_parity(w, column) == 1 {
            w ^ pivot
        } else {
            w
        };
    }
    words.len() - 1
}

/// XORs x into the words whose bit in `marks` is 1, from one such bit to the next.
fn xor_into(words: &mut [u64], marks: u64, x: u64) {
    let mut left = marks & low_mask(words.len());
    while left != 0 {
        words[left.trailing_zeros() as usize] ^= x;
        left &= left - 1;
    }
}

/// The words' rows: for each bit that bit of every word, bit k for word k.
fn turn(words: &[u64]) -> [u64; 64] {
    let mut rows = [0; 64];
    for (k, w) in words.iter().enumerate() {
        xor_into(&mut rows, *w, 1 << k);
    }
    rows
}

/// What is left of a column without its dead bits.
fn reduced(basis: &[u64; 64], dead: u64, column: u64) -> u64 {
    let mut rest = column;
    while rest & dead != 0 {
        rest ^= basis[(rest & dead).trailing_zeros() as usize];
    }
    rest
}

/// The columns one after the other, until every bit is dead: the bits that are.
pub fn take_columns(basis: &mut [u64; 64], mut dead: u64, columns: &[u64]) -> u64 {
    for column in columns {
        if dead == u64::MAX {
            break;
        }
        let rest = reduced(basis, dead, *column);
        if rest != 0 {
            let k = rest.trailing_zeros();
            basis[k as usize] = rest;
            dead ^= 1 << k;
        }
    }
    dead
}

/// The words of the slots, made from the basis; in the dead ones stands anything.
fn slot_words(basis: &mut [u64; 64], dead: u64) -> [u64; 64] {
    let mut words = unit_words();
    for d in (0..64).rev() {
        if dead >> d & 1 != 0 {
            let bit = 1 << d;
            let row = basis[d] ^ xor_marked(basis, basis[d] & (dead ^ bit));
            basis[d] = row;
            xor_into(&mut words, row, bit);
        }
    }
    words
}

/// Puts each word into the slot of its highest bit: the bits that are dead then; all of them where the highest bits don't ascend.
fn spread_words(words: &[u64], slots: &mut [u64; 64]) -> u64 {
    let mut dead = u64::MAX;
    let mut next = 0;
    for w in words {
        match w.checked_ilog2() {
            Some(top) if next <= top => {
                slots[top as usize] = *w;
                dead ^= 1 << top;
                next = top + 1;
            }
            _ => return u64::MAX,
        }
    }
    dead
}

/// Whether, of the bits that aren't dead, the word of each slot has its own alone, and that of a dead slot none.
fn has_own_bits(slots: &[u64; 64], dead: u64) -> bool {
    let own = |(i, w): (usize, &u64)| w & !dead == !dead & 1 << i;
    slots.iter().enumerate().all(own)
}

/// The basis of the slots' words: their dead bits, turned.
fn turn_in(slots: &[u64; 64], dead: u64) -> [u64; 64] {
    let mut basis = unit_words();
    for (i, w) in slots.iter().enumerate() {
        xor_into(&mut basis, w & dead, 1 << i);
    }
    basis
}

/// The words of the slots that aren't dead over the front of the list; how many they are.
fn keep_alive(slots: &[u64; 64], dead: u64, words: &mut [u64]) -> usize {
    let mut at = 0;
    for (k, w) in slots.iter().enumerate() {
        let Some(to) = words.get_mut(at) else {
            break;
        };
        *to = *w;
        at += 1 - (dead >> k & 1) as usize;
    }
    at
}

/// How many of the columns, from the first on, are taken by a basis.
fn taken_count(words: usize, columns: usize) -> usize {
    if words < 24 {
        0
    } else if 128 <= columns {
        128
    } else if words * columns < 700 {
        0
    } else {
        columns
    }
}

/// The first columns by a basis, where it pays and the words allow it: how many were taken, and how many words are left.
fn begin(words: &mut [u64], columns: &[u64]) -> (usize, usize) {
    let count = taken_count(words.len(), columns.len());
    let mut slots = [0; 64];
    if count == 0 {
        return (0, words.len());
    }
    let dead = spread_words(words, &mut slots);
    if dead == u64::MAX || !has_own_bits(&slots, dead) {
        return (0, words.len());
    }
    let mut basis = turn_in(&slots, dead);
    let gone = take_columns(&mut basis, dead, &columns[..count]);
    if gone == u64::MAX {
        return (count, 0);
    }
    let made = slot_words(&mut basis, gone);
    (count, keep_alive(&made, gone, words))
}

/// The parities of every byte of a column with the words: bit i doubles the entries that its byte has so far.
pub fn byte_table(words: &[u64]) -> [u64; 2048] {
    xor_table(&turn(words))
}

/// How many of the columns are even with all the words whose table it is, up to the first that isn't.
pub fn skip_by_table(table: &[u64; 2048], columns: &[u64]) -> usize {
    let first = columns.iter().position(|&c| looked_up(table, c) != 0);
    first.unwrap_or(columns.len())
}

/// .. whose table is made for it.
pub fn skip_even(words: &[u64], columns: &[u64]) -> usize {
    skip_by_table(&byte_table(words), columns)
}

/// Whether all columns are even with every word; all are looked at.
fn are_even(words: &[u64], columns: &[u64]) -> bool {
    let odd = |w: &u64| columns.iter().fold(0, |odd, &c| odd | shared_parity(c, *w));
    words.iter().all(|w| odd(w) == 0)
}

/// .. without a table: by blocks of 64, and then one by one.
pub fn skip_plainly(words: &[u64], columns: &[u64]) -> usize {
    let blocks = columns.chunks_exact(64);
    let even = 64 * blocks.take_while(|block| are_even(words, block)).count();
    let is_even = |column: &u64| words.iter().all(|&w| shared_parity(*column, w) == 0);
    even + columns[even..].iter().take_while(|c| is_even(c)).count()
}

/// Whether for so many columns a table of so many words takes less time than the parities by themselves.
pub fn pays(words: usize, columns: usize) -> bool {
    4 <= words && 24 <= columns / 64 * words
}

/// The place of the column to take next: where the last column changed nothing, those behind it that change nothing either are passed over.
fn next_place(words: &[u64], before: usize, columns: &[u64], from: usize) -> usize {
    if words.len() != before || columns.len() <= from {
        return from;
    }
    let left = &columns[from..];
    from + if pays(words.len(), left.len()) {
        skip_even(words, left)
    } else {
        skip_plainly(words, left)
    }
}

/// How many words are left, at the front of `held`, with a parity for each word.
fn reduce_plainly(held: &mut [u64], columns: &[u64]) -> usize {
    let mut left = held.len();
    let mut i = 0;
    while i < columns.len() {
        if left == 0 {
            return 0;
        }
        let before = left;
        left = add_column(&mut held[..left], columns[i]);
        i = next_place(&held[..left], before, columns, i + 1);
    }
    left
}

/// How many words are left, at the front of `held`: the first columns by a basis where that pays.
pub fn reduce(held: &mut [u64], columns: &[u64]) -> usize {
    let (count, left) = begin(held, columns);
    reduce_plainly(&mut held[..left], &columns[count..])
}

/// The words of the 64 single bits.
pub fn unit_words() -> [u64; 64] {
    std::array::from_fn(|i| 1 << i)
}

/// The words over the front of the list, and how many there are.
pub fn put_words(held: &[u64], words: &mut [u64]) -> Result<usize, u64> {
    let q = held.len();
    if q == 0 {
        return Err(17);
    }
    if words.len() < q {
        return Err(18);
    }
    words[..q].copy_from_slice(held);
    Ok(q)
}

/// The elimination: the words over the front of the list, and the rank and q.
pub fn eliminate(m: u64, columns: &[u64], words: &mut [u64]) -> Result<(u64, usize), u64> {
    if !(1..=64).contains(&m) {
        return Err(2);
    }
    if m < 64 && is_beyond(m, columns.iter().fold(0, |a, c| a | c)) {
        return Err(15);
    }
    let mut held = unit_words();
    let left = reduce(&mut held[..m as usize], columns);
    let q = put_words(&held[..left], words)?;
    Ok((m - q as u64, q))
}
