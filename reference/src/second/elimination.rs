//! The reduced list by elimination over rows, and by trying every combination at small widths.

use super::*;

/// Whether a combination shares an even number of bits with every column.
pub fn x_free(word: u64, columns: &[u64]) -> bool {
    columns
        .iter()
        .all(|&c| !odd_with(&bits_of(word, 64), &bits_of(c, 64)))
}

/// Independent rows so far: each in echelon form, with the bits whose rows it is the XOR of.
struct Rows {
    kept: Vec<(usize, Bits, Bits)>,
}

impl Rows {
    /// The row left after XORing kept rows in, and the bits that took part.
    fn reduce(&self, mut row: Bits, mut bits: Bits) -> (Bits, Bits) {
        for (pivot, other, from) in &self.kept {
            if row[*pivot] {
                xor_into(&mut row, other);
                xor_into(&mut bits, from);
            }
        }
        (row, bits)
    }
}

/// The words: a bit whose row over the columns is the XOR of earlier independent rows gives one word.
pub fn reduced_list(m: usize, columns: &[u64]) -> Vec<u64> {
    let mut rows = Rows { kept: Vec::new() };
    let mut words = Vec::new();
    for i in 0..m {
        let row: Bits = columns.iter().map(|c| c >> i & 1 == 1).collect();
        let mut bits = vec![false; m];
        bits[i] = true;
        let (left, taken) = rows.reduce(row, bits);
        match left.iter().position(|&b| b) {
            None => words.push(word_of(&taken)),
            Some(pivot) => rows.kept.push((pivot, left, taken)),
        }
    }
    words
}

/// The same by trying every combination: for each highest bit the X-free combination without the highest bits of others.
pub fn reduced_list_by_trial(m: usize, columns: &[u64]) -> Vec<u64> {
    let free: Vec<u64> = (1u64..1 << m).filter(|&w| x_free(w, columns)).collect();
    let top = |w: u64| (0..m).rev().find(|&i| w >> i & 1 == 1).unwrap();
    let tops: Vec<usize> = (0..m)
        .filter(|&i| free.iter().any(|&w| top(w) == i))
        .collect();
    tops.iter()
        .map(|&i| {
            *free
                .iter()
                .find(|&&w| top(w) == i && tops.iter().all(|&j| j == i || w >> j & 1 == 0))
                .unwrap()
        })
        .collect()
}

/// The count of columns independent of earlier ones.
pub fn rank(columns: &[u64]) -> u64 {
    let mut basis: Vec<Bits> = Vec::new();
    let mut count = 0;
    for &c in columns {
        let mut left = bits_of(c, 64);
        for b in &basis {
            let lead = b.iter().position(|&x| x).unwrap();
            if left[lead] {
                xor_into(&mut left, b);
            }
        }
        if left.iter().any(|&x| x) {
            basis.push(left);
            count += 1;
        }
    }
    count
}

/// The elimination call: rank and words, or the number, for a lent list of `room` places.
pub fn eliminate(m: u64, columns: &[u64], room: usize) -> Reply<(u64, Vec<u64>)> {
    refuse_if(m < 1 || m > 64, 2)?;
    let width = m as usize;
    refuse_if(columns.iter().any(|&c| beyond(c, width)), 15)?;
    let words = reduced_list(width, columns);
    refuse_if(words.is_empty(), 17)?;
    refuse_if(room < words.len(), 18)?;
    Ok((rank(columns), words))
}

/// Whether a list is a reduced list for m.
pub fn is_reduced(m: usize, words: &[u64]) -> bool {
    let top = |w: u64| (0..64).rev().find(|&i| w >> i & 1 == 1);
    words.iter().all(|&w| w != 0 && !beyond(w, m))
        && words.windows(2).all(|p| p[0] < p[1])
        && (0..words.len()).all(|i| {
            (0..words.len()).all(|j| i == j || words[j] >> top(words[i]).unwrap() & 1 == 0)
        })
}
