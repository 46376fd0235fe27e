//! Whether columns change the words: those that are even with all of them don't. A few words are taken one by one, more by a table.

use super::basis::Basis;

/// A test of columns against the words that a basis leaves.
pub enum Even {
    Words([u64; 64], usize),
    Table(Table),
}

/// For each byte of a column which words' parities it changes, each parity at the word's highest bit. Such a bit stands in no other word, so it
/// is its own entry and isn't looked up: where only such bits stand above some byte, the table ends there.
pub struct Table {
    tops: u64,
    bytes: Vec<[u64; 256]>,
}

/// How many columns are tested together.
const BLOCK: usize = 64;

/// Up to so many words are taken one by one.
const FEW: usize = 3;

impl Even {
    /// The test for m bits; so many columns are to come.
    pub fn of(basis: &Basis, m: u64, columns: usize) -> Even {
        let mut words = [0; 64];
        let q = basis.words(m, &mut words);
        if q <= FEW || columns * q < 1_000 {
            return Even::Words(words, q);
        }
        Even::Table(Table::of(&words[..q]))
    }

    /// How many columns at the front are even with all words.
    pub fn run(&self, columns: &[u64]) -> usize {
        match self {
            Even::Words(words, q) => even_run(columns, |block| is_even(&words[..*q], block)),
            Even::Table(table) => match table.bytes.len() {
                0..=2 => table.run::<2>(columns),
                3 => table.run::<3>(columns),
                4 => table.run::<4>(columns),
                5 => table.run::<5>(columns),
                6 => table.run::<6>(columns),
                7 => table.run::<7>(columns),
                _ => table.run::<8>(columns),
            },
        }
    }
}

/// Block by block, and then column by column in the first that fails.
fn even_run(columns: &[u64], is_even: impl Fn(&[u64]) -> bool) -> usize {
    let blocks = columns.chunks(BLOCK);
    let first = blocks.take_while(|block| is_even(block)).count() * BLOCK;
    let Some(block) = columns.get(first..) else {
        return columns.len();
    };
    first + block.chunks(1).take_while(|one| is_even(one)).count()
}

/// Whether each column is even with each word; all are looked at.
fn is_even(words: &[u64], columns: &[u64]) -> bool {
    match columns.try_into() {
        Ok(block) => words.iter().all(|w| is_block_even(*w, block)),
        Err(_) => {
            let odd = |w: &u64| columns.iter().fold(0, |a, c| a | (w & c).count_ones() & 1);
            words.iter().fold(0, |a, w| a | odd(w)) == 0
        }
    }
}

/// Whether each of 64 columns is even with a word. What it has in common with each is folded to half its width, and two of them put into
/// one word, again and again, until it is one bit for each.
fn is_block_even(w: u64, columns: &[u64; BLOCK]) -> bool {
    let both = |c: &u64| ((w & c) as u32) ^ ((w & c) >> 32) as u32;
    let mut folded: [u32; 64] = std::array::from_fn(|i| both(&columns[i]));
    fold_pairs::<32>(&mut folded, 16, 0xffff);
    fold_pairs::<16>(&mut folded, 8, 0xff00ff);
    fold_pairs::<8>(&mut folded, 4, 0x0f0f0f0f);
    fold_pairs::<4>(&mut folded, 2, 0x33333333);
    let last = folded[..4].iter().map(|x| (x ^ x >> 1) & 0x55555555);
    last.fold(0, |a, x| a | x) == 0
}

/// Each of the first N together with that N places later: the one folded to the lower half of each field, the other to the upper.
fn fold_pairs<const N: usize>(folded: &mut [u32; 64], shift: u32, mask: u32) {
    for i in 0..N {
        let (a, b) = (folded[i], folded[i + N]);
        folded[i] = (a ^ a >> shift) & mask | (b ^ b << shift) & !mask;
    }
}

impl Table {
    fn of(words: &[u64]) -> Table {
        let tops = words.iter().fold(0u64, |a, w| a | 1 << w.ilog2());
        let low = 64 - (!tops).leading_zeros() as usize;
        let bits = parities_of_bits(words);
        let mut bytes = vec![[0; 256]; low.div_ceil(8).max(2)];
        for (byte, bits) in bytes.iter_mut().zip(bits.chunks_exact(8)) {
            for (k, bit) in bits.iter().enumerate() {
                let (done, next) = byte.split_at_mut(1 << k);
                for (to, from) in next.iter_mut().zip(done) {
                    *to = *from ^ bit;
                }
            }
        }
        Table { tops, bytes }
    }

    /// How many columns at the front are even with all words; the table has N bytes.
    fn run<const N: usize>(&self, columns: &[u64]) -> usize {
        let table: &[[u64; 256]; N] = self.bytes[..].try_into().expect("N bytes");
        let above = if N < 8 { u64::MAX << (8 * N) } else { 0 };
        let tops = self.tops & above;
        let odd = |c: u64| {
            let looked_up = (0..N).map(|i| table[i][(c >> (8 * i)) as usize % 256]);
            looked_up.fold(c & tops, |a, entry| a ^ entry)
        };
        even_run(columns, |block| {
            block.iter().fold(0, |a, c| a | odd(*c)) == 0
        })
    }
}

/// For each bit the highest bits of the words that have it.
fn parities_of_bits(words: &[u64]) -> [u64; 64] {
    let mut turned = [0; 64];
    for w in words {
        turned[w.ilog2() as usize] = *w;
    }
    super::basis::transpose(&mut turned);
    turned
}
