//! What the inversion word changes and what it doesn't, on random sets: signatures and expected bits go by it at every clock,
//! columns, ranks and words not at all.

use reference::both::Both;
use reference::random::*;
use reference::second::layout::{record_length, row_bytes};
use reference::second::planning::WORKING_MOST;
use reference::second::set::Content;

/// A content with its chains, its slices, and the file of it.
fn drawn(r: &mut Random, largest_m: usize) -> (Content, usize, usize, Vec<u8>) {
    let c = small_content(r, largest_m, 12, 6);
    let (n, s, file) = (c.spread.len(), c.s as usize, file_of(&c));
    (c, n, s, file)
}

fn inverted(content: &Content, inversion: u64) -> Content {
    Content {
        inversion,
        ..content.clone()
    }
}

/// The same register and chains with every cell unknown and free.
fn all_unknown(content: &Content) -> Content {
    let n = content.spread.len();
    let mut row = vec![0u8; row_bytes(n)];
    for c in 0..n {
        row[c / 8] |= 1 << (c % 8);
    }
    Content {
        values: vec![0; content.values.len()],
        marks: row.repeat(content.s as usize),
        ties: vec![],
        ..content.clone()
    }
}

/// Words that invert something: the first input, the last one, and all.
fn some_inversions(m: u64) -> [u64; 3] {
    [1, 1 << (m - 1), u64::MAX >> (64 - m)]
}

/// Whether a content of this many slices has a signature that its inversion word changes and shifts.
fn inverts(content: &Content) -> bool {
    content.inversion != 0 && content.s > 1
}

#[test]
fn flipping_a_cell_xors_the_signature_with_the_cells_column() {
    let mut both = Both::new();
    let mut inverting = 0;
    for seed in 130_000..130_600 {
        let mut r = Random::new(seed);
        both.at = format!("seed {seed}");
        let (c, n, s, file) = drawn(&mut r, 64);
        let columns = both
            .list_columns(&file_of(&all_unknown(&c)), n * s)
            .expect("room for every cell");
        let mut record = record(&mut r, n, s);
        let mut before = both.sign(&file, &record).expect("a record");
        for (cell, column) in columns.iter().enumerate() {
            let (t, chain) = (cell / n, cell % n);
            record[row_bytes(n) * t + chain / 8] ^= 1 << (chain % 8);
            let after = both.sign(&file, &record).expect("a record");
            assert_eq!(before ^ after, *column, "{}, cell {cell}", both.at);
            before = after;
        }
        inverting += usize::from(inverts(&c));
    }
    assert!(inverting > 250, "{inverting} sets that invert are too few");
}

#[test]
fn columns_and_words_are_the_same_under_every_inversion() {
    let mut both = Both::new();
    for seed in 131_000..131_500 {
        let mut r = Random::new(seed);
        let (c, ..) = drawn(&mut r, 24);
        let symbols = symbols_of(&c);
        for room in [64, r.below(24)] {
            let mut made = |inversion: u64| {
                both.at = format!("seed {seed}, inversion {inversion}, {room} places");
                let set = file_of(&inverted(&c, inversion));
                let columns = both.list_columns(&set, symbols);
                (
                    columns,
                    both.plan(&set, WORKING_MOST, room).map(|p| p.words),
                )
            };
            let plain = made(0);
            for inversion in some_inversions(c.m) {
                assert_eq!(made(inversion), plain, "seed {seed}, inversion {inversion}");
            }
        }
    }
    for number in [0, 17, 18] {
        let seen = both.seen("plan", number);
        assert!(seen > 400, "{seen} plans gave {number}");
    }
}

#[test]
fn signatures_and_expected_bits_move_by_the_signature_of_the_response_of_zeros() {
    let mut both = Both::new();
    let (mut moved, mut stayed) = (0, 0);
    for seed in 132_000..133_000 {
        let mut r = Random::new(seed);
        both.at = format!("seed {seed}");
        let (c, n, s, file) = drawn(&mut r, 64);
        let plain = file_of(&inverted(&c, 0));
        let zeros = vec![0; record_length(n, s)];
        let shift = both.sign(&file, &zeros).expect("a record");
        assert_eq!(both.sign(&plain, &zeros), Ok(0), "{}", both.at);
        let record = record(&mut r, n, s);
        let with = both.sign(&file, &record).expect("a record");
        let without = both.sign(&plain, &record).expect("a record");
        assert_eq!(with ^ without, shift, "{}", both.at);
        let Ok(plan) = both.plan(&file, WORKING_MOST, 64) else {
            continue;
        };
        let other = both.plan(&plain, WORKING_MOST, 64).expect("the same words");
        for (i, word) in plan.words.iter().enumerate() {
            let moves = (plan.expected ^ other.expected) >> i & 1 == 1;
            let odd = (word & shift).count_ones() % 2 == 1;
            assert_eq!(moves, odd, "{}, word {i}", both.at);
            moved += usize::from(moves);
            stayed += usize::from(!moves);
        }
    }
    assert!(
        moved > 4_000 && stayed > 4_000,
        "{moved} expected bits are others, {stayed} the same"
    );
}

#[test]
fn a_signature_is_the_state_after_one_clock_for_each_slice() {
    let mut both = Both::new();
    let mut inverting = 0;
    for seed in 133_000..134_000 {
        let mut r = Random::new(seed);
        both.at = format!("seed {seed}");
        let (c, n, s, file) = drawn(&mut r, 64);
        let record = record(&mut r, n, s);
        let rows = record.chunks(row_bytes(n));
        let state = rows.fold(0, |state, row| {
            both.clock(c.m, c.taps, c.inversion, state, &c.spread, row)
                .expect("a good row")
        });
        assert_eq!(both.sign(&file, &record), Ok(state), "{}", both.at);
        inverting += usize::from(inverts(&c));
    }
    assert!(inverting > 400, "{inverting} sets that invert are too few");
}

#[test]
fn a_response_without_slices_has_signature_0_under_every_inversion() {
    let mut both = Both::new();
    for m in 1..=64 {
        let mut r = Random::new(134_000 + m);
        let plain = content(&mut r, m as usize, 3, 0, 0, 1);
        for inversion in some_inversions(m) {
            both.at = format!("m {m}, inversion {inversion:#x}");
            let set = file_of(&inverted(&plain, inversion));
            assert_eq!(both.sign(&set, &[]), Ok(0), "{}", both.at);
            let plan = both.plan(&set, WORKING_MOST, 64).expect("m words");
            let bits: Vec<u64> = (0..m).map(|i| 1 << i).collect();
            assert_eq!((plan.words, plan.expected), (bits, 0), "{}", both.at);
        }
    }
}

#[test]
fn contents_that_differ_in_the_inversion_alone_have_files_that_differ_there_alone() {
    let mut both = Both::new();
    for seed in 135_000..135_500 {
        let mut r = Random::new(seed);
        let (c, _, _, file) = drawn(&mut r, 64);
        for inversion in some_inversions(c.m) {
            both.at = format!("seed {seed}, inversion {inversion:#x}");
            let other = both
                .write_set(&inverted(&c, inversion), file.len())
                .expect("a good content");
            assert_eq!(other[10..18], inversion.to_le_bytes(), "{}", both.at);
            assert_eq!(other[..10], file[..10], "{}", both.at);
            assert_eq!(other[18..], file[18..], "{}", both.at);
        }
    }
}

#[test]
fn random_contents_invert_nothing_now_and_then_and_mostly_something() {
    let (mut none, mut some, mut last) = (0, 0, 0);
    for seed in 136_000..138_000 {
        let mut r = Random::new(seed);
        let c = match seed % 2 {
            0 => small_content(&mut r, 64, 4, 2),
            _ => content_of_rank(&mut r, (20, 6, 6), 3, 5),
        };
        none += usize::from(c.inversion == 0);
        some += usize::from(c.inversion != 0);
        last += usize::from(c.inversion >> (c.m - 1) & 1 == 1);
    }
    assert!(
        none > 400 && some > 1_000 && last > 500,
        "{none} invert nothing, {some} something, {last} the last input"
    );
}
