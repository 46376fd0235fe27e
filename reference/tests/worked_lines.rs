//! Document 01, "Worked on paper", each line through the library beside the second implementation, and beside the lines their
//! nearest neighbours: other widths, lists of one place, each row of the sample, records that are refused, registers that invert.

use reference::both::Both;
use reference::random::without_rows;
use reference::repository::sample;
use reference::second::planning::WORKING;
use reference::second::set::{read_set, row_place, Row};
use reference::second::word_of;

fn both() -> Both {
    Both::at("document 01, worked on paper")
}

/// What the set reader answers with: m, the tap word, the inversion word, n and s.
fn read(set: &[u8]) -> Result<(u64, u64, u64, usize, usize), u64> {
    both().read_set(set)?;
    let set = read_set(set)?;
    let (taps, inversion) = (&set.circuit.taps, &set.circuit.inversion);
    let (taps, inversion) = (word_of(taps), word_of(inversion));
    Ok((set.circuit.m as u64, taps, inversion, set.n(), set.s()))
}

#[test]
fn eliminations() {
    let lines: [(u64, &[u64], u64, &[u64]); 6] = [
        (6, &[27, 2, 54, 32], 4, &[9, 21]),
        (4, &[14, 9], 2, &[6, 11]),
        (3, &[], 0, &[1, 2, 4]),
        (2, &[0], 0, &[1, 2]),
        (3, &[7; 512], 1, &[3, 5]),
        (1, &[0], 0, &[1]),
    ];
    for (m, columns, rank, words) in lines {
        let answer = Ok((rank, words.to_vec()));
        assert_eq!(both().eliminate(m, columns, 64), answer, "m {m}");
    }
    // column 9 leaves each bit but 0 and 3 a word of its own, and the XOR of these two
    let words = (1..64).map(|i| if i == 3 { 9 } else { 1 << i }).collect();
    assert_eq!(both().eliminate(64, &[9], 64), Ok((1, words)));
}

#[test]
fn eliminations_refused() {
    let lines: [(u64, &[u64], u64); 4] = [
        (1, &[1], 17),
        (0, &[9], 2),
        (65, &[9], 2),
        (2, &[1, 2, 4], 15),
    ];
    for (m, columns, number) in lines {
        assert_eq!(both().eliminate(m, columns, 64), Err(number), "m {m}");
    }
}

#[test]
fn eliminations_into_one_place() {
    assert_eq!(both().eliminate(3, &[7], 1), Err(18));
    assert_eq!(both().eliminate(2, &[1], 1), Ok((1, vec![2])));
}

#[test]
fn clocks() {
    let lines = [
        (3, 4, Ok(3)),
        (3, 7, Ok(5)),
        (9, 0, Err(3)),
        (3, 8, Err(23)),
    ];
    for (taps, state, next) in lines {
        assert_eq!(both().clock(3, taps, 0, state, &[1, 4], &[0]), next);
    }
}

#[test]
fn clocks_of_a_register_that_inverts() {
    // shift, feedback 3 where bit 2 falls off, the cells' spread words 1 and 4, and then the inversion word
    let lines = [
        (2, 0, 0, Ok(2)),
        (2, 2, 0, Ok(4 ^ 2)),
        (2, 4, 0, Ok(3 ^ 2)),
        (7, 7, 0, Ok(5 ^ 7)),
        (2, 0, 1, Ok(1 ^ 2)),
        (2, 4, 3, Ok(3 ^ 1 ^ 4 ^ 2)),
        (8, 0, 0, Err(25)),
        (2, 8, 0, Err(23)),
    ];
    for (inversion, state, row, next) in lines {
        let clocked = both().clock(3, 3, inversion, state, &[1, 4], &[row]);
        assert_eq!(clocked, next, "inversion {inversion}, state {state}");
    }
}

#[test]
fn the_sample() {
    let set = sample("sample.set");
    assert_eq!(set.len(), 44);
    assert_eq!(read(&set), Ok((3, 3, 0, 2, 2)));
    let mut both = both();
    assert_eq!(both.list_columns(&set, 1), Ok(vec![3]));
    let p = both.plan(&set, WORKING, 2).unwrap();
    assert_eq!((p.m, p.words.clone(), p.expected), (3, vec![3, 4], 0));
    let plan = both.write_plan(&p, 23).unwrap();
    for (y, verdict) in [(3, None), (0, None), (1, Some(0)), (7, Some(1))] {
        assert_eq!(
            both.judge(&plan, y).unwrap().fails_at,
            verdict,
            "signature {y}"
        );
    }
}

#[test]
fn the_samples_words_and_expected_bits_by_two_calls() {
    let set = sample("sample.set");
    let mut both = both();
    assert_eq!(both.plan_words(&set, WORKING, 2), Ok((3, vec![3, 4])));
    // the signature for the unknown cell 0 is 3: bits 0 and 1
    let lines: [(&[u64], u64); 7] = [
        (&[3, 4], 0),
        (&[1, 2, 4], 0b011),
        (&[1], 1),
        (&[2, 4], 0b01),
        (&[4], 0),
        (&[2, 5], 0b11),
        (&[7], 0),
    ];
    for (words, expected) in lines {
        assert_eq!(both.expect(&set, words), Ok(expected), "{words:?}");
    }
    // revised: chain 0's cell of slice 1 is 0, so the signature for the unknown cell 0 is 2, and word 0 expects a 1
    let mut revised = set.clone();
    revised[40] = 0;
    assert_eq!(both.sign(&revised, &[1, 0]), Ok(2));
    assert_eq!(both.plan_words(&revised, WORKING, 2), Ok((3, vec![3, 4])));
    assert_eq!(both.expect(&revised, &[3, 4]), Ok(0b01));
    // m 1 and one unknown cell with the column 1: no words, and the signature for that cell 0 is 0
    let none = sample("no-words.set");
    assert_eq!(both.plan_words(&none, WORKING, 1), Err(17));
    assert_eq!(both.expect(&none, &[1]), Ok(0));
}

#[test]
fn the_sample_with_bit_1_inverted() {
    // with the unknown cell 0: state 0, then 0 ^ 1 ^ 2 = 3, then 6 ^ 1 ^ 2 = 5; its column 3 is the sample's
    let set = sample("inversion-2.set");
    assert_eq!(read(&set), Ok((3, 3, 2, 2, 2)));
    let mut both = both();
    assert_eq!(both.list_columns(&set, 1), Ok(vec![3]));
    assert_eq!(both.sign(&set, &[1, 1]), Ok(5));
    assert_eq!(both.sign(&set, &[3, 1]), Ok(5 ^ 3));
    let p = both.plan(&set, WORKING, 2).unwrap();
    assert_eq!((p.m, p.words.clone(), p.expected), (3, vec![3, 4], 0b11));
    assert_eq!(both.expect(&set, &[3, 4]), Ok(0b11));
    assert_eq!(both.expect(&set, &[1, 2, 4]), Ok(5));
    let plan = both.write_plan(&p, 23).unwrap();
    for (y, verdict) in [(5, None), (6, None), (3, Some(0)), (1, Some(1))] {
        let judged = both.judge(&plan, y).unwrap();
        assert_eq!(judged.fails_at, verdict, "signature {y}");
    }
}

#[test]
fn a_register_of_64_bits_that_inverts_the_last() {
    // state 0, then bit 63, then that bit falls off and the taps 27 come in, and the cell's 2 and bit 63 again
    let set = sample("inversion-bit-63.set");
    assert_eq!(read(&set), Ok((64, 27, 1 << 63, 1, 2)));
    let mut both = both();
    let signature = 27 ^ 2 ^ 1 << 63;
    assert_eq!(both.sign(&set, &[0, 1]), Ok(signature));
    assert_eq!(both.sign(&set, &[1, 1]), Ok(signature ^ 4));
    assert_eq!(both.list_columns(&set, 1), Ok(vec![4]));
    let p = both.plan(&set, WORKING, 64).unwrap();
    let words: Vec<u64> = (0..64).filter(|i| *i != 2).map(|i| 1 << i).collect();
    assert_eq!(p.words, words);
    let expecting = (0..63).filter(|i| p.expected >> i & 1 == 1);
    let expecting: Vec<u64> = expecting.map(|i| words[i]).collect();
    assert_eq!(expecting, [1, 8, 16, 1 << 63]);
}

#[test]
fn the_samples_rows() {
    let set = sample("sample.set");
    for (t, values, marks) in [(0, 1, 2), (1, 1, 0)] {
        assert_eq!(both().rows(&set, t), Ok(()));
        for (row, byte) in [(Row::Values, values), (Row::Marks, marks)] {
            let (start, length) = row_place(&set, t, row).unwrap();
            assert_eq!(set[start..start + length], [byte], "slice {t}");
        }
    }
    assert_eq!(both().rows(&set, 2), Err(11));
}

#[test]
fn the_samples_records() {
    let set = sample("sample.set");
    assert_eq!(sample("sample-unknown-0.record"), [1, 1]);
    assert_eq!(sample("sample-unknown-1.record"), [3, 1]);
    let lines: [(&[u8], Result<u64, u64>); 4] = [
        (&[1, 1], Ok(3)),
        (&[3, 1], Ok(0)),
        (&[1], Err(12)),
        (&[4, 1], Err(13)),
    ];
    for (record, answer) in lines {
        assert_eq!(both().sign(&set, record), answer, "{record:?}");
    }
}

#[test]
fn edges() {
    let lines = [
        ("width-64.set", Ok(())),
        ("width-1.set", Ok(())),
        ("width-0.set", Err(2)),
        ("width-65.set", Err(2)),
        ("taps-9.set", Err(3)),
        ("inversion-8.set", Err(25)),
        ("chains-256.set", Ok(())),
        ("chains-257.set", Err(4)),
        ("slices-0.set", Ok(())),
        ("slices-513.set", Err(7)),
    ];
    for (name, answer) in lines {
        assert_eq!(both().read_set(&sample(name)), answer, "{name}");
    }
    assert_eq!(both().sign(&sample("slices-0.set"), &[]), Ok(0));
}

#[test]
fn edges_without_rows() {
    let lines = [
        (1, 1, 0, 1, 0, 32, Ok((1, 1, 0, 1, 0))),
        (64, 1, 0, 1, 0, 32, Ok((64, 1, 0, 1, 0))),
        (0, 1, 0, 1, 0, 32, Err(2)),
        (65, 1, 0, 1, 0, 32, Err(2)),
        (3, 9, 0, 1, 0, 32, Err(3)),
        (3, 3, 4, 1, 0, 32, Ok((3, 3, 4, 1, 0))),
        (3, 3, 8, 1, 0, 32, Err(25)),
        (64, 1, u64::MAX, 1, 0, 32, Ok((64, 1, u64::MAX, 1, 0))),
        (3, 3, 0, 256, 0, 2072, Ok((3, 3, 0, 256, 0))),
        (3, 3, 0, 257, 0, 2080, Err(4)),
        (3, 3, 0, 1, 513, 32, Err(7)),
        // 512 slices are taken, but their rows are not there
        (3, 3, 0, 1, 512, 32, Err(8)),
    ];
    for (m, taps, inversion, n, s, length, answer) in lines {
        let set = without_rows(m, taps, inversion, n, s);
        assert_eq!(set.len(), length);
        let what = format!("m {m}, taps {taps}, inversion {inversion}, n {n}, s {s}");
        assert_eq!(read(&set), answer, "{what}");
    }
    let none = without_rows(3, 3, 0, 1, 0);
    assert_eq!(both().sign(&none, &[]), Ok(0));
    assert_eq!(both().list_columns(&none, 1), Ok(vec![]));
}
