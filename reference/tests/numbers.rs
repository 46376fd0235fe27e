//! Each number that a call can meet, by an input that gives it and nothing earlier, and beside it the input that is right by one.

use reference::both::Both;
use reference::random::{columns_of_rank, without_rows, Random};
use reference::repository::sample;
use reference::second::plan::Plan;
use reference::second::planning::WORKING;
use reference::second::set::{read_set, Content};
use reference::second::word_of;
use std::collections::BTreeSet;

/// The sets that give 1 to 10 and 25.
const BAD_SETS: [(&str, u64); 14] = [
    ("empty.set", 1),
    ("bytes-9.set", 1),
    ("bytes-17.set", 1),
    ("width-0.set", 2),
    ("width-65.set", 2),
    ("taps-9.set", 3),
    ("inversion-8.set", 25),
    ("chains-257.set", 4),
    ("spread-short.set", 5),
    ("spread-0.set", 6),
    ("slices-513.set", 7),
    ("rows-short.set", 8),
    ("spare-bit.set", 9),
    ("valued-unknown.set", 10),
];

fn number<T>(reply: Result<T, u64>) -> u64 {
    reply.err().unwrap_or(0)
}

/// Every call on a bad set gives its number.
fn refused_by_all(both: &mut Both, what: &str, set: &[u8], n: u64) {
    both.at = what.to_string();
    assert_eq!(number(both.read_set(set)), n, "{what}");
    assert_eq!(number(both.rows(set, 0)), n, "{what}");
    assert_eq!(number(both.sign(set, &[])), n, "{what}");
    assert_eq!(number(both.list_columns(set, 9)), n, "{what}");
    // with lists long enough and too short: the set's numbers come before 14
    for room in [WORKING, 9] {
        assert_eq!(number(both.plan(set, room, 9)), n, "{what}");
        assert_eq!(number(both.plan_words(set, room, 9)), n, "{what}");
    }
    // good words, none, too many, and lists that aren't reduced: the set's numbers come before 20 and 21
    for words in [&[1][..], &[], &[1; 65], &[2, 1], &[0]] {
        assert_eq!(number(both.expect(set, words)), n, "{what}, {words:?}");
    }
    // a good k and bad ones, with and without a list: the set's numbers come before 26 to 28
    for (k, room) in [(1, 512), (1, 0), (0, 512), (65, 0), (u64::MAX, 0)] {
        assert_eq!(number(both.cut(set, k, room)), n, "{what}, k {k}");
    }
}

#[test]
fn calls_on_sets() {
    let mut both = Both::new();
    for (name, n) in BAD_SETS {
        refused_by_all(&mut both, name, &sample(name), n);
    }
}

#[test]
fn a_set_of_fewer_than_18_bytes_gives_1_whatever_they_are_and_one_of_18_does_not() {
    let mut both = Both::new();
    let fronts = [
        (3, 3, 0, 4),
        (0, 3, 0, 2),
        (65, 3, 0, 2),
        (3, 9, 0, 3),
        (3, 9, 8, 3),
        (3, 3, 8, 25),
        (64, 3, u64::MAX, 4),
    ];
    for (m, taps, inversion, of_18) in fronts {
        let set = without_rows(m, taps, inversion, 1, 0);
        for length in 0..=18 {
            let what = format!("m {m}, taps {taps}, inversion {inversion}, {length} bytes");
            let n = if length < 18 { 1 } else { of_18 };
            refused_by_all(&mut both, &what, &set[..length], n);
        }
    }
}

#[test]
fn number_25_comes_after_3_and_before_4_in_sets_in_the_set_writer_and_in_the_clock() {
    // m, the taps, the inversion, how many chains, and the number
    let lines: [(u16, u64, u64, u16, u64); 12] = [
        (0, 3, 8, 1, 2),
        (65, 3, 8, 1, 2),
        (3, 9, 8, 1, 3),
        (3, 2, 8, 0, 3),
        (3, 9, 4, 257, 3),
        (3, 3, 8, 1, 25),
        (3, 3, 8, 0, 25),
        (3, 3, 8, 257, 25),
        (3, 3, 1 << 63, 0, 25),
        (3, 3, 4, 0, 4),
        (3, 3, 7, 257, 4),
        (64, 3, u64::MAX, 0, 4),
    ];
    let mut both = Both::new();
    for (m, taps, inversion, n, first) in lines {
        let what = format!("m {m}, taps {taps}, inversion {inversion}, {n} chains");
        let set = without_rows(m, taps, inversion, n, 0);
        refused_by_all(&mut both, &what, &set, first);
        let content = Content {
            m: u64::from(m),
            taps,
            inversion,
            spread: vec![1; usize::from(n)],
            values: vec![],
            marks: vec![],
            s: 0,
            ties: vec![],
        };
        assert_eq!(number(both.write_set(&content, 3_000)), first, "{what}");
        let row = vec![0; usize::from(n).div_ceil(8)];
        let clocked = both.clock(content.m, taps, inversion, 0, &content.spread, &row);
        assert_eq!(number(clocked), first, "{what}");
    }
}

#[test]
fn of_the_inversion_words_those_with_a_bit_at_or_above_m_give_25_and_no_others() {
    let mut both = Both::new();
    for m in 1..=64u16 {
        let bit = |i: u16| if i < 64 { 1u64 << i } else { 0 };
        let all = bit(m - 1) | (bit(m - 1) - 1);
        let words = [
            0,
            1,
            bit(m - 1),
            all,
            bit(m),
            all | bit(m),
            bit(63),
            u64::MAX,
        ];
        for inversion in words {
            let first = if inversion <= all { 0 } else { 25 };
            both.at = format!("m {m}, inversion {inversion:#x}");
            let set = without_rows(m, 1, inversion, 1, 0);
            assert_eq!(number(both.read_set(&set)), first, "{}", both.at);
            if let Ok(read) = read_set(&set) {
                assert_eq!(word_of(&read.circuit.inversion), inversion, "{}", both.at);
            }
            let content = Content {
                m: u64::from(m),
                taps: 1,
                inversion,
                spread: vec![1],
                values: vec![],
                marks: vec![],
                s: 0,
                ties: vec![],
            };
            let file = if first == 0 { Ok(set) } else { Err(first) };
            assert_eq!(both.write_set(&content, 32), file, "{}", both.at);
            // from state 0 and with no cell 1 the next state is the inversion word
            let next = if first == 0 {
                Ok(inversion)
            } else {
                Err(first)
            };
            let clocked = both.clock(content.m, 1, inversion, 0, &[1], &[0]);
            assert_eq!(clocked, next, "{}", both.at);
        }
    }
    let (taken, refused) = (both.seen("read_set", 0), both.seen("read_set", 25));
    assert!(
        taken >= 64 * 4 && refused >= 63 * 4,
        "{taken} taken, {refused} refused"
    );
}

#[test]
fn calls_on_the_sample_and_on_sets_at_the_edges() {
    let mut both = Both::at("sample");
    let set = sample("sample.set");
    for (slice, n) in [(0, 0), (1, 0), (2, 11), (u64::MAX, 11)] {
        assert_eq!(number(both.rows(&set, slice)), n, "slice {slice}");
    }
    let records: [(&[u8], u64); 6] = [
        (&[1, 1], 0),
        (&[3, 0], 0),
        (&[1], 12),
        (&[1, 1, 1], 12),
        (&[4, 0], 13),
        (&[0, 0x80], 13),
    ];
    for (record, n) in records {
        assert_eq!(number(both.sign(&set, record)), n, "record {record:?}");
    }
    assert_eq!(number(both.list_columns(&set, 1)), 0);
    assert_eq!(number(both.list_columns(&set, 0)), 14);
    let none = sample("no-words.set");
    let lines = [
        (&set, 64, 2, 0),
        (&set, 63, 2, 14),
        (&set, 1, 2, 14),
        (&set, 64, 1, 18),
        (&set, 63, 1, 14),
        (&none, 64, 0, 17),
        (&none, 63, 0, 14),
    ];
    for (set, working, words, n) in lines {
        let what = format!("{} bytes, {working} and {words} places", set.len());
        assert_eq!(number(both.plan(set, working, words)), n, "{what}");
        assert_eq!(number(both.plan_words(set, working, words)), n, "{what}");
    }
    for (name, n) in [
        ("chains-256.set", 0),
        ("slices-0.set", 0),
        ("width-1.set", 0),
        ("width-64.set", 0),
        ("inversion-2.set", 0),
        ("inversion-bit-63.set", 0),
        ("largest.set", 0),
        ("too-long.set", 8),
    ] {
        assert_eq!(number(both.read_set(&sample(name))), n, "{name}");
    }
}

#[test]
fn the_expected_bits() {
    let mut both = Both::new();
    let bits: Vec<u64> = (0..64).map(|i| 1 << i).collect();
    let more = [&bits[..], &[1 << 63]].concat();
    let lines: [(&str, &[u64], u64); 27] = [
        // the sample's own words, and others: m is 3
        ("sample.set", &[3, 4], 0),
        ("sample.set", &[4], 0),
        ("sample.set", &[7], 0),
        ("sample.set", &[1, 2, 4], 0),
        ("sample.set", &[2, 5], 0),
        ("sample.set", &[], 20),
        ("sample.set", &[1, 2, 4, 8], 20),
        // 20 comes before 21
        ("sample.set", &[0, 0, 0, 0], 20),
        ("sample.set", &[4, 2, 1, 1], 20),
        ("sample.set", &[0], 21),
        ("sample.set", &[8], 21),
        ("sample.set", &[1 << 63], 21),
        ("sample.set", &[3, 8], 21),
        ("sample.set", &[4, 3], 21),
        ("sample.set", &[3, 3], 21),
        ("sample.set", &[3, 6], 21),
        ("sample.set", &[1, 3], 21),
        ("sample.set", &[1, 2, 7], 21),
        // a set whose planning gives 17: m is 1
        ("no-words.set", &[1], 0),
        ("no-words.set", &[], 20),
        ("no-words.set", &[1, 2], 20),
        ("no-words.set", &[2], 21),
        ("no-words.set", &[0], 21),
        // as many words as there can be, and one more
        ("width-64.set", &bits, 0),
        ("width-64.set", &more, 20),
        ("slices-0.set", &bits[..3], 0),
        ("slices-0.set", &bits[..4], 20),
    ];
    for (name, words, n) in lines {
        both.at = format!("{name}, words {words:?}");
        let expected = both.expect(&sample(name), words);
        assert_eq!(number(expected), n, "{}", both.at);
    }
}

#[test]
fn cutting() {
    let mut both = Both::new();
    // a set, k, the places of the cut list, and the number
    let lines = [
        // m is 3, and slice 0 has one unknown cell
        ("sample.set", 1, 1, 0),
        ("sample.set", 2, 1, 0),
        ("sample.set", 0, 1, 26),
        ("sample.set", 4, 1, 26),
        ("sample.set", 3, 1, 27),
        ("sample.set", 2, 0, 28),
        // .. and everything behind it bad too
        ("sample.set", 4, 0, 26),
        ("sample.set", 3, 0, 27),
        // m is 1, and no word is left
        ("no-words.set", 0, 0, 26),
        ("no-words.set", 2, 0, 26),
        ("no-words.set", 1, 0, 27),
        ("no-words.set", 1, 9, 27),
        // m is 3, and there are no runs
        ("slices-0.set", 3, 0, 0),
        ("slices-0.set", 4, 0, 26),
        ("slices-0.set", 0, 0, 26),
    ];
    for (name, k, room, n) in lines {
        both.at = format!("{name}, k {k}, {room} places");
        let cut = both.cut(&sample(name), k, room);
        assert_eq!(number(cut), n, "{}", both.at);
    }
}

type SetLine<'a> = (
    u64,
    u64,
    u64,
    &'a [u64],
    &'a [u8],
    &'a [u8],
    u64,
    usize,
    u64,
);

#[test]
fn the_set_writer() {
    let lines: [SetLine; 23] = [
        (3, 3, 0, &[1, 4], &[1, 1], &[2, 0], 2, 44, 0),
        (0, 3, 0, &[1, 4], &[1, 1], &[2, 0], 2, 44, 2),
        (65, 3, 0, &[1, 4], &[1, 1], &[2, 0], 2, 44, 2),
        (3, 2, 0, &[1, 4], &[1, 1], &[2, 0], 2, 44, 3),
        (3, 9, 0, &[1, 4], &[1, 1], &[2, 0], 2, 44, 3),
        (3, 9, 8, &[1, 4], &[1, 1], &[2, 0], 2, 44, 3),
        (3, 3, 8, &[1, 4], &[1, 1], &[2, 0], 2, 44, 25),
        (3, 3, 4, &[1, 4], &[1, 1], &[2, 0], 2, 44, 0),
        // .. and everything behind it bad too
        (3, 3, 8, &[], &[4], &[7], 513, 0, 25),
        (3, 3, 8, &[0, 8], &[7], &[7, 7], 513, 0, 25),
        (3, 3, 0, &[], &[], &[], 0, 44, 4),
        (3, 3, 0, &[1; 256], &[], &[], 0, 3_000, 0),
        (3, 3, 0, &[1; 257], &[], &[], 0, 3_000, 4),
        (3, 3, 0, &[1, 0], &[1, 1], &[2, 0], 2, 44, 6),
        (3, 3, 0, &[1, 8], &[1, 1], &[2, 0], 2, 44, 6),
        (3, 3, 0, &[1, 4], &[0; 512], &[0; 512], 512, 2_000, 0),
        (3, 3, 0, &[1, 4], &[0; 513], &[0; 513], 513, 2_000, 7),
        (3, 3, 0, &[1, 4], &[1], &[2, 0], 2, 44, 8),
        (3, 3, 0, &[1, 4], &[1, 1], &[2, 0, 0], 2, 44, 8),
        (3, 3, 0, &[1, 4], &[1, 4], &[2, 0], 2, 44, 9),
        (3, 3, 0, &[1, 4], &[1, 1], &[2, 0x80], 2, 44, 9),
        (3, 3, 0, &[1, 4], &[3, 1], &[2, 0], 2, 44, 10),
        (3, 3, 0, &[1, 4], &[1, 1], &[2, 0], 2, 43, 24),
    ];
    let mut both = Both::new();
    for (m, taps, inversion, spread, values, marks, s, room, n) in lines {
        let content = Content {
            m,
            taps,
            inversion,
            spread: spread.to_vec(),
            values: values.to_vec(),
            marks: marks.to_vec(),
            s,
            ties: vec![],
        };
        both.at = format!("{content:?} {room}");
        assert_eq!(number(both.write_set(&content, room)), n, "{}", both.at);
    }
}

#[test]
fn the_clock() {
    let mut both = Both::new();
    let mut clock =
        |m: u64, taps: u64, inversion: u64, state: u64, spread: &[u64], row: &[u8], n: u64| {
            both.at = format!("{m} {taps} {inversion} {state} {spread:?} {row:?}");
            let clocked = both.clock(m, taps, inversion, state, spread, row);
            assert_eq!(number(clocked), n, "{}", both.at);
        };
    clock(3, 3, 0, 7, &[1, 4], &[3], 0);
    clock(0, 3, 0, 7, &[1, 4], &[3], 2);
    clock(65, 3, 0, 7, &[1, 4], &[3], 2);
    clock(3, 9, 0, 7, &[1, 4], &[3], 3);
    clock(3, 9, 8, 7, &[1, 4], &[3], 3);
    clock(3, 3, 8, 7, &[1, 4], &[3], 25);
    clock(3, 3, 7, 7, &[1, 4], &[3], 0);
    // .. and everything behind it bad too
    clock(3, 3, 8, 8, &[], &[4, 4], 25);
    clock(3, 3, 8, 8, &[0, 8], &[4, 4], 25);
    clock(3, 3, 0, 7, &[], &[], 4);
    clock(3, 3, 0, 7, &[1; 257], &[0; 33], 4);
    clock(3, 3, 0, 7, &[1; 256], &[0; 32], 0);
    clock(3, 3, 0, 7, &[1, 8], &[3], 6);
    clock(3, 3, 0, 7, &[1, 4], &[3, 0], 8);
    clock(3, 3, 0, 7, &[1, 4], &[], 8);
    clock(3, 3, 0, 7, &[1, 4], &[4], 9);
    clock(3, 3, 0, 8, &[1, 4], &[3], 23);
}

#[test]
fn the_elimination() {
    let mut both = Both::new();
    let lines: [(u64, &[u64], usize, u64); 10] = [
        (2, &[0], 2, 0),
        (0, &[], 2, 2),
        (65, &[], 65, 2),
        (64, &[], 64, 0),
        (2, &[3], 2, 0),
        (2, &[4], 2, 15),
        (1, &[1], 1, 17),
        (2, &[1, 2, 3], 2, 17),
        (2, &[3], 0, 18),
        (2, &[3, 3, 3], 1, 0),
    ];
    for (m, columns, room, n) in lines {
        both.at = format!("m {m}, {columns:?}, {room} places");
        let answer = both.eliminate(m, columns, room);
        assert_eq!(number(answer), n, "{}", both.at);
    }
}

/// "The count of columns independent of earlier ones", by all their XORs.
fn rank_by_trial(columns: &[u64]) -> usize {
    let mut xors = BTreeSet::from([0]);
    let mut rank = 0;
    for &c in columns {
        if !xors.contains(&c) {
            xors.extend(xors.clone().iter().map(|x| x ^ c));
            rank += 1;
        }
    }
    rank
}

/// All lists of `count` columns of m bits.
fn all_lists(m: u32, count: u32) -> impl Iterator<Item = Vec<u64>> {
    let columns = move |list: u64| (0..count).map(move |i| list >> (m * i) & ((1 << m) - 1));
    (0..1u64 << (m * count)).map(move |list| columns(list).collect())
}

/// Number 16 stood for more than m independent columns. There are none: in no list of up to 8 columns at m 1, and up to 5 at m 2 to 4, are
/// more than m independent, and where m are the elimination gives 17, not a number for too many. At every width a few lists of rank m,
/// with m columns and more, give 17 too.
#[test]
fn no_more_than_m_columns_are_independent() {
    let mut both = Both::new();
    let (mut full, mut more) = (0, 0);
    for (m, longest) in [(1u32, 8), (2, 5), (3, 5), (4, 5)] {
        for columns in (0..=longest).flat_map(|count| all_lists(m, count)) {
            let rank = rank_by_trial(&columns);
            both.at = format!("m {m}, {columns:?}");
            assert!(rank <= m as usize, "{}", both.at);
            let given = both.eliminate(m.into(), &columns, m as usize);
            let whole = rank == m as usize;
            assert_eq!(given.err(), whole.then_some(17), "{}", both.at);
            full += u64::from(whole);
            more += u64::from(whole && columns.len() > rank);
        }
    }
    assert!(
        full > 600_000 && more > 600_000,
        "{full} lists of full rank, {more} of them with more columns than that"
    );
    for m in 1..=64 {
        let mut r = Random::new(70_000 + m as u64);
        for count in [m, m + 1, 2 * m, m + 300] {
            both.at = format!("m {m}, {count} columns of rank {m}");
            let columns = columns_of_rank(&mut r, m, m, count);
            let given = both.eliminate(m as u64, &columns, m);
            assert_eq!(number(given), 17, "{}", both.at);
        }
    }
}

/// The sample's plan: m 3, words 3 and 4, expected bits 0.
const PLAN: [u8; 23] = [
    3, 0, 2, 0, 3, 0, 0, 0, 0, 0, 0, 0, 4, 0, 0, 0, 0, 0, 0, 0, 2, 0, 0,
];

/// The sample's plan with one byte changed.
fn changed(at: usize, byte: u8) -> Vec<u8> {
    let mut plan = PLAN.to_vec();
    plan[at] = byte;
    plan
}

fn plans() -> Vec<(Vec<u8>, u64, &'static str)> {
    vec![
        (PLAN.to_vec(), 0, "as it is"),
        (vec![], 19, "empty"),
        (vec![3], 19, "one byte"),
        (changed(0, 0), 19, "m 0"),
        (changed(0, 65), 19, "m 65"),
        (PLAN[..3].to_vec(), 20, "cut in the count"),
        (changed(2, 0), 20, "a count of 0"),
        (changed(2, 4), 20, "a count above m"),
        (PLAN[..19].to_vec(), 20, "cut in the last word"),
        (changed(4, 7), 21, "highest bits that clash"),
        (changed(4, 5), 21, "words that do not ascend"),
        (changed(12, 12), 21, "a word beyond m"),
        (changed(4, 0), 21, "a word 0"),
        (PLAN[..20].to_vec(), 22, "no second count"),
        (PLAN[..21].to_vec(), 22, "cut in the second count"),
        (changed(20, 1), 22, "counts that disagree"),
        (PLAN[..22].to_vec(), 22, "no expected bits"),
        ([&PLAN[..], &[0]].concat(), 22, "one byte more"),
        (changed(22, 4), 22, "a spare bit"),
        (changed(22, 3), 0, "both expected bits 1"),
    ]
}

#[test]
fn calls_on_plans() {
    let mut both = Both::new();
    for (plan, n, what) in plans() {
        both.at = what.to_string();
        assert_eq!(number(both.judge(&plan, 0)), n, "{what}");
        assert_eq!(number(both.read_plan(&plan, 2)), n, "{what}");
        // 18 comes after 22
        let short = number(both.read_plan(&plan, 1));
        assert_eq!(short, if n == 0 { 18 } else { n }, "{what}");
        // 22 comes before 23
        let wide = number(both.judge(&plan, 8));
        assert_eq!(wide, if n == 0 { 23 } else { n }, "{what}");
    }
    assert_eq!(number(both.judge(&PLAN, 7)), 0);
}

#[test]
fn the_plan_writer() {
    let mut both = Both::new();
    let lines: [(u64, &[u64], u64, usize, u64); 12] = [
        (3, &[3, 4], 0, 23, 0),
        (0, &[3, 4], 0, 23, 19),
        (65, &[3, 4], 0, 23, 19),
        (3, &[], 0, 23, 20),
        (1, &[1, 2], 0, 23, 20),
        (2, &[1, 2], 0, 23, 0),
        (3, &[4, 3], 0, 23, 21),
        (3, &[3, 8], 0, 23, 21),
        (3, &[3, 6], 0, 23, 21),
        (3, &[3, 4], 3, 23, 0),
        (3, &[3, 4], 4, 23, 22),
        (3, &[3, 4], 3, 22, 24),
    ];
    for (m, words, expected, room, n) in lines {
        both.at = format!("{m} {words:?} {expected} {room}");
        let plan = Plan {
            m,
            words: words.to_vec(),
            expected,
        };
        assert_eq!(number(both.write_plan(&plan, room)), n, "{}", both.at);
    }
}
