//! Random calls, good and bad. The differential test makes a million of them from stored seeds, `soak` as many as there is time for.

use crate::both::Both;
use crate::random::*;
use crate::second::cutting::Cutting;
use crate::second::layout::*;
use crate::second::plan::{write_plan, Plan};
use crate::second::planning::{WORKING, WORKING_MOST};
use crate::second::set::Content;
use crate::second::{number_at, Reply};

/// A set file with a record of its shape, the number of its symbols, and the working places that its planning needs.
pub struct Files {
    pub set: Vec<u8>,
    pub record: Vec<u8>,
    pub symbols: usize,
    pub working: usize,
}

pub fn files_of(r: &mut Random, content: &Content) -> Files {
    Files {
        set: file_of(content),
        record: record(r, content.spread.len(), content.s as usize),
        symbols: symbols_of(content),
        working: WORKING + named_of(content),
    }
}

/// Calls of every kind, from a seed.
pub fn calls(both: &mut Both, seed: u64) {
    both.at = format!("seed {seed}");
    let r = &mut Random::new(seed);
    let content = match r.below(200) {
        0 => small_content(r, 64, 256, 40),
        1..=9 => small_content(r, 64, 20, 8),
        10..=149 => small_content(r, 5, 6, 4),
        _ => small_content(r, 20, 10, 4),
    };
    good_content(both, r, &content);
    let files = files_of(r, &content);
    for _ in 0..4 {
        let set = damaged_set(r, &files.set);
        set_calls(both, &set, &files.record, files.symbols);
        bad_record(both, r, &files);
        bad_content(both, r);
        bad_ties(both, r);
        bad_clock(both, r);
        elimination(both, r);
        lent_lists(both, r);
        expectation(both, r);
        cutting(both, r).ok();
        plan_content(both, r);
        bad_plan(both, r);
    }
}

/// All calls on a good content, its writer and its plan too, with lists around what is needed.
pub fn good_content(both: &mut Both, r: &mut Random, content: &Content) {
    let files = files_of(r, content);
    let length = files.set.len();
    for room in [length, length + 7, length - 1, 0] {
        let wrote = both.write_set(content, room);
        assert_eq!(wrote.is_ok(), room >= length, "{}", both.at);
    }
    every_call(both, &files);
    // in more slices the second implementation tries ends for too long
    if content.s < 10 {
        let k = r.below(content.m as usize + 2) as u64;
        cut_lists(both, &files.set, k);
    }
    let row = rows(r, content.spread.len(), 1, 1, 2);
    let state = r.within(content.m as usize);
    let (m, taps, inversion) = (content.m, content.taps, content.inversion);
    let clocked = both.clock(m, taps, inversion, state, &content.spread, &row);
    assert!(clocked.is_ok(), "{}", both.at);
}

/// Cutting of a good set: with room enough, and with lists around what is needed.
fn cut_lists(both: &mut Both, set: &[u8], k: u64) {
    let cutting = match both.cut(set, k, 512) {
        Ok(cutting) => cutting,
        // 26 and 27 come before 28
        Err(number) => {
            let again = both.cut(set, k, 0);
            return assert_eq!(again, Err(number), "{}", both.at);
        }
    };
    let runs = cutting.cuts.len();
    for room in [runs, runs + 3, runs.saturating_sub(1), 0] {
        let again = both.cut(set, k, room);
        let want = if room < runs {
            Err(28)
        } else {
            Ok(cutting.clone())
        };
        assert_eq!(again, want, "{}", both.at);
    }
}

/// Every call but cutting on a good set and a record: with enough room, and with lists around what is needed.
pub fn every_call(both: &mut Both, files: &Files) {
    let Files {
        set,
        record,
        symbols,
        working,
    } = files;
    both.read_set(set).expect("a good set");
    both.ties(set).expect("a good set");
    both.sign(set, record).expect("a record of the set's shape");
    let chains = number_at(set, CHAINS_AT, COUNT).expect("n") as usize;
    let slices = number_at(set, slices_at(chains), COUNT).expect("s");
    for slice in [0, slices / 2, slices.wrapping_sub(1), slices, u64::MAX] {
        let row = both.rows(set, slice);
        assert_eq!(row.is_ok(), slice < slices, "{}", both.at);
    }
    for room in [*symbols, symbols + 3, symbols.saturating_sub(1), 0] {
        let listed = both.list_columns(set, room);
        assert_eq!(listed.is_ok(), room >= *symbols, "{}", both.at);
    }
    // 14 comes before 17 and 18, and has nothing to do with the unknown cells but those that are named
    for room in [0, working - 1] {
        let short = planning(both, set, room, 0);
        assert_eq!(short, Err(14), "{}", both.at);
    }
    let Ok(plan) = planning(both, set, *working, 64) else {
        // 17 comes before 18, and is no number of the expected bits
        for room in [0, 1] {
            let again = planning(both, set, working + room, room);
            assert_eq!(again, Err(17), "{}", both.at);
        }
        assert!(both.expect(set, &[1]).is_ok(), "{}", both.at);
        return;
    };
    let q = plan.words.len();
    for room in [q, q - 1, q + 1] {
        let again = planning(both, set, working + room, room);
        assert_eq!(again.is_ok(), room >= q, "{}", both.at);
    }
    good_plan(both, &plan);
}

/// Planning, and its two calls in a row, which come to the same.
pub fn planning(both: &mut Both, set: &[u8], working_room: usize, word_room: usize) -> Reply<Plan> {
    let plan = both.plan(set, working_room, word_room);
    let words = both.plan_words(set, working_room, word_room);
    let in_a_row = words.and_then(|(m, words)| {
        let expected = both.expect(set, &words)?;
        Ok(Plan { m, words, expected })
    });
    assert_eq!(plan, in_a_row, "{}", both.at);
    plan
}

/// A plan through its writer, its reader and judging.
fn good_plan(both: &mut Both, plan: &Plan) {
    let q = plan.words.len();
    let length = plan_length(q);
    for room in [length - 1, length + 3, 0] {
        let wrote = both.write_plan(plan, room);
        assert_eq!(wrote.is_ok(), room >= length, "{}", both.at);
    }
    let file = both.write_plan(plan, length).expect("a good plan");
    for room in [q, q - 1, q + 2, 0] {
        let read = both.read_plan(&file, room);
        assert_eq!(read.is_ok(), room >= q, "{}", both.at);
    }
    let some = [0, 1, plan.words[0], plan.words[q - 1]];
    for y in some {
        both.judge(&file, y)
            .expect("a signature of the plan's width");
    }
    both.judge(&file, u64::MAX).ok();
}

/// The calls on a set that may be bad.
pub fn set_calls(both: &mut Both, set: &[u8], record: &[u8], symbols: usize) {
    both.read_set(set).ok();
    both.ties(set).ok();
    both.sign(set, record).ok();
    both.rows(set, 0).ok();
    both.list_columns(set, symbols).ok();
    planning(both, set, WORKING_MOST, 64).ok();
    for words in [&[1][..], &[], &[2, 1]] {
        both.expect(set, words).ok();
    }
    for (k, room) in [(1, 4), (0, 0)] {
        both.cut(set, k, room).ok();
    }
}

/// One way to make a set bad, or to put a field at its limit.
pub type Fault = (&'static str, fn(&mut Vec<u8>));

fn put(set: &mut [u8], at: usize, bytes: &[u8]) {
    for (b, with) in set.iter_mut().skip(at).zip(bytes) {
        *b = *with;
    }
}

fn chains(set: &[u8]) -> usize {
    number_at(set, CHAINS_AT, COUNT).unwrap_or(0) as usize
}

/// The inversion word with one bit, which the width tells; 0 where a word has no such bit.
fn put_inverted(set: &mut [u8], bit: fn(u64) -> u64) {
    let m = number_at(set, WIDTH_AT, COUNT).unwrap_or(0);
    let word = 1u64.checked_shl(bit(m) as u32).unwrap_or(0);
    put(set, INVERSION_AT, &word.to_le_bytes());
}

fn put_slices(set: &mut [u8], s: &[u8]) {
    let at = slices_at(chains(set));
    put(set, at, s);
}

/// One of the first slice's two rows over the other.
fn copy_row(set: &mut [u8], marks_to_values: bool) {
    let n = chains(set);
    let (mut from, mut to) = (value_row_at(n, 0), mark_row_at(n, 0));
    if marks_to_values {
        (from, to) = (to, from);
    }
    let row: Vec<u8> = set.iter().skip(from).take(row_bytes(n)).copied().collect();
    put(set, to, &row);
}

/// .. in the register and the chains,
const REGISTER_FAULTS: [Fault; 19] = [
    ("m 0", |s| put(s, WIDTH_AT, &[0, 0])),
    ("m 65", |s| put(s, WIDTH_AT, &[65, 0])),
    ("m 64", |s| put(s, WIDTH_AT, &[64, 0])),
    ("m 1", |s| put(s, WIDTH_AT, &[1, 0])),
    ("m 257", |s| put(s, WIDTH_AT, &[1, 1])),
    ("taps even", |s| put(s, TAPS_AT, &[0])),
    ("taps beyond", |s| put(s, TAPS_AT + 7, &[0xff])),
    ("taps 0", |s| put(s, TAPS_AT, &[0; 8])),
    ("inversion bit m - 1", |s| put_inverted(s, |m| m.max(1) - 1)),
    ("inversion bit m", |s| put_inverted(s, |m| m)),
    ("inversion all ones", |s| put(s, INVERSION_AT, &[255; 8])),
    ("n 0", |s| put(s, CHAINS_AT, &[0, 0])),
    ("n 1", |s| put(s, CHAINS_AT, &[1, 0])),
    ("n 256", |s| put(s, CHAINS_AT, &[0, 1])),
    ("n 257", |s| put(s, CHAINS_AT, &[1, 1])),
    ("n 65535", |s| put(s, CHAINS_AT, &[255, 255])),
    ("spread word 0", |s| put(s, SPREAD_AT, &[0; 8])),
    ("spread word beyond", |s| put(s, SPREAD_AT + 7, &[0x80])),
    ("last spread word 0", |s| {
        let at = spread_word_at(chains(s).max(1) - 1);
        put(s, at, &[0; 8]);
    }),
];

/// .. in the slices,
const SLICE_FAULTS: [Fault; 9] = [
    ("s 0", |s| put_slices(s, &[0, 0])),
    ("s 512", |s| put_slices(s, &[0, 2])),
    ("s 513", |s| put_slices(s, &[1, 2])),
    ("s 65535", |s| put_slices(s, &[255, 255])),
    ("first row all ones", |s| {
        let n = chains(s);
        put(s, value_row_at(n, 0), &vec![255; row_bytes(n)]);
    }),
    ("first mark row all ones", |s| {
        let n = chains(s);
        put(s, mark_row_at(n, 0), &vec![255; row_bytes(n)]);
    }),
    ("values marked as unknown", |s| copy_row(s, false)),
    ("marks given as values", |s| copy_row(s, true)),
    ("last byte all ones", |s| {
        if let Some(b) = s.last_mut() {
            *b = 255;
        }
    }),
];

/// .. and in the length.
const LENGTH_FAULTS: [Fault; 13] = [
    ("one byte less", |s| {
        s.pop();
    }),
    ("one byte more", |s| s.push(0)),
    ("two rows more", |s| {
        let more = 2 * row_bytes(chains(s));
        s.resize(s.len() + more, 0);
    }),
    ("cut in the spread words", |s| s.truncate(SPREAD_AT + 3)),
    ("cut before n", |s| s.truncate(CHAINS_AT)),
    ("cut in n", |s| s.truncate(CHAINS_AT + 1)),
    ("cut in the inversion", |s| s.truncate(CHAINS_AT - 1)),
    ("cut before the inversion", |s| s.truncate(INVERSION_AT)),
    ("cut in the taps", |s| s.truncate(INVERSION_AT - 1)),
    ("cut before s", |s| s.truncate(slices_at(chains(s)))),
    ("cut in s", |s| s.truncate(slices_at(chains(s)) + 1)),
    ("no rows", |s| s.truncate(value_row_at(chains(s), 0))),
    ("empty", |s| s.clear()),
];

/// The faults that a set can have, as changes of its bytes, but those of its ties.
pub fn set_faults() -> Vec<Fault> {
    [&REGISTER_FAULTS[..], &SLICE_FAULTS, &LENGTH_FAULTS].concat()
}

fn put_entry(ties: &mut [u8], entry: usize, at: usize, bytes: &[u8]) {
    put(ties, TIE * entry + at, bytes);
}

fn last_entry(ties: &[u8]) -> usize {
    (ties.len() / TIE).max(1) - 1
}

/// The faults that ties can have, as changes of their entries' bytes; ties that are right too.
pub const TIE_FAULTS: [Fault; 16] = [
    ("no ties", |t| t.clear()),
    ("one tie less", |t| t.truncate(TIE * last_entry(t))),
    ("a tie without its last byte", |t| {
        t.pop();
    }),
    ("a byte behind the ties", |t| t.push(0)),
    ("257 ties", |t| t.resize(TIE * (TIES_MOST + 1), 0)),
    ("more ties than 256 by 256", |t| {
        t.resize(t.len() + TIE * 256, 0)
    }),
    ("a tie of slice 65,535", |t| {
        t.extend(tie((65_535, 0), 1, 0))
    }),
    ("chain 256 in the first tie", |t| {
        put_entry(t, 0, 2, &[0, 1])
    }),
    ("slice 0 in the last tie", |t| {
        let last = last_entry(t);
        put_entry(t, last, 0, &[0, 0]);
    }),
    ("a tie of the first cell in front", |t| {
        t.splice(0..0, tie((0, 0), 2, 0));
    }),
    ("the first tie twice", |t| {
        let first: Vec<u8> = t.iter().take(TIE).copied().collect();
        t.splice(0..0, first);
    }),
    ("the last tie twice", |t| {
        let from = TIE * last_entry(t);
        t.extend_from_within(from..);
    }),
    ("the first tie last", |t| {
        let first = TIE.min(t.len());
        t.rotate_left(first);
    }),
    ("a last byte of 2", |t| put_entry(t, 0, 6, &[2])),
    ("a last byte of 255 in the last tie", |t| {
        let last = last_entry(t);
        put_entry(t, last, 6, &[255]);
    }),
    ("another symbol", |t| put_entry(t, 0, 4, &[7, 7])),
];

/// The entries behind a good set's slices put through a change, and their count with them.
pub fn change_ties(set: &mut Vec<u8>, change: fn(&mut Vec<u8>)) {
    let n = chains(set);
    let s = number_at(set, slices_at(n), COUNT).expect("a good set") as usize;
    let mut ties = set.split_off(tie_at(n, s, 0));
    change(&mut ties);
    let count = ties.len().div_ceil(TIE) as u16;
    put(set, tie_count_at(n, s), &count.to_le_bytes());
    set.extend(ties);
}

/// A set with a fault, or with some bits changed.
fn damaged_set(r: &mut Random, set: &[u8]) -> Vec<u8> {
    let mut bad = set.to_vec();
    match r.below(8) {
        0..=3 => (r.pick(&set_faults()).1)(&mut bad),
        4 | 5 => change_ties(&mut bad, r.pick(&TIE_FAULTS).1),
        _ => {
            for _ in 0..1 + r.below(6) {
                let at = r.below(bad.len());
                bad[at] ^= 1 << r.below(8);
            }
        }
    }
    bad
}

/// Records of another length, and with one bit changed, which may be a spare one.
fn bad_record(both: &mut Both, r: &mut Random, files: &Files) {
    let mut bad = files.record.clone();
    bad.resize(r.below(bad.len() + 9), r.pick(&[0, 0xff]));
    both.sign(&files.set, &bad).ok();
    let mut bad = files.record.clone();
    if let Some(b) = bad.last_mut() {
        *b ^= 1 << r.below(8);
    }
    both.sign(&files.set, &bad).ok();
}

/// The set writer on a content with up to two changes.
pub fn bad_content(both: &mut Both, r: &mut Random) {
    let mut content = small_content(r, 64, 17, 4);
    for _ in 0..r.below(3) {
        change_content(r, &mut content);
    }
    let lists = content.values.len() + content.marks.len() + content.ties.len();
    let length = set_length(content.spread.len(), 0, 0) + lists;
    let room = r.pick(&[length, length, length + 9, length.saturating_sub(1), 0]);
    both.write_set(&content, room).ok();
}

/// The set writer on a content most of whose cells are unknown and tied, with a change of its ties.
pub fn bad_ties(both: &mut Both, r: &mut Random) {
    let (m, n, s) = (1 + r.below(64), 1 + r.below(12), 1 + r.below(4));
    let of = r.pick(&[1, 2]);
    let free = content(r, m, n, s, 1, of);
    let mut content = tied(r, &free);
    (r.pick(&TIE_FAULTS).1)(&mut content.ties);
    both.write_set(&content, 40_000).ok();
}

fn change_content(r: &mut Random, content: &mut Content) {
    match r.below(15) {
        0 => content.m = r.pick(&[0, 1, 2, 63, 64, 65, 66, 1 << 32, u64::MAX]),
        1 => content.taps = r.word(),
        2 => content.taps &= !1,
        3 => content.spread.clear(),
        4 => content.spread.resize(r.pick(&[256, 257, 300]), 1),
        5 => set_last(&mut content.spread, 0),
        6 => set_last(&mut content.spread, r.word()),
        7 => content.s = r.pick(&[0, 1, 512, 513, 65_536, 65_537, 1 << 40, u64::MAX]),
        8 => content.values.push(0),
        9 => {
            content.marks.pop();
        }
        10 => content.marks = content.values.clone(),
        11 => add_bits(&mut content.values, r.word() as u8),
        12 => content.inversion = r.beyond(content.m.min(64) as usize),
        13 => content.inversion = r.word(),
        _ => add_bits(&mut content.marks, r.word() as u8),
    }
}

fn set_last(words: &mut [u64], word: u64) {
    if let Some(w) = words.last_mut() {
        *w = word;
    }
}

fn add_bits(row: &mut [u8], bits: u8) {
    if let Some(b) = row.last_mut() {
        *b |= bits;
    }
}

/// A clock with up to two changes of a good input.
pub fn bad_clock(both: &mut Both, r: &mut Random) {
    let m = 1 + r.below(64);
    let n = match r.below(20) {
        0 => r.pick(&[0, 255, 256, 257]),
        _ => 1 + r.below(20),
    };
    let mut spread: Vec<u64> = (0..n).map(|_| r.some_within(m)).collect();
    let mut row = rows(r, n, 1, 1, 2);
    let (mut width, mut taps, mut state) = (m as u64, r.taps(m), r.within(m));
    let mut inversion = r.inversion(m);
    for _ in 0..r.below(3) {
        match r.below(10) {
            0 => width = r.pick(&[0, 1, 63, 64, 65, u64::MAX]),
            1 => taps ^= 1,
            2 => taps = r.word() | 1,
            3 => set_last(&mut spread, r.pick(&[0, u64::MAX, 1])),
            4 => row.push(0),
            5 => {
                row.pop();
            }
            6 => add_bits(&mut row, 0xf0),
            7 => inversion = r.beyond(m),
            8 => inversion = r.word(),
            _ => state = r.word(),
        }
    }
    both.clock(width, taps, inversion, state, &spread, &row)
        .ok();
}

/// An elimination: columns of every rank up to m, now and then with a bad width or a bad column, and lists around q.
pub fn elimination(both: &mut Both, r: &mut Random) {
    let m = 1 + r.below(64);
    let rank = if r.one_in(4) { m } else { r.below(m + 1) };
    let count = r.pick(&[0, 1, 2, 5, 20, 70, 90]);
    let mut columns = columns_of_rank(r, m, rank, count);
    let mut width = m as u64;
    match r.below(12) {
        0 => width = r.pick(&[0, 65, 1 << 40]),
        1 => set_last(&mut columns, r.word()),
        _ => {}
    }
    let q = m - rank.min(count);
    let room = r.pick(&[q, q, q + 1, 64, q.saturating_sub(1), 0]);
    both.eliminate(width, &columns, room).ok();
}

/// Planning of a set that may be bad, with a working list around 64 places, or around what its ties ask for, and a word list of any
/// length.
pub fn lent_lists(both: &mut Both, r: &mut Random) {
    let content = small_content(r, 12, 10, 4);
    let mut set = file_of(&content);
    if r.one_in(4) {
        set = damaged_set(r, &set);
    }
    let needed = WORKING + named_of(&content);
    let working = r.pick(&[0, 1, 63, 64, 66, needed - 1, needed, needed + 1, 4_096]);
    planning(both, &set, working, r.below(14)).ok();
}

/// Expected bits of a good set for its own words, if it has any, or for another reduced list, with up to two changes.
pub fn expectation(both: &mut Both, r: &mut Random) {
    let largest_m = r.pick(&[4, 12, 64]);
    let content = small_content(r, largest_m, 12, 4);
    let (set, m) = (file_of(&content), content.m as usize);
    let own = both.plan_words(&set, WORKING_MOST, 64);
    let mut words = match own {
        Ok((_, words)) if r.one_in(2) => words,
        _ => reduced_words(r, m),
    };
    for _ in 0..r.below(3) {
        change_words(r, m, &mut words);
    }
    both.expect(&set, &words).ok();
}

/// Cutting of a set that may be bad or have ties, with a cut list of any length. Most k are 1 to m, and most sets have an unknown cell in one slice
/// and another, so that they are cut.
pub fn cutting(both: &mut Both, r: &mut Random) -> Reply<Cutting> {
    let (m, n, s) = (1 + r.below(12), 1 + r.below(6), r.below(12));
    let of = r.pick(&[1, 1, 2, 4]) + n / 2;
    let mut free = content(r, m, n, s, 1, of);
    if r.one_in(3) {
        free = tied(r, &free);
    }
    let mut set = file_of(&free);
    if r.one_in(16) {
        set = damaged_set(r, &set);
    }
    let (width, within, any) = (m as u64, 1 + r.below(m) as u64, r.word());
    let bad = r.pick(&[0, width + 1, any]);
    let k = r.pick(&[within, within, within, within, 1, 1, width, bad]);
    both.cut(&set, k, r.below(12))
}

/// A word more or less, another word, another order or another length.
fn change_words(r: &mut Random, m: usize, words: &mut Vec<u64>) {
    if words.is_empty() {
        return words.push(r.word());
    }
    let at = r.below(words.len());
    match r.below(9) {
        0 => words.clear(),
        1 => words.push(r.word()),
        2 => words.reverse(),
        3 => words[at] ^= 1 << r.below(64),
        4 => words.resize(r.pick(&[1, 64, 65, 66]), 1),
        5 => words.insert(0, words[0]),
        6 => drop(words.remove(at)),
        7 => words[at] = r.beyond(m),
        // one word more than m, where a word has a bit for it
        _ => *words = (0..=m.min(63)).map(|i| 1 << i).collect(),
    }
}

/// The plan writer on a good content with up to two changes.
pub fn plan_content(both: &mut Both, r: &mut Random) {
    let m = 1 + r.below(64);
    let words = reduced_words(r, m);
    let mut plan = Plan {
        m: m as u64,
        expected: r.within(words.len()),
        words,
    };
    for _ in 0..r.below(3) {
        change_plan(r, &mut plan);
    }
    let length = plan_length(plan.words.len());
    let room = r.pick(&[length, length, length + 3, length - 1, 0]);
    both.write_plan(&plan, room).ok();
}

fn change_plan(r: &mut Random, plan: &mut Plan) {
    match r.below(8) {
        0 => plan.m = r.pick(&[0, 1, 64, 65, u64::MAX]),
        1 => plan.expected = r.word(),
        _ => change_words(r, plan.m.min(64) as usize, &mut plan.words),
    }
}

/// A good plan file.
pub fn plan_file(r: &mut Random, m: usize) -> Vec<u8> {
    let words = reduced_words(r, m);
    let plan = Plan {
        m: m as u64,
        expected: r.within(words.len()),
        words,
    };
    write_plan(&plan, usize::MAX).expect("a good plan")
}

/// The calls on a plan file that may be bad.
pub fn plan_calls(both: &mut Both, r: &mut Random, plan: &[u8]) {
    let m = plan.first().map_or(0, |&b| usize::from(b));
    both.read_plan(plan, 64).ok();
    both.read_plan(plan, 1).ok();
    both.judge(plan, r.within(m)).ok();
    both.judge(plan, r.word()).ok();
}

/// A plan file as it is, cut, or with some bits changed.
fn bad_plan(both: &mut Both, r: &mut Random) {
    let m = if r.one_in(4) { 64 } else { 1 + r.below(64) };
    let mut plan = plan_file(r, m);
    let q = usize::from(plan[PLAN_COUNT_AT]);
    match r.below(5) {
        0 => plan.truncate(r.below(plan.len())),
        1 => {
            let at = r.pick(&[WIDTH_AT, PLAN_COUNT_AT, second_count_at(q), expected_at(q)]);
            plan[at] ^= 1 << r.below(8);
        }
        2 => {
            let at = r.below(plan.len());
            plan[at] ^= 1 << r.below(8);
        }
        _ => {}
    }
    plan_calls(both, r, &plan);
}
