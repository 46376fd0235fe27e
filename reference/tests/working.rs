//! Planning from a working list of 64 places: its lengths around 64, what it holds before and after, and sets whose columns fill it
//! many times over, with marks laid so that it is full, or almost, in the middle of a row.

use reference::both::Both;
use reference::draw::planning;
use reference::library::*;
use reference::random::*;
use reference::second::planning::WORKING;
use reference::second::set::Content;

#[test]
fn sets_of_all_sizes() {
    let mut both = Both::new();
    let mut expecting = 0;
    for seed in 300_000..300_400 {
        let mut r = Random::new(seed);
        let (any, most) = (1 + r.below(64), r.pick(&[8, 64, 128, 256]));
        let m = r.pick(&[any, any, any, 1, 63, 64]);
        let s = r.pick(&[0, 1, 2, 8, 40, 511, 512]);
        let n = 1 + r.below(most);
        // a column of s slices takes the second implementation s clocks
        let most = (n * s).min(60_000 / s.max(1));
        both.at = format!("seed {seed}, m {m}, n {n}, s {s}, at most {most} unknown cells");
        let (rank, unknowns) = (1 + r.below(m), r.below(most + 1));
        let c = if unknowns < rank + 8 {
            content(&mut r, m, n, s, 1, 1 + n * s / (1 + unknowns))
        } else {
            content_of_rank(&mut r, (m, n, s), rank, unknowns)
        };
        let planned = planning(&mut both, &file_of(&c), WORKING, 64);
        expecting += u64::from(planned.is_ok_and(|p| p.expected != 0));
    }
    let (answers, without_words) = (both.seen("plan", 0), both.seen("plan", 17));
    assert!(
        answers > 250 && expecting > 150 && without_words > 20,
        "{answers} plans, {expecting} of them expect a 1, {without_words} sets have no words"
    );
}

/// A set with words, one without any, one without unknown cells and one without slices.
fn some_sets(r: &mut Random) -> [(Vec<u8>, Option<usize>); 4] {
    let with = content_of_rank(r, (24, 70, 9), 20, 300);
    let none = content_of_rank(r, (24, 70, 9), 24, 300);
    let known = content(r, 24, 70, 9, 0, 1);
    let empty = content(r, 24, 70, 0, 0, 1);
    [
        (file_of(&with), Some(4)),
        (file_of(&none), None),
        (file_of(&known), Some(24)),
        (file_of(&empty), Some(24)),
    ]
}

#[test]
fn lists_of_fewer_than_64_places_give_14_and_longer_ones_the_same_plan() {
    let mut both = Both::new();
    for (i, (set, q)) in some_sets(&mut Random::new(301_000)).iter().enumerate() {
        both.at = format!("set {i}");
        let plan = planning(&mut both, set, WORKING, 64);
        match q {
            Some(q) => assert_eq!(plan.as_ref().map(|p| p.words.len()), Ok(*q)),
            None => assert_eq!(plan, Err(17)),
        }
        for room in [65, 66, 128, 4_096, 131_072] {
            both.at = format!("set {i}, {room} places");
            let again = planning(&mut both, set, room, 64);
            assert_eq!(again, plan, "{}", both.at);
            let short = planning(&mut both, set, room, q.unwrap_or(1) - 1);
            let number = if q.is_some() { 18 } else { 17 };
            assert_eq!(short, Err(number), "{}", both.at);
        }
        for room in [0, 1, 2, 31, 62, 63] {
            both.at = format!("set {i}, {room} places");
            for words in [64, 0] {
                let short = planning(&mut both, set, room, words);
                assert_eq!(short, Err(14), "{}", both.at);
            }
        }
        // the set's number comes first, and the list is untouched however long it is
        for room in [0, 63, 64, 4_096] {
            both.at = format!("set {i} with m 65, {room} places");
            let bad = [&[65, 0], &set[2..]].concat();
            let refused = planning(&mut both, &bad, room, 64);
            assert_eq!(refused, Err(2), "{}", both.at);
        }
    }
}

#[test]
fn what_the_working_list_holds_before_changes_nothing() {
    for seed in 302_000..302_060 {
        let mut r = Random::new(seed);
        let (m, rank) = (24 + r.below(41), 1 + r.below(23));
        let unknowns = r.pick(&[rank + 8, 63, 64, 65, 128, 200, 513, 700]);
        let c = content_of_rank(&mut r, (m, 200, 9), rank, unknowns);
        let set = file_of(&c);
        let mut plans = Vec::new();
        for (zeros, ones) in [(false, false), (true, true), (true, false), (false, true)] {
            let mut both = Both::at(&format!("seed {seed}, zeros {zeros}, ones {ones}"));
            if zeros {
                both.before[0] = |bytes| vec![0; bytes];
            }
            if ones {
                both.before[1] = |bytes| vec![255; bytes];
            }
            let room = r.pick(&[64, 65, 4_096]);
            plans.push(both.plan(&set, room, 64).expect("fewer than m dimensions"));
        }
        assert_eq!(plans[0].words.len(), m - rank, "seed {seed}");
        assert!(plans.iter().all(|p| *p == plans[0]), "seed {seed}");
    }
}

/// How many marks a group of 64 chains has in a row: none, one, all, and counts of which one, two or more make 64 places full, or are
/// too many by one.
const MARKS: [usize; 11] = [0, 0, 1, 2, 31, 32, 33, 62, 63, 64, 64];

/// Cells by slice and chain: in each row each group of 64 of n chains has one of these counts, or as many as it has chains.
fn grouped(r: &mut Random, n: usize, s: usize, counts: &[usize]) -> Vec<(usize, usize)> {
    let mut cells = Vec::new();
    for t in 0..s {
        for first in (0..n).step_by(64) {
            let chains = (n - first).min(64);
            let count = r.pick(counts).min(chains);
            let chosen = some_of(r, chains, count);
            cells.extend(chosen.into_iter().map(|c| (t, first + c)));
        }
    }
    cells
}

/// A content with such cells, whose columns lie in `rank` dimensions; and the same with one more unknown cell for each of the slices
/// `alone`, each in a chain of its own whose spread word lies outside.
fn with_cells_alone(
    r: &mut Random,
    (m, n, s): (usize, usize, usize),
    rank: usize,
    counts: &[usize],
    alone: &[usize],
) -> [Content; 2] {
    let outside = some_of(r, n, alone.len());
    let mut cells = grouped(r, n, s, counts);
    cells.retain(|(_, c)| !outside.contains(c));
    let inside = content_with_marks(&mut r.clone(), (m, n, s), rank, &cells, &outside);
    cells.extend(alone.iter().copied().zip(outside.iter().copied()));
    [
        inside,
        content_with_marks(r, (m, n, s), rank, &cells, &outside),
    ]
}

/// How many words planning gives; 0 for 17.
fn words_of(both: &mut Both, content: &Content) -> usize {
    match both.plan(&file_of(content), WORKING, 64) {
        Ok(plan) => plan.words.len(),
        Err(number) => {
            assert_eq!(number, 17, "{}", both.at);
            0
        }
    }
}

#[test]
fn rows_that_fill_the_list_in_their_middle() {
    let mut both = Both::new();
    let mut fewer = 0;
    for seed in 303_000..303_200 {
        let mut r = Random::new(seed);
        let n = r.pick(&[64, 65, 100, 127, 128, 129, 192, 200, 255, 256]);
        let s = 1 + r.below(12);
        let m = 8 + r.below(57);
        let rank = 1 + r.below(m - 1);
        let counts = r.pick(&[&MARKS[..], &[64], &[63, 2], &[32], &[33], &[0, 1]]);
        let slice = r.pick(&[0, s - 1, s / 2]);
        both.at = format!("seed {seed}, m {m}, n {n}, s {s}, one cell alone in slice {slice}");
        let [inside, more] = with_cells_alone(&mut r, (m, n, s), rank, counts, &[slice]);
        let before = words_of(&mut both, &inside);
        fewer += usize::from(words_of(&mut both, &more) < before);
    }
    let answers = both.seen("plan", 0);
    assert!(
        answers > 300 && fewer > 150,
        "{answers} plans, {fewer} cells alone take a word away"
    );
}

#[test]
fn one_independent_column_in_the_first_slice_or_the_last_is_not_lost() {
    let mut both = Both::new();
    for (i, (counts, s)) in [
        (&[0, 1][..], 20),
        (&[2, 31], 3),
        (&[63, 2], 6),
        (&[64], 4),
        (&[64], 24),
        (&[32, 33], 40),
        (&[0, 0, 0, 0, 1], 512),
    ]
    .into_iter()
    .enumerate()
    {
        for slice in [0, s - 1] {
            for rank in [1, 10, 40, 63] {
                let mut r = Random::new(304_000 + 10 * i as u64 + rank as u64);
                both.at = format!("rank {rank}, {counts:?}, alone in slice {slice} of {s}");
                let shape = (64, 256, s);
                let [inside, more] = with_cells_alone(&mut r, shape, rank, counts, &[slice]);
                let (before, after) = (words_of(&mut both, &inside), words_of(&mut both, &more));
                assert!(before >= 64 - rank, "{}", both.at);
                assert_eq!(after, before - 1, "{}", both.at);
            }
        }
    }
}

#[test]
fn ranks_that_rise_slowly() {
    // a column outside now and then, from the last slice to the first, so that the words change again and again between portions that
    // leave them as they are
    let mut both = Both::new();
    for seed in 305_000..305_030 {
        let mut r = Random::new(seed);
        let (rank, s, alone) = (1 + r.below(30), 20 + r.below(60), 1 + r.below(30));
        let slices: Vec<usize> = (0..alone).map(|_| r.below(s)).collect();
        both.at = format!("seed {seed}, rank {rank}, {alone} cells alone in {s} slices");
        let counts = r.pick(&[&[1, 2][..], &[8], &[31, 32], &[0, 64]]);
        let [inside, more] = with_cells_alone(&mut r, (64, 200, s), rank, counts, &slices);
        let (before, after) = (words_of(&mut both, &inside), words_of(&mut both, &more));
        assert_eq!(before, 64 - rank, "{}", both.at);
        assert_eq!(after, 64 - rank - alone, "{}", both.at);
    }
}

#[test]
fn chains_that_share_their_words() {
    // few different columns though many cells are unknown, in a space that a clock leaves: a column clocked once too often or too seldom
    // gives other words
    let mut both = Both::new();
    for seed in 307_000..307_200 {
        let mut r = Random::new(seed);
        let (m, n, s) = (48 + r.below(17), 64 + r.below(193), 1 + r.below(12));
        let counts = r.pick(&[&MARKS[..], &[64], &[63, 2], &[31, 33], &[0, 1, 2]]);
        let cells = grouped(&mut r, n, s, counts);
        let mut content = content_with_marks(&mut r, (m, n, s), m, &cells, &[]);
        let words: Vec<u64> = (0..1 + r.below(4)).map(|_| r.some_within(m)).collect();
        for w in &mut content.spread {
            *w = r.pick(&words);
        }
        both.at = format!("seed {seed}, m {m}, n {n}, s {s}, {} words", words.len());
        assert_ne!(words_of(&mut both, &content), 0, "{}", both.at);
    }
}

/// The words of a set, by planning and by eliminating all of its columns, which are listed first: calls of the library alone.
fn by_both_ways(set: &[u8], unknowns: usize) -> [Result<Vec<u64>, u64>; 2] {
    let (mut working, mut planned) = ([u64::MAX; WORKING], [0; 64]);
    let (mut columns, mut words) = (vec![0; unknowns], [0; 64]);
    let (w, c) = (working.as_mut_ptr(), columns.as_mut_ptr());
    let (plan, listed, eliminated) = unsafe {
        (
            canceller_plan_words(
                set.as_ptr(),
                set.len(),
                w,
                WORKING,
                planned.as_mut_ptr(),
                64,
            ),
            canceller_list_columns(set.as_ptr(), set.len(), c, unknowns),
            canceller_eliminate(set[0].into(), c, unknowns, words.as_mut_ptr(), 64),
        )
    };
    assert_eq!([listed.refusal, listed.count], [0, unknowns as u64]);
    assert_eq!(working, [0; WORKING]);
    let reply = |refusal, words: &[u64]| match refusal {
        0 => Ok(words.to_vec()),
        number => Err(number),
    };
    [
        reply(plan.refusal, &planned[..plan.q as usize]),
        reply(eliminated.refusal, &words[..eliminated.q as usize]),
    ]
}

#[test]
fn the_librarys_words_are_those_of_all_its_columns() {
    let (mut answers, mut late) = (0, 0);
    for seed in 306_000..306_400 {
        let mut r = Random::new(seed);
        let (m, n, s) = (40 + r.below(25), 60 + r.below(197), 100 + r.below(413));
        let rank = r.pick(&[1, 10, 30, m - 4, m - 3, m - 2, m - 1]);
        let counts = r.pick(&[
            &MARKS[..],
            &[64],
            &[63, 2],
            &[31, 32, 33],
            &[0, 1],
            &[0, 0, 0, 64],
        ]);
        let alone: Vec<usize> = (0..r.below(5))
            .map(|_| r.pick(&[0, 0, s / 2, s - 1]))
            .collect();
        let [inside, more] = with_cells_alone(&mut r, (m, n, s), rank, counts, &alone);
        let [before, after] = [inside, more].map(|content| {
            let [planned, all] = by_both_ways(&file_of(&content), unknowns_of(&content));
            assert_eq!(
                planned, all,
                "seed {seed}, m {m}, n {n}, s {s}, rank {rank}, alone {alone:?}"
            );
            planned
        });
        answers += usize::from(after.is_ok());
        late += usize::from(before != after);
    }
    assert!(
        answers > 250 && late > 250,
        "{answers} sets have words, {late} others for the cells alone"
    );
}
