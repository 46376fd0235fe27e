//! Cutting: the runs of small sets by the definition, those of large ones by a restart slice by slice, that no cutting has fewer runs, the
//! numbers 26 to 28, and what a run is: a set of its own.

use reference::both::Both;
use reference::draw;
use reference::random::*;
use reference::second::cutting::{cut, words_left, Cutting};
use reference::second::layout::row_bytes;
use reference::second::planning::WORKING;
use reference::second::set::{read_set, Content};
use reference::second::{row_bit, Reply};

/// The longest cut list that a set can need.
const ALL: usize = 512;

fn rank(columns: &[u64]) -> u64 {
    let mut by_top = [0u64; 64];
    let mut count = 0;
    for &column in columns {
        let mut left = column;
        while left != 0 && by_top[left.ilog2() as usize] != 0 {
            left ^= by_top[left.ilog2() as usize];
        }
        if left != 0 {
            by_top[left.ilog2() as usize] = left;
            count += 1;
        }
    }
    count
}

/// The state after a clock with all cells 0 and without inversions.
fn clocked(content: &Content, state: u64) -> u64 {
    let kept = state & !(1 << (content.m - 1));
    let feedback = if kept == state { 0 } else { content.taps };
    kept << 1 ^ feedback
}

/// The reply for these first slices.
fn cutting(content: &Content, k: u64, cuts: Vec<u64>) -> Cutting {
    let bits = content.m * k * cuts.len() as u64;
    Cutting { cuts, bits }
}

/// Cutting for a k of 1 to m and a list that is long enough, one slice after the other: the columns of the run so far are clocked once
/// more, and the slice's stand beside them; where they leave too few words together, the slice begins a run.
fn slice_by_slice(content: &Content, k: u64) -> Reply<Cutting> {
    let (m, n) = (content.m, content.spread.len());
    let mut cuts = Vec::new();
    let mut columns: Vec<u64> = Vec::new();
    for (t, row) in content.marks.chunks(row_bytes(n)).enumerate() {
        let marked = (0..n).filter(|&c| row_bit(row, c));
        let own: Vec<u64> = marked.map(|c| content.spread[c]).collect();
        if m - rank(&own) < k {
            return Err(27);
        }
        columns = columns.iter().map(|&c| clocked(content, c)).collect();
        columns.extend(&own);
        if t == 0 || m - rank(&columns) < k {
            cuts.push(t as u64);
            columns = own;
        }
    }
    Ok(cutting(content, k, cuts))
}

/// The slices from `start` up to `end` as a content of their own, every unknown cell free.
fn slices(content: &Content, start: usize, end: usize) -> Content {
    let b = row_bytes(content.spread.len());
    Content {
        values: content.values[b * start..b * end].to_vec(),
        marks: content.marks[b * start..b * end].to_vec(),
        s: (end - start) as u64,
        ties: vec![],
        ..content.clone()
    }
}

/// Where the runs begin and end.
fn runs(content: &Content, cutting: &Cutting) -> Vec<(usize, usize)> {
    let starts = cutting.cuts.iter().map(|&cut| cut as usize);
    let ends = starts.clone().skip(1).chain([content.s as usize]);
    starts.zip(ends).collect()
}

/// All lists of n spread words of m bits.
fn spreads(m: u64, n: u32) -> Vec<Vec<u64>> {
    let words = (1u64 << m) - 1;
    let list = |i: u64| (0..n).map(move |c| 1 + i / words.pow(c) % words);
    (0..words.pow(n)).map(|i| list(i).collect()).collect()
}

/// Every tap word, every list of spread words and all marks of up to four slices of one or two chains (three slices of two chains at m 3).
fn small_contents() -> impl Iterator<Item = Content> {
    let sizes = [
        (1, 1, 4),
        (1, 2, 4),
        (2, 1, 4),
        (2, 2, 4),
        (3, 1, 4),
        (3, 2, 3),
    ];
    let wired = sizes.into_iter().flat_map(|(m, n, longest)| {
        let wirings = spreads(m, n)
            .into_iter()
            .flat_map(move |spread| (0..1 << (m - 1)).map(move |t| (2 * t + 1, spread.clone())));
        wirings.map(move |(taps, spread)| (m, n, longest, taps, spread))
    });
    wired.flat_map(|(m, n, longest, taps, spread)| {
        let sized =
            (0..=longest).flat_map(move |s| (0..1u64 << (n * s)).map(move |marks| (s, marks)));
        sized.map(move |(s, marks)| Content {
            m,
            taps,
            inversion: 0,
            spread: spread.clone(),
            values: vec![0; s as usize],
            marks: (0..s)
                .map(|t| (marks >> (n * t) & ((1 << n) - 1)) as u8)
                .collect(),
            s: s.into(),
            ties: vec![],
        })
    })
}

/// By the definition: all small contents, for every k from 0 to m + 1.
#[test]
fn small_sets() {
    let mut both = Both::new();
    let mut several = 0;
    for content in small_contents() {
        both.at = format!("{content:?}");
        let set = file_of(&content);
        let cuttings = (0..=content.m + 1).filter_map(|k| both.cut(&set, k, 4).ok());
        several += cuttings.filter(|cutting| cutting.cuts.len() > 1).count();
    }
    let numbers = [0, 26, 27].map(|number| both.seen("cut", number));
    assert!(
        several > 6_000 && numbers.iter().all(|&seen| seen > 20_000),
        "{several} answers of several runs; answers, 26 and 27: {numbers:?}"
    );
}

/// All divisions of `s` slices into consecutive runs that have a slice at least, by the first slice of each: slice 0 begins one, and each
/// other does or doesn't. Without slices there is one division, without runs.
fn divisions(s: usize) -> impl Iterator<Item = Vec<u64>> {
    let begun = (0..1u64 << s).filter(move |begun| s == 0 || begun & 1 == 1);
    begun.map(move |begun| (0..s as u64).filter(|t| begun >> t & 1 == 1).collect())
}

/// What was met while all cuttings of many sets were tried.
#[derive(Debug, Default)]
struct Tried {
    /// All cuttings.
    cuttings: usize,
    /// Those that cost as much as the call's and begin their runs elsewhere.
    as_cheap: usize,
    /// Answers of more runs than one.
    several: usize,
    /// Sets and k without a cutting.
    without: usize,
    /// Answers for a set without slices.
    empty: usize,
}

impl Tried {
    /// Each count, in their order, is above what is asked for.
    fn more_than(&self, asked: [usize; 5]) -> bool {
        let met = [
            self.cuttings,
            self.as_cheap,
            self.several,
            self.without,
            self.empty,
        ];
        met.iter().zip(asked).all(|(&met, asked)| met > asked)
    }
}

/// For every k from 1 to m the call's reply is one of all cuttings, with their control bits, and none has fewer runs; it gives 27 exactly
/// where there is none.
fn every_cutting(both: &mut Both, content: &Content, tried: &mut Tried) {
    let set = file_of(content);
    let read = read_set(&set).expect("a good set");
    let mut left: Vec<Vec<u64>> = Vec::new();
    for start in 0..read.s() {
        let ends = start..=read.s();
        left.push(ends.map(|end| words_left(&read, start, end)).collect());
    }
    for k in 1..=content.m {
        both.at = format!("{content:?}, k {k}");
        let enough = |&(start, end): &(usize, usize)| left[start][end - start] >= k;
        let cuttings: Vec<Cutting> = divisions(read.s())
            .map(|starts| cutting(content, k, starts))
            .filter(|cutting| runs(content, cutting).iter().all(enough))
            .collect();
        let fewest = cuttings.iter().map(|cutting| cutting.cuts.len()).min();
        match both.cut(&set, k, ALL) {
            Ok(reply) => {
                assert!(cuttings.contains(&reply), "{}: {reply:?}", both.at);
                assert_eq!(Some(reply.cuts.len()), fewest, "{}", both.at);
                let others = cuttings.iter().filter(|&cutting| *cutting != reply);
                tried.as_cheap += others.filter(|cutting| cutting.bits == reply.bits).count();
                tried.several += usize::from(reply.cuts.len() > 1);
                tried.empty += usize::from(read.s() == 0);
            }
            Err(number) => {
                assert_eq!((number, fewest), (27, None), "{}", both.at);
                tried.without += 1;
            }
        }
        tried.cuttings += cuttings.len();
    }
}

/// By force: all cuttings of all small contents.
#[test]
fn no_cutting_of_a_small_set_has_fewer_runs() {
    let (mut both, mut tried) = (Both::new(), Tried::default());
    for content in small_contents() {
        every_cutting(&mut both, &content, &mut tried);
    }
    assert!(
        tried.more_than([80_000, 3_000, 10_000, 30_000, 700]),
        "{tried:?}"
    );
}

/// By force: all cuttings of random sets of up to nine slices.
#[test]
fn no_cutting_of_a_random_set_has_fewer_runs() {
    let (mut both, mut tried) = (Both::new(), Tried::default());
    for seed in 331_000..332_000 {
        let mut r = Random::new(seed);
        let (m, n, s) = (2 + r.below(11), 1 + r.below(6), r.below(10));
        let of = r.pick(&[1, 2, 3, 5]) + n / 2;
        let content = content(&mut r, m, n, s, 1, of);
        every_cutting(&mut both, &content, &mut tried);
    }
    assert!(
        tried.more_than([150_000, 2_500, 1_200, 1_000, 500]),
        "{tried:?}"
    );
}

/// By the definition: random sets, k and cut lists, good and bad.
#[test]
fn random_cuttings() {
    let mut both = Both::new();
    let (mut several, mut many) = (0, 0);
    for seed in 310_000..320_000 {
        both.at = format!("seed {seed}");
        let cutting = draw::cutting(&mut both, &mut Random::new(seed));
        let runs = cutting.map_or(0, |cutting| cutting.cuts.len());
        several += usize::from(runs > 1);
        many += usize::from(runs > 3);
    }
    let numbers = [26, 27, 28].map(|number| both.seen("cut", number));
    assert!(
        several > 1_000 && many > 200 && numbers.iter().all(|&seen| seen > 500),
        "{several} answers of more than one run, {many} of more than three; 26 to 28: {numbers:?}"
    );
}

/// A content of 64 bits and up to 256 chains and 512 slices: with unknown cells anywhere, or of a rank below 64, or with many cells
/// unknown in chains that share a few words.
fn large_content(r: &mut Random) -> Content {
    let (any, n) = (1 + r.below(512), 40 + r.below(217));
    let s = r.pick(&[any, any, 511, 512]);
    match r.below(4) {
        0 | 1 => {
            let of = r.pick(&[5, 10, 20, 50, 250, 2_000, 30_000]);
            content(r, 64, n, s, 1, of)
        }
        2 => {
            let rank = 1 + r.below(63);
            let unknowns = rank + 8 + r.below(4 * s);
            content_of_rank(r, (64, n, s.max(20)), rank, unknowns)
        }
        _ => {
            let of = r.pick(&[1, 2, 8, 40]);
            let mut content = content(r, 64, n, s, 1, of);
            let words: Vec<u64> = (0..1 + r.below(40)).map(|_| r.some_within(64)).collect();
            for w in &mut content.spread {
                *w = r.pick(&words);
            }
            content
        }
    }
}

/// Runs of large sets begin where a restart slice by slice begins them, with ties too.
#[test]
fn large_sets() {
    let mut both = Both::new();
    let (mut several, mut many) = (0, 0);
    for seed in 320_000..320_100 {
        let mut r = Random::new(seed);
        let content = large_content(&mut r);
        let set = file_of(&content);
        let with_ties = file_of(&tied(&mut r, &content));
        for k in [1, 8, 32, 63, 64] {
            both.at = format!("seed {seed}, k {k}");
            let reply = slice_by_slice(&content, k);
            let runs = reply.as_ref().map_or(0, |cutting| cutting.cuts.len());
            both.cut_is(&set, k, ALL, &reply);
            both.cut_is(&with_ties, k, ALL, &reply);
            if reply.is_ok() {
                both.cut_is(&set, k, runs, &reply);
                both.cut_is(&set, k, runs - 1, &Err(28));
            }
            several += usize::from(runs > 1);
            many += usize::from(runs > 50);
        }
    }
    let bad_slices = both.seen("cut", 27);
    assert!(
        several > 150 && many > 80 && bad_slices > 300,
        "{several} answers of more than one run, {many} of more than 50; {bad_slices} gave 27"
    );
}

/// In a register that rotates, one chain with every cell unknown gives each slice of a run a column of its own bit, so that a run has
/// m - k slices; at k m a slice alone leaves too few.
#[test]
fn every_cell_unknown_in_a_register_that_rotates() {
    let mut both = Both::new();
    for (m, s) in [1, 2, 3, 8, 33, 63, 64]
        .into_iter()
        .flat_map(|m| [0, 1, 2, 63, 64, 511, 512].map(|s| (m, s)))
    {
        let content = Content {
            m,
            taps: 1,
            inversion: 0,
            spread: vec![1 << (m / 2)],
            values: vec![0; s],
            marks: vec![1; s],
            s: s as u64,
            ties: vec![],
        };
        for k in 1..=m {
            both.at = format!("m {m}, s {s}, k {k}");
            let reply = if k == m && s > 0 {
                Err(27)
            } else {
                let cuts = (0..s as u64).step_by((m - k).max(1) as usize);
                Ok(cutting(&content, k, cuts.collect()))
            };
            both.cut_is(&file_of(&content), k, ALL, &reply);
        }
    }
}

/// 131,072 unknown cells whose columns, those of one slice already, have rank 40: for k up to 24 all slices are one run, and for 25 no
/// slice leaves enough.
#[test]
fn every_cell_unknown_in_the_largest_set() {
    let mut both = Both::new();
    let mut r = Random::new(321_500);
    let content = content_of_rank(&mut r, (64, 256, 512), 40, 131_072);
    let set = file_of(&content);
    for (k, reply) in [
        (1, Ok(cutting(&content, 1, vec![0]))),
        (24, Ok(cutting(&content, 24, vec![0]))),
        (25, Err(27)),
    ] {
        both.at = format!("k {k}");
        both.cut_is(&set, k, 1, &reply);
    }
}

/// Without an unknown cell all slices are one run, whatever k is.
#[test]
fn no_cell_unknown() {
    let mut both = Both::new();
    for m in 1..=64 {
        let mut r = Random::new(321_000 + m as u64);
        let (n, s) = (1 + r.below(256), r.pick(&[1, 2, 9, 511, 512]));
        let content = content(&mut r, m, n, s, 0, 1);
        let set = file_of(&content);
        for k in 1..=m as u64 {
            both.at = format!("m {m}, n {n}, s {s}, k {k}");
            let reply = Ok(cutting(&content, k, vec![0]));
            both.cut_is(&set, k, 1, &reply);
        }
    }
}

/// Nine slices of 8 chains in a register of 8 bits that rotates, each chain with a bit of its own: slice `at` has this row of marks, and
/// in each other chain 0's cell is unknown.
fn one_slice_with(at: usize, row: u8) -> Content {
    let mut marks = vec![1; 9];
    marks[at] = row;
    Content {
        m: 8,
        taps: 1,
        inversion: 0,
        spread: (0..8).map(|c| 1 << c).collect(),
        values: vec![0; 9],
        marks,
        s: 9,
        ties: vec![],
    }
}

/// A slice that alone leaves fewer than k words gives 27 wherever it stands and however short the cut list is, also where the list ends
/// before it. Where the slice leaves k words the short lists give 28.
#[test]
fn a_slice_that_leaves_too_few_words() {
    let mut both = Both::new();
    for at in 0..9 {
        let rows = [0b0010_1000, 0b1010_1000];
        let [good, bad] = rows.map(|row| file_of(&one_slice_with(at, row)));
        // two slices with one column each make a run, and the slice with two columns does by itself
        let runs = at.div_ceil(2) + 1 + (8 - at).div_ceil(2);
        for room in 0..=10 {
            both.at = format!("slice {at}, {room} places");
            assert_eq!(both.cut(&bad, 6, room), Err(27), "{}", both.at);
            let number = both.cut(&good, 6, room).err();
            assert_eq!(number, (room < runs).then_some(28), "{}", both.at);
        }
    }
}

/// 28 is given for each length below the number of runs and for no other; longer lists get the same answer.
#[test]
fn cut_lists_of_every_length() {
    let mut both = Both::new();
    let mut short = 0;
    for seed in 322_000..322_400 {
        let mut r = Random::new(seed);
        let content = small_content(&mut r, 16, 8, 12);
        let set = file_of(&content);
        let k = 1 + r.below(content.m as usize) as u64;
        both.at = format!("seed {seed}, k {k}");
        let Ok(cutting) = both.cut(&set, k, ALL) else {
            continue;
        };
        let runs = cutting.cuts.len();
        for room in 0..=runs + 3 {
            both.at = format!("seed {seed}, k {k}, {room} places");
            let want = match room < runs {
                true => Err(28),
                false => Ok(cutting.clone()),
            };
            assert_eq!(both.cut(&set, k, room), want, "{}", both.at);
        }
        short += runs;
    }
    let answers = both.seen("cut", 0);
    assert!(
        answers > 800 && short > 400,
        "{answers} answers, {short} lists too short"
    );
}

/// A set without slices has no runs, and 26 is looked for there too.
#[test]
fn no_slices() {
    let mut both = Both::new();
    for m in 1..=64 {
        let set = without_rows(m, 1, 0, 3, 0);
        let m = u64::from(m);
        for (k, room) in [0, 1, m, m + 1, u64::MAX]
            .into_iter()
            .flat_map(|k| [0, 1, 3].map(|room| (k, room)))
        {
            both.at = format!("m {m}, k {k}, {room} places");
            let none = Cutting {
                cuts: vec![],
                bits: 0,
            };
            let want = if k == 1 || k == m { Ok(none) } else { Err(26) };
            assert_eq!(both.cut(&set, k, room), want, "{}", both.at);
        }
    }
}

/// 26 is given for k 0 and for each k above m, however large, also where a slice leaves no words and the list is too short.
#[test]
fn each_k_that_is_not_1_to_m() {
    let mut both = Both::new();
    for m in 1..=64 {
        let mut r = Random::new(323_000 + m as u64);
        let known = file_of(&content(&mut r, m, 5, 3, 0, 1));
        let none_left = file_of(&content_of_rank(&mut r, (m, 200, 1), m, 150));
        let m = m as u64;
        let wide = [8, 16, 32, 63].map(|bit| (1 << bit) + 1);
        for k in [0, 1, m, m + 1, 64, 65, 1 << 63, u64::MAX]
            .into_iter()
            .chain(wide)
        {
            both.at = format!("m {m}, k {k}");
            let is_share = (1..=m).contains(&k);
            let number = both.cut(&known, k, 1).err();
            assert_eq!(number, (!is_share).then_some(26), "{}", both.at);
            let number = both.cut(&none_left, k, 0).err();
            assert_eq!(number, Some(if is_share { 27 } else { 26 }), "{}", both.at);
        }
    }
}

/// Random contents with a k below m for each, of which many are answered with several runs.
fn some_contents(seeds: std::ops::Range<u64>) -> impl Iterator<Item = (u64, Random, Content, u64)> {
    seeds.map(|seed| {
        let mut r = Random::new(seed);
        let (m, n, s) = (3 + r.below(18), 1 + r.below(10), 4 + r.below(12));
        let of = r.pick(&[1, 2, 3]) + n / 2;
        let content = content(&mut r, m, n, s, 1, of);
        let k = 1 + r.below(m - 1) as u64;
        (seed, r, content, k)
    })
}

/// No value of a known cell bears on the answer.
#[test]
fn the_same_marks_with_other_values() {
    let mut both = Both::new();
    let mut several = 0;
    for (seed, mut r, content, k) in some_contents(324_000..325_000) {
        both.at = format!("seed {seed}");
        let before = both.cut(&file_of(&content), k, ALL);
        let other = revised(&mut r, &content);
        assert_eq!(both.cut(&file_of(&other), k, ALL), before, "{}", both.at);
        let differ = other.values != content.values;
        several += usize::from(differ && before.is_ok_and(|cutting| cutting.cuts.len() > 1));
    }
    assert!(several > 200, "{several} answers of several runs");
}

/// Nor does the inversion word.
#[test]
fn the_same_marks_with_another_inversion() {
    let mut both = Both::new();
    let mut several = 0;
    for (seed, mut r, content, k) in some_contents(325_000..326_000) {
        both.at = format!("seed {seed}");
        let before = both.cut(&file_of(&content), k, ALL);
        let mut other = content.clone();
        other.inversion ^= r.some_within(content.m as usize);
        assert_eq!(both.cut(&file_of(&other), k, ALL), before, "{}", both.at);
        several += usize::from(before.is_ok_and(|cutting| cutting.cuts.len() > 1));
    }
    assert!(several > 200, "{several} answers of several runs");
}

/// How many words planning gives for these slices, written as a set of their own: m less the rank of its columns.
fn words_of(both: &mut Both, content: &Content) -> u64 {
    let length = file_of(content).len();
    let set = both.write_set(content, length).expect("a good content");
    let columns = both.list_columns(&set, unknowns_of(content));
    let left = content.m - rank(&columns.expect("room for all columns"));
    match both.plan_words(&set, WORKING, left as usize) {
        Ok((_, words)) => assert_eq!(words.len() as u64, left, "{}", both.at),
        Err(number) => assert_eq!((number, left), (17, 0), "{}", both.at),
    }
    left
}

/// Each run, written as a set of its own, has a plan of at least k words, and with the slice behind it one of fewer or none.
#[test]
fn runs_planned_as_sets_of_their_own() {
    let mut both = Both::new();
    let mut followed = 0;
    for (seed, _, content, k) in some_contents(326_000..328_000) {
        both.at = format!("seed {seed}");
        let Ok(cutting) = both.cut(&file_of(&content), k, ALL) else {
            continue;
        };
        for (start, end) in runs(&content, &cutting) {
            both.at = format!("seed {seed}, k {k}, slices {start} to {end}");
            let words = words_of(&mut both, &slices(&content, start, end));
            assert!(words >= k, "{}: {words} words", both.at);
            if end < content.s as usize {
                let words = words_of(&mut both, &slices(&content, start, end + 1));
                assert!(words < k, "{}: {words} words with one more", both.at);
                followed += 1;
            }
        }
    }
    assert!(followed > 1_000, "{followed} runs have a slice behind them");
}

/// A run doesn't depend on those before it: from each cut on the slices are cut as a set of their own is.
#[test]
fn the_slices_from_a_cut_on() {
    let mut both = Both::new();
    let mut tails = 0;
    for (seed, _, content, k) in some_contents(328_000..329_000) {
        both.at = format!("seed {seed}");
        let Ok(whole) = both.cut(&file_of(&content), k, ALL) else {
            continue;
        };
        for (i, &start) in whole.cuts.iter().enumerate().skip(1) {
            both.at = format!("seed {seed}, k {k}, from slice {start} on");
            let tail = slices(&content, start as usize, content.s as usize);
            let cuts = whole.cuts[i..].iter().map(|cut| cut - start);
            let want = Ok(cutting(&content, k, cuts.collect()));
            assert_eq!(both.cut(&file_of(&tail), k, ALL), want, "{}", both.at);
            tails += 1;
        }
    }
    assert!(tails > 500, "{tails} tails");
}

/// The greatest end that leaves k words is the one before the first that doesn't: a slice more never leaves more words. So the restart
/// that `large_sets` goes by cuts as the definition does.
#[test]
fn the_greatest_end_is_before_the_first_failure() {
    let (mut several, mut refused) = (0, 0);
    for (seed, _, content, k) in some_contents(329_000..331_000) {
        let set = file_of(&content);
        let read = read_set(&set).expect("a good set");
        for start in 0..read.s() {
            let left: Vec<u64> = (start..=read.s())
                .map(|end| words_left(&read, start, end))
                .collect();
            assert!(left.is_sorted_by(|a, b| a >= b), "seed {seed}, {left:?}");
        }
        let cutting = cut(&set, k, ALL);
        assert_eq!(cutting, slice_by_slice(&content, k), "seed {seed}, k {k}");
        refused += usize::from(cutting == Err(27));
        several += usize::from(cutting.is_ok_and(|cutting| cutting.cuts.len() > 1));
    }
    assert!(
        several > 500 && refused > 200,
        "{several} answers of several runs, {refused} gave 27"
    );
}
