//! Values revised while the unknown marks stay, by planning's two calls: the words, which stay too, and the expected bits of a set for
//! a list of words, its own or another. Planning is the two in a row.

use reference::both::Both;
use reference::draw;
use reference::library::{canceller_expect, canceller_plan, canceller_plan_words, made};
use reference::random::*;
use reference::second::layout::{expected_at, row_bytes, TIE};
use reference::second::plan::Plan;
use reference::second::planning::{WORKING, WORKING_MOST};
use reference::second::set::Content;
use std::collections::{BTreeMap, BTreeSet};

/// For each word whether it shares an odd number of bits with the signature: bit i for word i.
fn parities(words: &[u64], signature: u64) -> u64 {
    let odd = |(i, w): (usize, &u64)| u64::from((w & signature).count_ones() % 2) << i;
    words.iter().enumerate().map(odd).sum()
}

/// The signature of a set's value rows taken as a record: the symbols are 0 there, with a 1 in the cells that are tied as opposite.
fn zero_signature(both: &mut Both, content: &Content) -> u64 {
    let mut record = content.values.clone();
    for entry in content.ties.chunks(TIE).filter(|entry| entry[6] == 1) {
        let number = |at: usize| usize::from(u16::from_le_bytes([entry[at], entry[at + 1]]));
        let (slice, chain) = (number(0), number(2));
        record[row_bytes(content.spread.len()) * slice + chain / 8] |= 1 << (chain % 8);
    }
    let signed = both.sign(&file_of(content), &record);
    signed.expect("value rows are a record of the set's shape")
}

/// The words of a single bit each.
fn single_bits(m: u64) -> Vec<u64> {
    (0..m).map(|i| 1 << i).collect()
}

/// The plan of a set's words and a revised set's expected bits, with its file, which is that of the plan made of the revised set
/// alone; and the expected bits that the words had before. None where the sets have no words.
fn revised_plan(
    both: &mut Both,
    before: &Content,
    after: &Content,
) -> Option<(Vec<u8>, Plan, u64)> {
    let (old, new) = (file_of(before), file_of(after));
    let words = both.plan_words(&old, WORKING_MOST, 64);
    assert_eq!(
        both.plan_words(&new, WORKING_MOST, 64),
        words,
        "{}",
        both.at
    );
    let (m, words) = words.ok()?;
    let earlier = both.expect(&old, &words).expect("a reduced list");
    let expected = both.expect(&new, &words).expect("a reduced list");
    let plan = Plan { m, words, expected };
    let file = both.write_plan(&plan, 526).expect("a good plan");
    let anew = both
        .plan(&new, WORKING_MOST, 64)
        .expect("a plan, as it has words");
    assert_eq!(both.write_plan(&anew, 526), Ok(file.clone()), "{}", both.at);
    Some((file, plan, earlier))
}

#[test]
fn a_plan_of_the_old_words_and_the_revised_bits_is_the_plan_made_anew() {
    let mut both = Both::new();
    let (mut moved, mut stayed, mut refused) = (0, 0, 0);
    for seed in 140_000..142_000 {
        let mut r = Random::new(seed);
        both.at = format!("seed {seed}");
        let largest_m = r.pick(&[8, 24, 64]);
        let before = small_content(&mut r, largest_m, 20, 8);
        let after = revised(&mut r, &before);
        let Some((file, plan, earlier)) = revised_plan(&mut both, &before, &after) else {
            refused += 1;
            continue;
        };
        // all but the expected bits is the old plan's
        let (old, words) = (file_of(&before), expected_at(plan.words.len()));
        let old = both.plan(&old, WORKING_MOST, 64).expect("a plan");
        assert_eq!(old.expected, earlier, "{}", both.at);
        let old = both.write_plan(&old, 526).expect("a good plan");
        assert_eq!(file[..words], old[..words], "{}", both.at);
        moved += usize::from(plan.expected != earlier);
        stayed += usize::from(plan.expected == earlier);
    }
    assert!(
        moved > 600 && stayed > 200 && refused > 200,
        "{moved} plans have other bits, {stayed} the same, {refused} sets have no words"
    );
}

#[test]
fn the_largest_sets_revised() {
    let mut both = Both::new();
    let mut failing = 0;
    for (rank, unknowns) in [(1, 1), (20, 90), (40, 512), (62, 513), (63, 700)] {
        let mut r = Random::new(142_000 + rank as u64);
        both.at = format!("rank {rank}, {unknowns} unknown cells");
        let before = content_of_rank(&mut r, (64, 256, 512), rank, unknowns);
        let after = revised(&mut r, &before);
        let made = revised_plan(&mut both, &before, &after);
        let (file, plan, earlier) = made.expect("fewer than 64 dimensions");
        assert_eq!(plan.words.len(), 64 - rank, "{}", both.at);
        // a record that holds the revised values passes, whatever its unknown cells hold
        let mut record = record(&mut r, 256, 512);
        for ((b, v), k) in record.iter_mut().zip(&after.values).zip(&after.marks) {
            *b = v | (*b & k);
        }
        let y = both.sign(&file_of(&after), &record).expect("a record");
        let judged = both.judge(&file, y).expect("a signature");
        assert_eq!(judged.fails_at, None, "{}", both.at);
        assert_eq!(judged.cancelled, plan.expected, "{}", both.at);
        // .. and one that holds the values of before fails where they expected something else
        let y = zero_signature(&mut both, &before);
        let judged = both.judge(&file, y).expect("a signature");
        assert_eq!(judged.cancelled, earlier, "{}", both.at);
        failing += usize::from(judged.fails_at.is_some());
    }
    assert!(failing >= 3, "{failing} of the revisions matter");
}

/// Sets of this width: with a few unknown cells, with so many that they have no words, with none, with all, with one slice, and
/// without slices.
fn contents(r: &mut Random, m: usize) -> [Content; 6] {
    let (n, s, more) = (2 + r.below(12), 8 + r.below(4), r.below(8));
    [
        content(r, m, n, s, 1, n * s),
        content_of_rank(r, (m, n + 8, s), m, m + more),
        content(r, m, n, s, 0, 1),
        content(r, m, n, s, 1, 1),
        content(r, m, n, 1, 1, 3),
        content(r, m, n, 0, 0, 1),
    ]
}

#[test]
fn for_words_of_single_bits_the_expected_bits_are_the_signature_for_all_unknowns_0() {
    let mut both = Both::new();
    let (mut without_words, mut odd) = (0, 0);
    for m in 1..=64 {
        let mut r = Random::new(143_000 + m as u64);
        let bits = single_bits(m as u64);
        for (i, content) in contents(&mut r, m).iter().enumerate() {
            both.at = format!("m {m}, content {i}");
            let (set, signature) = (file_of(content), zero_signature(&mut both, content));
            assert_eq!(both.expect(&set, &bits), Ok(signature), "{}", both.at);
            // .. and a set without unknown cells has these words
            let own = both.plan_words(&set, WORKING_MOST, 64);
            if unknowns_of(content) == 0 {
                assert_eq!(own, Ok((m as u64, bits.clone())), "{}", both.at);
            }
            without_words += usize::from(own == Err(17));
            odd += usize::from(signature != 0);
        }
    }
    assert!(
        without_words >= 64 && odd > 200,
        "{without_words} sets have no words, {odd} a signature that isn't 0"
    );
}

/// Every reduced list for m: the words that the elimination gives for all lists of up to m columns. The combinations of a reduced list
/// are those that are even with some columns, and of those no more than m are needed.
fn reduced_lists(both: &mut Both, m: u64) -> BTreeSet<Vec<u64>> {
    let mut of_columns = vec![vec![]];
    for column in 1..1 << m {
        let shorter = of_columns.iter().filter(|c| c.len() < m as usize);
        let more: Vec<Vec<u64>> = shorter.map(|c| [&c[..], &[column]].concat()).collect();
        of_columns.extend(more);
    }
    let eliminated = |columns: Vec<u64>| both.eliminate(m, &columns, 64).ok();
    let lists = of_columns.into_iter().filter_map(eliminated);
    lists.map(|(_, words)| words).collect()
}

#[test]
fn every_reduced_list_of_a_small_width_gets_its_parities_for_every_set() {
    let mut both = Both::new();
    let (mut foreign, mut without_words, mut odd) = (0, 0, 0);
    // one list for each subspace of m dimensions, but the empty one
    for (m, count) in [(1, 1), (2, 4), (3, 15), (4, 66)] {
        let lists = reduced_lists(&mut both, m);
        assert_eq!(lists.len(), count, "m {m}");
        for seed in 144_000..144_008 {
            let mut r = Random::new(seed);
            for (i, content) in contents(&mut r, m as usize).iter().enumerate() {
                both.at = format!("seed {seed}, m {m}, content {i}");
                let (set, signature) = (file_of(content), zero_signature(&mut both, content));
                let own = both.plan_words(&set, WORKING_MOST, 64);
                without_words += usize::from(own == Err(17));
                for words in &lists {
                    let bits = parities(words, signature);
                    assert_eq!(both.expect(&set, words), Ok(bits), "{}: {words:?}", both.at);
                    foreign += usize::from(own != Ok((m, words.clone())));
                    odd += usize::from(bits != 0);
                }
            }
        }
    }
    assert!(
        foreign > 3_000 && without_words >= 40 && odd > 2_000,
        "{foreign} lists of other sets, {without_words} sets without words, {odd} lists with a bit 1"
    );
}

/// Every list of up to `longest` words below `end`, in any order and with repeats.
fn lists_of_words(end: u64, longest: usize) -> Vec<Vec<u64>> {
    let (mut all, mut done) = (vec![vec![]], 0);
    for _ in 0..longest {
        let until = all.len();
        for i in done..until {
            for w in 0..end {
                let longer = [&all[i][..], &[w]].concat();
                all.push(longer);
            }
        }
        done = until;
    }
    all
}

#[test]
fn of_all_lists_of_small_words_the_reduced_ones_are_answered_and_no_others() {
    let mut both = Both::new();
    for (m, longest) in [(1, 3), (2, 3), (3, 4), (4, 3)] {
        let reduced = reduced_lists(&mut both, m);
        let mut r = Random::new(145_000 + m);
        for (i, content) in contents(&mut r, m as usize).iter().enumerate() {
            let (set, signature) = (file_of(content), zero_signature(&mut both, content));
            let mut answered = 0;
            for words in lists_of_words((1 << m) + 2, longest) {
                let want = match words.len() as u64 {
                    q if q == 0 || q > m => Err(20),
                    _ if !reduced.contains(&words) => Err(21),
                    _ => Ok(parities(&words, signature)),
                };
                both.at = format!("m {m}, content {i}, words {words:?}");
                assert_eq!(both.expect(&set, &words), want, "{}", both.at);
                answered += usize::from(want.is_ok());
            }
            let of_these = reduced.iter().filter(|words| words.len() <= longest);
            assert_eq!(answered, of_these.count(), "m {m}");
        }
    }
    for number in [20, 21] {
        let seen = both.seen("expect", number);
        assert!(seen > 10_000, "{seen} lists gave {number}");
    }
}

#[test]
fn a_sets_own_words_but_one_have_the_bits_that_they_had() {
    let mut both = Both::new();
    let mut odd = 0;
    for seed in 146_000..146_200 {
        let mut r = Random::new(seed);
        let content = small_content(&mut r, 64, 20, 8);
        let set = file_of(&content);
        let Ok(plan) = both.plan(&set, WORKING_MOST, 64) else {
            continue;
        };
        for i in 0..plan.words.len() {
            both.at = format!("seed {seed}, without word {i}");
            let mut words = plan.words.clone();
            words.remove(i);
            let (below, above) = (plan.expected & ((1 << i) - 1), plan.expected >> i >> 1);
            let want = match words.len() {
                0 => Err(20),
                _ => Ok(below | above << i),
            };
            assert_eq!(both.expect(&set, &words), want, "{}", both.at);
            odd += usize::from(above != 0 && below != 0);
        }
    }
    assert!(odd > 1_000, "{odd} lists have bits 1 on both sides");
}

/// Planning and its two calls by the library alone, which come to the same; the number that they give.
fn in_a_row(set: &[u8], rooms: [usize; 2], at: &str) -> u64 {
    let (planned, lists) = made(canceller_plan, set, rooms);
    let (worded, after_words) = made(canceller_plan_words, set, rooms);
    assert!(lists == after_words, "{at}: the lists are left differently");
    assert_eq!(planned.refusal, worded.refusal, "{at}");
    assert_eq!([planned.m, planned.q], [worded.m, worded.q], "{at}");
    let words = &lists[1][..worded.q as usize];
    let expected =
        unsafe { canceller_expect(set.as_ptr(), set.len(), words.as_ptr(), words.len()) };
    // a refusal leaves no words, and for none there are no bits
    assert_eq!(expected.refusal == 0, planned.refusal == 0, "{at}");
    assert_eq!(planned.expected, expected.expected, "{at}");
    planned.refusal
}

#[test]
fn the_librarys_planning_is_its_two_calls_in_a_row() {
    let mut seen: BTreeMap<u64, u64> = BTreeMap::new();
    for seed in 147_000..153_000 {
        let mut r = Random::new(seed);
        let largest_m = r.pick(&[4, 12, 64]);
        let content = small_content(&mut r, largest_m, 12, 6);
        let mut set = file_of(&content);
        match r.below(12) {
            0..=2 => (r.pick(&draw::set_faults()).1)(&mut set),
            3 | 4 => draw::change_ties(&mut set, r.pick(&draw::TIE_FAULTS).1),
            _ => {}
        }
        let working = WORKING + named_of(&content);
        let working = r.pick(&[working, working + 2, working - 1]);
        let words = r.below(12);
        let rooms = [working, r.pick(&[64, largest_m, words])];
        let number = in_a_row(&set, rooms, &format!("seed {seed}"));
        *seen.entry(number).or_insert(0) += 1;
    }
    for number in [0, 1, 2, 3, 25, 4, 5, 6, 7, 8, 9, 10, 29, 30, 31, 14, 17, 18] {
        let count = seen.get(&number).copied().unwrap_or(0);
        let floor = if [0, 14, 17, 18].contains(&number) {
            400
        } else {
            30
        };
        assert!(count > floor, "{count} sets gave {number}");
    }
}

#[test]
fn the_librarys_planning_of_the_largest_sets_is_its_two_calls_in_a_row() {
    for (rank, unknowns, number) in [
        (20, 90, 0),
        (63, 513, 0),
        (40, 4_096, 0),
        (63, 131_072, 0),
        (64, 131_072, 17),
    ] {
        let at = format!("rank {rank}, {unknowns} unknown cells");
        let mut r = Random::new(154_000 + rank as u64);
        let set = file_of(&content_of_rank(&mut r, (64, 256, 512), rank, unknowns));
        assert_eq!(in_a_row(&set, [WORKING, 64], &at), number, "{at}");
        let short = in_a_row(&set, [WORKING, 63 - rank.min(63)], &at);
        assert_eq!(short, if number == 0 { 18 } else { number }, "{at}");
        assert_eq!(in_a_row(&set, [WORKING - 1, 64], &at), 14, "{at}");
    }
}
