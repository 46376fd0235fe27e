//! The third demand by force: for thousands of small sets every filling is enumerated, and each signature of the register's width
//! is judged by the plan file of the set. Exactly the explained signatures pass, and records alike in the known cells that obey the
//! ties are judged alike, whether or not they agree with the set. Most of the sets' registers invert some of their inputs, and many of
//! the sets have ties. A set whose values were revised is judged by the words that it had before.

use reference::both::Both;
use reference::force::{explained, filled, passes_exactly, record_of, refill};
use reference::random::*;
use reference::second::elimination::x_free;
use reference::second::plan::Plan;
use reference::second::planning::WORKING_MOST;
use reference::second::set::{read_set, Set};
use reference::second::{word_of, Bits};
use std::collections::BTreeSet;

/// Whether the inversion word changes signatures of the set.
fn inverts(set: &Set) -> bool {
    set.s() > 0 && word_of(&set.circuit.inversion) != 0
}

#[test]
fn exactly_the_explained_signatures_pass() {
    let mut both = Both::new();
    let mut inverting = [0; 2];
    for seed in 100_000..104_000 {
        let mut r = Random::new(seed);
        both.at = format!("seed {seed}");
        let file = file_of(&small_content(&mut r, 8, 5, 3));
        let set = read_set(&file).unwrap();
        let u = set.unknowns().len();
        if u > 12 {
            continue;
        }
        let explained = explained(&set);
        let all = 1u64 << set.circuit.m;
        let every = explained.len() as u64 == all;
        let planned = both.plan(&file, WORKING_MOST, 64);
        assert_eq!(planned.clone().err(), every.then_some(17), "seed {seed}");
        inverting[usize::from(every)] += usize::from(inverts(&set));
        let Ok(p) = planned else {
            continue;
        };
        passes_exactly(&mut both, &p, &explained);
    }
    let (plans, refused) = (both.seen("plan", 0), both.seen("plan", 17));
    assert!(
        plans > 1_500 && refused > 300,
        "{plans} plans and {refused} refusals are too few to show anything"
    );
    assert!(
        inverting[0] > 900 && inverting[1] > 150,
        "{inverting:?} plans and refusals of registers that invert are too few to show anything"
    );
}

#[test]
fn exactly_the_signatures_that_a_revised_set_explains_pass_by_the_old_words_and_its_bits() {
    let mut both = Both::new();
    let mut others = 0;
    for seed in 104_000..106_000 {
        let mut r = Random::new(seed);
        both.at = format!("seed {seed}");
        let before = small_content(&mut r, 8, 5, 3);
        let (old, new) = (file_of(&before), file_of(&revised(&mut r, &before)));
        let u = unknowns_of(&before);
        if u > 12 {
            continue;
        }
        let Ok((m, words)) = both.plan_words(&old, WORKING_MOST, 64) else {
            continue;
        };
        let expected = both.expect(&new, &words).expect("a reduced list");
        let explained_by = |file: &[u8]| explained(&read_set(file).expect("a good set"));
        passes_exactly(&mut both, &Plan { m, words, expected }, &explained_by(&new));
        others += usize::from(explained_by(&old) != explained_by(&new));
    }
    assert!(
        others > 300,
        "{others} revisions that matter are too few to show anything"
    );
}

#[test]
fn records_alike_in_the_known_cells_are_judged_alike() {
    let mut both = Both::new();
    let (mut pairs, mut inverting) = (0, 0);
    for seed in 110_000..114_000 {
        let mut r = Random::new(seed);
        both.at = format!("seed {seed}");
        let c = small_content(&mut r, 16, 6, 4);
        let file = file_of(&c);
        let set = read_set(&file).unwrap();
        let Ok(p) = both.plan(&file, WORKING_MOST, 64) else {
            continue;
        };
        let plan = both.write_plan(&p, 600).unwrap();
        // a record that need not agree with the set, and others alike in the known cells, all of which obey the ties
        let mut cells: Vec<Bits> = (0..set.s())
            .map(|_| (0..set.n()).map(|_| r.one_in(2)).collect())
            .collect();
        refill(&mut r, &set, &mut cells);
        let first = both.sign(&file, &record_of(&cells)).unwrap();
        let judged = both.judge(&plan, first).unwrap();
        for _ in 0..8 {
            refill(&mut r, &set, &mut cells);
            let other = both.sign(&file, &record_of(&cells)).unwrap();
            assert_eq!(both.judge(&plan, other).unwrap(), judged, "seed {seed}");
            pairs += usize::from(other != first);
            inverting += usize::from(other != first && inverts(&set));
        }
    }
    assert!(
        pairs > 2_000 && inverting > 1_000,
        "{pairs} pairs with different signatures, {inverting} of registers that invert, are too few to show anything"
    );
}

#[test]
fn a_record_with_one_known_cell_changed_fails_or_is_explained() {
    let mut both = Both::new();
    let mut failed = 0;
    for seed in 115_000..117_000 {
        let mut r = Random::new(seed);
        both.at = format!("seed {seed}");
        let c = small_content(&mut r, 12, 6, 4);
        let file = file_of(&c);
        let set = read_set(&file).unwrap();
        let u = set.unknowns().len();
        let Ok(p) = both.plan(&file, WORKING_MOST, 64) else {
            continue;
        };
        if u > 10 || set.s() == 0 {
            continue;
        }
        let plan = both.write_plan(&p, 600).unwrap();
        let explained = explained(&set);
        let mut cells = filled(&set, r.word());
        let (t, k) = (r.below(set.s()), r.below(set.n()));
        cells[t][k] = !cells[t][k];
        let y = both.sign(&file, &record_of(&cells)).unwrap();
        let judged = both.judge(&plan, y).unwrap();
        assert_eq!(
            judged.fails_at.is_none(),
            explained.contains(&y),
            "seed {seed}"
        );
        failed += usize::from(judged.fails_at.is_some());
    }
    assert!(
        failed > 300,
        "{failed} failing records are too few to show anything"
    );
}

#[test]
fn the_listed_words_make_every_x_free_combination_and_no_other() {
    let mut both = Both::new();
    for seed in 120_000..122_000 {
        let mut r = Random::new(seed);
        both.at = format!("seed {seed}");
        let c = small_content(&mut r, 8, 5, 3);
        let file = file_of(&c);
        let columns = read_set(&file).unwrap().columns();
        let words = match both.plan(&file, WORKING_MOST, 64) {
            Ok(p) => p.words,
            Err(_) => Vec::new(),
        };
        let made: BTreeSet<u64> = (0..1u64 << words.len())
            .map(|k| {
                (0..words.len())
                    .filter(|&i| k >> i & 1 == 1)
                    .fold(0, |a, i| a ^ words[i])
            })
            .collect();
        for w in 0..1u64 << c.m {
            assert_eq!(
                x_free(w, &columns),
                made.contains(&w),
                "seed {seed}, combination {w}"
            );
        }
    }
}
