//! The best ways and the library's own in Rust beside the library, at the sizes where they change over, and on files that are refused.

use super::*;
use crate::{ours, same};
use reference::random::*;
use reference::second::set::Content;

/// What a call of the library answers with, as one in Rust does.
fn answer<T>(refusal: u64, numbers: impl FnOnce() -> T) -> Result<T, u64> {
    match refusal {
        0 => Ok(numbers()),
        n => Err(n),
    }
}

/// Listing, the words and planning.
fn agree_on_columns(set: &[u8], size: &str) {
    let mut one = vec![0; 131_072];
    let listed = ours::list_columns(set, &mut one);
    let want = answer(listed.refusal, || listed.count as usize);
    for list in [columns::list_columns, same::response::list_columns] {
        let mut other = vec![0; 131_072];
        assert_eq!(list(set, &mut other), want, "listing {size}");
        assert!(one == other, "columns of {size}");
    }
    let (mut one, working) = ([0; 64], &mut vec![0; 320]);
    let p = ours::plan(set, working, &mut one);
    let want = answer(p.refusal, || [p.m, p.q, p.expected]);
    for plan in [words::plan, same::response::plan] {
        let mut other = [0; 64];
        assert_eq!(plan(set, working, &mut other), want, "planning {size}");
        assert_eq!(one, other, "words of {size}");
    }
    let want = answer(p.refusal, || [p.m, p.q]);
    for words in [words::plan_words, same::response::plan_words] {
        let got = words(set, working, &mut [0; 64]);
        assert_eq!(got, want, "words of {size}");
    }
}

/// Cutting, with few and many words left.
fn agree_on_cuts(set: &[u8], size: &str) {
    for k in [0, 1, 3, 8, 30] {
        let mut one = [0; 512];
        let c = ours::cut(set, k, &mut one);
        let want = answer(c.refusal, || [c.runs, c.bits]);
        for cut in [cutting::cut, same::cutting::cut] {
            let mut other = [0; 512];
            assert_eq!(cut(set, k, &mut other), want, "cutting {size}, k {k}");
            assert_eq!(one, other, "cuts of {size}, k {k}");
        }
    }
}

/// The reader, a row, and with a record and some words the signature and the expected bits.
fn agree_on_rows(set: &[u8], record: &[u8], size: &str) {
    let read = ours::read_set(set);
    let want = answer(read.refusal, || {
        let numbers = [read.m, read.taps, read.inversion, read.n, read.s];
        [&numbers[..], &read.spread[..read.n as usize]].concat()
    });
    for read_set in [set::read_set, same::set::read_set] {
        let got = read_set(set).map(|(r, spread)| {
            let numbers = [r.m, r.taps, r.inversion, r.n as u64, r.s as u64];
            [&numbers[..], &spread[..r.n]].concat()
        });
        assert_eq!(got, want, "reading {size}");
    }
    let row = ours::mark_row(set, 2);
    let want = answer(row.refusal, || (row.start as usize, row.length as usize));
    for mark_row in [set::mark_row, same::set::mark_row] {
        assert_eq!(mark_row(set, 2), want, "a row of {size}");
    }
    let signed = ours::sign(set, record);
    let want = answer(signed.refusal, || signed.signature);
    for sign in [response::sign, same::response::sign] {
        assert_eq!(sign(set, record), want, "signature of {size}");
    }
    for words in [
        &[][..],
        &[1],
        &[0b11, 0b101],
        &[0b101, 0b11],
        &[0b11, 0b110],
    ] {
        let e = ours::expect(set, words);
        let want = answer(e.refusal, || e.expected);
        for expect in [response::expect, same::response::expect] {
            assert_eq!(expect(set, words), want, "{words:?} of {size}");
        }
    }
}

/// The writer, and one clock.
fn agree_on_content(c: &Content, row: &[u8], size: &str) {
    let mut one = vec![0; 40_000];
    let wrote = ours::write_set(c, &mut one);
    let want = answer(wrote.refusal, || wrote.length as usize);
    for write_set in [set::write_set, same::set::write_set] {
        let mut other = vec![0; 40_000];
        assert_eq!(write_set(c, &mut other), want, "writing {size}");
        assert!(one == other, "what is written of {size}");
    }
    let clocked = ours::clock(c, 1, row);
    let want = answer(clocked.refusal, || clocked.state);
    for clock in [set::clock, same::set::clock] {
        let got = clock(c.m, c.taps, c.inversion, 1, &c.spread, row);
        assert_eq!(got, want, "a clock of {size}");
    }
}

fn agree(r: &mut Random, content: &Content, size: &str) {
    let (n, s) = (content.spread.len(), content.s as usize);
    let (set, record) = (file_of(content), record(r, n, s));
    agree_on_columns(&set, size);
    agree_on_cuts(&set, size);
    agree_on_rows(&set, &record, size);
    let b = n.div_ceil(8);
    agree_on_content(content, record.get(..b).unwrap_or_default(), size);
}

/// Registers and rows of all kinds of lengths, with from few to all cells unknown: every way of listing, and of the signature.
#[test]
fn the_best_ways_answer_as_the_library_where_they_change_over() {
    let r = &mut Random::new(20);
    for (m, n, s) in [
        (1, 3, 9),
        (5, 200, 40),
        (7, 200, 64),
        (8, 200, 64),
        (9, 64, 100),
        (63, 200, 64),
        (64, 200, 120),
        (63, 256, 100),
        (64, 60, 512),
    ] {
        let cells = n * s;
        for unknowns in [1, cells / 300 + 1, cells / 60, cells / 10, cells / 2, cells] {
            for rank in [1, m / 2, m - 1, m] {
                if 0 < rank && rank <= unknowns {
                    let content = content_of_rank(r, (m, n, s), rank, unknowns);
                    let size = format!("{m} {n} {s}: {unknowns} of rank {rank}");
                    agree(r, &content, &size);
                }
            }
        }
    }
}

/// All cells of 20 chains are unknown, whose columns stay in a space, and cells of another chain that adds to it: in the first slice, in the
/// middle or in the last; or in the last and in the first, so that the space holds the chain's word, but not what it is some clocks later.
#[test]
fn words_that_one_late_column_changes_are_not_taken_for_settled() {
    let r = &mut Random::new(21);
    for (m, s, rank) in [(64, 100, 40), (64, 100, 60), (64, 100, 62), (20, 50, 9)] {
        for late in [vec![0], vec![s / 2], vec![s - 1], vec![s - 1, 0]] {
            let inside = (0..s).flat_map(|t| (0..20).map(move |c| (t, c)));
            let mut marked: Vec<(usize, usize)> = inside.collect();
            marked.extend(late.iter().map(|t| (*t, 30)));
            let content = content_with_marks(r, (m, 40, s), rank, &marked, &[30]);
            agree(r, &content, &format!("{m} {s}: rank {rank}, late {late:?}"));
        }
    }
}

#[test]
fn the_best_ways_answer_as_the_library_on_small_sets_with_ties() {
    let r = &mut Random::new(22);
    for i in 0..200 {
        let content = small_content(r, 64, 80, 30);
        agree(r, &content, &format!("small set {i}"));
    }
}

#[test]
fn the_best_ways_refuse_sets_as_the_library_does() {
    let r = &mut Random::new(23);
    for i in 0..2_000 {
        let content = small_content(r, 64, 40, 6);
        let mut set = file_of(&content);
        match r.below(4) {
            0 => set.truncate(r.below(set.len())),
            1 => set.push(0),
            _ => {
                let at = r.below(set.len());
                set[at] ^= 1 << r.below(8);
            }
        }
        let record = record(r, content.spread.len(), content.s as usize);
        agree_on_rows(&set, &record, &format!("set {i}"));
    }
}

#[test]
fn the_best_ways_take_and_refuse_plans_as_the_library_does() {
    let r = &mut Random::new(24);
    for i in 0..2_000 {
        let m = 1 + r.below(64);
        let words = reduced_words(r, m);
        let mut file = vec![0; 526];
        let expected = r.within(words.len());
        let length = plan::write_plan(m as u64, &words, expected, &mut file).unwrap();
        file.truncate(length);
        match r.below(4) {
            0 => file.truncate(r.below(length)),
            1 => {}
            _ => file[r.below(length)] ^= 1 << r.below(8),
        }
        let y = r.within(m);
        let j = ours::judge(&file, y);
        let want = answer(j.refusal, || (j.cancelled, j.failed, j.index));
        for judge in [plan::judge, same::plan::judge] {
            let got = judge(&file, y).map(|(cancelled, first)| {
                let failed = u64::from(first.is_some());
                (cancelled, failed, first.unwrap_or(0).into())
            });
            assert_eq!(got, want, "judging by plan {i}");
        }
        let mut one = [0; 64];
        let p = ours::read_plan(&file, &mut one);
        let want = answer(p.refusal, || [p.m, p.q, p.expected]);
        for read_plan in [plan::read_plan, same::plan::read_plan] {
            let mut other = [0; 64];
            assert_eq!(read_plan(&file, &mut other), want, "plan {i}");
            assert_eq!(one, other, "words of plan {i}");
        }
    }
}

#[test]
fn the_best_elimination_leaves_the_same_words_at_every_width() {
    let r = &mut Random::new(25);
    for m in 1..=64 {
        for count in [0, 1, 40, 300, 2_000] {
            let rank = r.below(m + 1);
            let columns = columns_of_rank(r, m, rank, count);
            let [mut one, mut other] = [[0; 64]; 2];
            let want = same::elimination::eliminate(m as u64, &columns, &mut one);
            let got = basis::eliminate(m as u64, &columns, &mut other);
            assert_eq!(got, want, "{count} columns of {m} bits");
            assert_eq!(one, other, "words of {count} columns of {m} bits");
        }
    }
}
