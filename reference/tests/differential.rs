//! Every call of the library beside the second implementation, on valid and damaged input. Each call is made twice, with every lent
//! slice against the untouchable page behind it and against the one in front (`Both`). A failure says where it was: the seed and
//! the input. Tests that draw their inputs say how many of them must be accepted, so that they fail when the inputs go stale.

use reference::both::{Both, MEETS, TAKEN_OUT};
use reference::draw;
use reference::draw::Files;
use reference::random::*;
use reference::second::elimination::{reduced_list, reduced_list_by_trial};
use reference::second::layout::*;
use reference::second::planning::WORKING;
use reference::second::set::{read_set, Circuit, Content};
use reference::second::word_of;

/// Fails unless at least `percent` of a hundred of these calls were answers, and not all.
fn mixed(both: &Both, call: &str, percent: u64) {
    let share = both.accepted(call);
    assert!(
        (percent..100).contains(&share),
        "{share} % of the {call} calls were accepted"
    );
}

#[test]
fn valid_sets_of_all_sizes() {
    let mut both = Both::new();
    let mut seed = 1000;
    for m in [1, 2, 3, 7, 8, 31, 32, 33, 62, 63, 64] {
        for n in [1, 2, 7, 8, 9, 16, 63, 64, 65, 255, 256] {
            for s in [0, 1, 2, 9] {
                seed += 1;
                both.at = format!("seed {seed}, m {m}, n {n}, s {s}");
                let mut r = Random::new(seed);
                let of = 1 + n * s / (1 + r.below(20));
                let c = content(&mut r, m, n, s, 1, of);
                draw::good_content(&mut both, &mut r, &c);
            }
        }
    }
    mixed(&both, "plan", 35);
}

#[test]
fn every_width_every_chain_count_and_every_slice_count() {
    let mut both = Both::new();
    for m in 1..=64 {
        let mut r = Random::new(20_000 + m as u64);
        both.at = format!("seed {}", 20_000 + m);
        let c = content(&mut r, m, 5, 6, 1, 4);
        draw::good_content(&mut both, &mut r, &c);
    }
    for n in 1..=256 {
        let mut r = Random::new(21_000 + n as u64);
        both.at = format!("seed {}", 21_000 + n);
        let c = content(&mut r, 24, n, 2, 1, 1 + n / 8);
        draw::good_content(&mut both, &mut r, &c);
    }
    for s in 0..=512 {
        let mut r = Random::new(22_000 + s as u64);
        both.at = format!("seed {}", 22_000 + s);
        let c = content(&mut r, 9, 3, s, 1, 1 + s / 2);
        draw::every_call(&mut both, &draw::files_of(&mut r, &c));
    }
    mixed(&both, "plan", 35);
}

/// The calls on a set of the largest shape, its plan accepted or not.
fn largest_set(both: &mut Both, r: &mut Random, c: &Content) -> bool {
    let files = draw::files_of(r, c);
    assert_eq!(files.set.len(), 34_840);
    both.read_set(&files.set).unwrap();
    both.sign(&files.set, &files.record).unwrap();
    both.rows(&files.set, 511).unwrap();
    assert_eq!(both.rows(&files.set, 512), Err(11));
    both.list_columns(&files.set, files.symbols).unwrap();
    both.write_set(c, 34_840).unwrap();
    assert_eq!(both.write_set(c, 34_839), Err(24));
    draw::planning(both, &files.set, WORKING, 64).is_ok()
}

#[test]
fn the_largest_sets() {
    let mut both = Both::new();
    for (seed, (one, of)) in [(0, 1), (1, 4000), (1, 33)].into_iter().enumerate() {
        both.at = format!("seed {seed}, {one} of {of} cells unknown");
        let mut r = Random::new(seed as u64);
        let c = content(&mut r, 64, 256, 512, one, of);
        let few = unknowns_of(&c) < 64;
        assert_eq!(largest_set(&mut both, &mut r, &c), few, "{}", both.at);
    }
}

#[test]
fn the_largest_sets_with_plans_of_every_rank() {
    // more unknown cells than 512 and fewer: the library makes their columns in two ways
    let mut both = Both::new();
    let (mut expecting, mut failing) = (0, 0);
    for rank in 1..64 {
        let mut r = Random::new(31_000 + rank as u64);
        let unknowns = r.pick(&[rank, 90, 511, 512, 513, 700, 1_500]).max(rank);
        both.at = format!("rank {rank}, {unknowns} unknown cells");
        let c = content_of_rank(&mut r, (64, 256, 512), rank, unknowns);
        assert!(largest_set(&mut both, &mut r, &c), "{}", both.at);
        let file = file_of(&c);
        let plan = both.plan(&file, WORKING, 64 - rank).unwrap();
        assert_eq!(plan.words.len(), 64 - rank, "{}", both.at);
        let short = both.plan(&file, WORKING, 63 - rank);
        assert_eq!(short, Err(18), "{}", both.at);
        let written = both.write_plan(&plan, 526).unwrap();
        let good = both.sign(&file, &c.values).unwrap();
        let passes = both.judge(&written, good).unwrap().fails_at;
        assert_eq!(passes, None, "{}", both.at);
        let any = both.sign(&file, &record(&mut r, 256, 512)).unwrap();
        let verdict = both.judge(&written, any).unwrap().fails_at;
        expecting += u64::from(plan.expected != 0);
        failing += u64::from(verdict.is_some());
    }
    // three plans for each rank, one of them refused for want of room
    assert_eq!(both.accepted("plan"), 66);
    // one word is 0 and passes by chance half of the time, more words less often
    assert!(
        expecting >= 58 && failing >= 58,
        "{expecting} plans expect a 1, {failing} random records fail"
    );
}

#[test]
fn plans_of_every_width_and_rank() {
    let mut both = Both::new();
    let (mut refused, mut expecting) = (0, 0);
    for m in 1..=64 {
        let mut r = Random::new(33_000 + m as u64);
        for rank in [1, 1 + r.below(m), 1 + r.below(m), m] {
            let (n, s) = (1 + r.below(40), 1 + r.below(40));
            let unknowns = (rank + r.below(2 * m)).min(n * s);
            if unknowns < rank + 8 {
                continue;
            }
            both.at = format!("m {m}, n {n}, s {s}, rank {rank}, {unknowns} unknown cells");
            let c = content_of_rank(&mut r, (m, n, s), rank, unknowns);
            let planned = both.plan(&file_of(&c), WORKING, 64);
            expecting += u64::from(planned.as_ref().is_ok_and(|p| p.expected != 0));
            assert_eq!(planned.err(), (rank == m).then_some(17), "{}", both.at);
            refused += u64::from(rank == m);
        }
    }
    let answers = both.seen("plan", 0);
    assert!(
        answers > 90 && refused > 30 && expecting > 70,
        "{answers} plans, {expecting} of them expect a 1, {refused} refused"
    );
}

#[test]
fn every_cell_unknown() {
    // 131,072 columns: of rank 63 or less, a plan; of full rank, 17
    let mut both = Both::new();
    for (rank, answer) in [(1, None), (40, None), (63, None), (64, Some(17))] {
        both.at = format!("seed 32, every cell unknown, rank {rank}");
        let mut r = Random::new(32);
        let c = content_of_rank(&mut r, (64, 256, 512), rank, 131_072);
        let set = file_of(&c);
        assert_eq!(both.plan(&set, WORKING, 64).err(), answer, "{}", both.at);
        assert_eq!(both.list_columns(&set, 131_071), Err(14));
    }
}

/// Small sets and records to damage.
fn small_files() -> Vec<Files> {
    let small = |seed| {
        let mut r = Random::new(seed);
        let c = small_content(&mut r, 64, 19, 4);
        draw::files_of(&mut r, &c)
    };
    (40..52).map(small).collect()
}

#[test]
fn each_byte_of_small_sets_changed() {
    let mut both = Both::new();
    for (i, f) in small_files().iter().enumerate() {
        for at in 0..f.set.len() {
            for change in [1, 2, 0x80, 0xff] {
                let mut bad = f.set.clone();
                bad[at] ^= change;
                both.at = format!("small set {i}, byte {at} changed by {change:#x}");
                draw::set_calls(&mut both, &bad, &f.record, f.symbols + 1);
            }
        }
    }
    mixed(&both, "read_set", 20);
}

#[test]
fn small_sets_of_every_length() {
    let mut both = Both::new();
    for (i, f) in small_files().iter().enumerate() {
        for length in 0..f.set.len() + 40 {
            let mut bad = f.set.clone();
            bad.resize(length, if length % 2 == 0 { 0 } else { 0x5a });
            both.at = format!("small set {i}, of {length} bytes");
            draw::set_calls(&mut both, &bad, &f.record, f.symbols);
        }
    }
    assert_eq!(both.seen("read_set", 0), 12, "each set is good as it is");
}

#[test]
fn damaged_records() {
    let mut both = Both::new();
    for (i, f) in small_files().iter().enumerate() {
        for length in 0..f.record.len() + 20 {
            for fill in [0, 0xff] {
                let mut bad = f.record.clone();
                bad.resize(length, fill);
                both.at = format!("small set {i}, a record of {length} bytes, filled with {fill}");
                both.sign(&f.set, &bad).ok();
                bad.fill(fill);
                both.sign(&f.set, &bad).ok();
            }
        }
        for at in 0..f.record.len() {
            for bit in 0..8 {
                let mut bad = f.record.clone();
                bad[at] ^= 1 << bit;
                both.at = format!("small set {i}, record bit {bit} of byte {at} changed");
                both.sign(&f.set, &bad).ok();
            }
        }
    }
    mixed(&both, "sign", 15);
    let (length, spare) = (both.seen("sign", 12), both.seen("sign", 13));
    assert!(
        length > 500 && spare > 50,
        "{length} gave 12, {spare} gave 13"
    );
}

#[test]
fn two_faults_at_once() {
    let mut both = Both::new();
    for (i, f) in small_files().iter().enumerate() {
        for (a, first) in draw::set_faults() {
            for (b, second) in draw::set_faults() {
                let mut bad = f.set.clone();
                first(&mut bad);
                second(&mut bad);
                both.at = format!("small set {i}, {a}, then {b}");
                draw::set_calls(&mut both, &bad, &f.record, f.symbols);
            }
        }
    }
    for number in [1, 2, 3, 25, 4, 5, 6, 7, 8, 9, 10] {
        let seen = both.seen("read_set", number);
        assert!(seen > 30, "{seen} sets gave {number}");
    }
}

#[test]
fn a_fault_of_the_ties_beside_another() {
    let mut both = Both::new();
    for (i, f) in small_files().iter().enumerate() {
        for (a, first) in draw::TIE_FAULTS {
            let mut tied = f.set.clone();
            draw::change_ties(&mut tied, first);
            for (b, second) in draw::set_faults() {
                let mut bad = tied.clone();
                second(&mut bad);
                both.at = format!("small set {i}, {a}, then {b}");
                draw::set_calls(&mut both, &bad, &f.record, f.symbols);
            }
            for (b, second) in draw::TIE_FAULTS {
                let mut bad = tied.clone();
                draw::change_ties(&mut bad, second);
                both.at = format!("small set {i}, {a}, then {b}");
                draw::set_calls(&mut both, &bad, &f.record, f.symbols);
            }
        }
    }
    for number in [8, 9, 10, 29, 30, 31] {
        let seen = both.seen("ties", number);
        assert!(seen > 60, "{seen} sets gave {number}");
    }
}

#[test]
fn lists_of_every_length_around_what_is_needed() {
    let mut both = Both::new();
    for seed in 60..80 {
        let mut r = Random::new(seed);
        let c = small_content(&mut r, 40, 12, 5);
        let file = file_of(&c);
        both.at = format!("seed {seed}");
        let (symbols, working) = (symbols_of(&c), WORKING + named_of(&c));
        for room in symbols.saturating_sub(3)..symbols + 4 {
            both.list_columns(&file, room).ok();
        }
        for room in working - 3..working + 4 {
            for words in 0..c.m as usize + 2 {
                draw::planning(&mut both, &file, room, words).ok();
            }
        }
        for room in file.len().saturating_sub(3)..file.len() + 4 {
            both.write_set(&c, room).ok();
        }
    }
    mixed(&both, "plan", 10);
    mixed(&both, "list_columns", 50);
    mixed(&both, "write_set", 50);
}

/// A body of `draw` from each of the seeds.
fn drawn(seeds: std::ops::Range<u64>, body: fn(&mut Both, &mut Random)) -> Both {
    let mut both = Both::new();
    for seed in seeds {
        both.at = format!("seed {seed}");
        body(&mut both, &mut Random::new(seed));
    }
    both
}

#[test]
fn the_set_writer_on_good_and_bad_content() {
    let both = drawn(80..3_000, draw::bad_content);
    mixed(&both, "write_set", 20);
}

#[test]
fn the_set_writer_on_good_and_bad_ties() {
    let both = drawn(40_000..42_000, draw::bad_ties);
    mixed(&both, "write_set", 20);
    for number in [8, 29, 30, 31] {
        let seen = both.seen("write_set", number);
        assert!(seen > 100, "{seen} contents gave {number}");
    }
}

#[test]
fn clocks() {
    let both = drawn(500..6_500, draw::bad_clock);
    mixed(&both, "clock", 30);
}

#[test]
fn eliminations() {
    let both = drawn(7_000..19_000, draw::elimination);
    mixed(&both, "eliminate", 40);
}

#[test]
fn expected_bits_of_good_and_bad_lists() {
    let both = drawn(34_000..40_000, draw::expectation);
    mixed(&both, "expect", 40);
    let without_words = both.seen("plan_words", 17);
    let (count, form) = (both.seen("expect", 20), both.seen("expect", 21));
    assert!(
        without_words > 500 && count > 500 && form > 500,
        "{without_words} sets have no words, {count} lists gave 20, {form} gave 21"
    );
}

#[test]
fn the_plan_writer() {
    let both = drawn(17_000..30_000, draw::plan_content);
    mixed(&both, "write_plan", 20);
}

#[test]
fn eliminations_of_structured_columns() {
    // single bits, pairs of neighbours and full words, in every order: ranks and pivots at the ends of the word
    let mut both = Both::new();
    for seed in 11_000..12_000 {
        let mut r = Random::new(seed);
        both.at = format!("seed {seed}");
        let m = r.pick(&[1, 2, 8, 32, 63, 64]);
        let columns: Vec<u64> = (0..r.below(80))
            .map(|_| {
                let bit = 1u64 << r.below(m);
                let all = u64::MAX >> (64 - m);
                r.pick(&[bit, bit, bit | bit << 1, all, all ^ bit, 0]) & all
            })
            .collect();
        both.eliminate(m as u64, &columns, 64).ok();
    }
    mixed(&both, "eliminate", 40);
}

#[test]
fn eliminations_of_long_lists() {
    // After the first columns most change nothing, and the library passes over them by a table of parities of bytes. In the second
    // list three stand among them that needn't lie in the others' span: one anywhere, one in the middle, and the last.
    let mut both = Both::new();
    for rank in 1..64 {
        let mut r = Random::new(14_000 + rank as u64);
        let m = 64 - r.below(64 - rank).min(r.below(8));
        let count = 8_200 + r.below(900);
        both.at = format!("m {m}, {count} columns of rank {rank}");
        let columns = columns_of_rank(&mut r, m, rank, count);
        let (found, _) = both.eliminate(m as u64, &columns, 64).unwrap();
        assert_eq!(found, rank as u64, "{}", both.at);
        let mut columns = columns_of_rank(&mut r, m, rank.max(4) - 3, count);
        for at in [r.below(count), count / 2 + r.below(count / 3), count - 1] {
            columns[at] = r.within(m);
        }
        both.at += ", three of them anywhere";
        both.eliminate(m as u64, &columns, 64).unwrap();
    }
}

#[test]
fn small_eliminations_by_trying_every_combination() {
    let mut both = Both::new();
    for seed in 12_000..14_000 {
        let mut r = Random::new(seed);
        both.at = format!("seed {seed}");
        let m = 1 + r.below(8);
        let (rank, count) = (r.below(m + 1), r.below(12));
        let columns = columns_of_rank(&mut r, m, rank, count);
        let tried = reduced_list_by_trial(m, &columns);
        assert_eq!(reduced_list(m, &columns), tried, "seed {seed}");
        let words = both
            .eliminate(m as u64, &columns, 64)
            .map(|(_, words)| words);
        let found = words.unwrap_or_default();
        assert_eq!(found, tried, "seed {seed}");
    }
    mixed(&both, "eliminate", 70);
}

/// Good plans, small and large.
fn plans() -> Vec<Vec<u8>> {
    let good = |i: u64| {
        let mut r = Random::new(15_000 + i);
        let m = if i % 4 == 0 { 64 } else { 1 + r.below(64) };
        draw::plan_file(&mut r, m)
    };
    (0..16).map(good).collect()
}

#[test]
fn plans_of_every_length() {
    let mut both = Both::new();
    let mut r = Random::new(16_000);
    for (i, plan) in plans().iter().enumerate() {
        for length in 0..plan.len() + 20 {
            let mut bad = plan.clone();
            bad.resize(length, 0);
            both.at = format!("plan {i}, of {length} bytes");
            draw::plan_calls(&mut both, &mut r, &bad);
        }
    }
    assert!(both.seen("judge", 0) >= 16, "each plan is good as it is");
}

#[test]
fn each_byte_of_plans_changed() {
    let mut both = Both::new();
    let mut r = Random::new(16_200);
    for (i, plan) in plans().iter().enumerate() {
        for at in 0..plan.len() {
            for change in [1, 4, 0x40, 0x80, 0xff] {
                let mut bad = plan.clone();
                bad[at] ^= change;
                both.at = format!("plan {i}, byte {at} changed by {change:#x}");
                draw::plan_calls(&mut both, &mut r, &bad);
                let other = r.below(bad.len());
                bad[other] ^= 1 << r.below(8);
                both.at += &format!(", and byte {other}");
                draw::plan_calls(&mut both, &mut r, &bad);
            }
        }
    }
    mixed(&both, "judge", 5);
}

#[test]
fn plans_with_fields_at_their_limits() {
    let put = |plan: &mut [u8], at: usize, n: usize| {
        for (b, with) in plan.iter_mut().skip(at).zip([n as u8, (n >> 8) as u8]) {
            *b = with;
        }
    };
    let mut both = Both::new();
    let mut r = Random::new(16_500);
    for (i, plan) in plans().iter().enumerate() {
        let (m, q) = (plan[WIDTH_AT] as usize, plan[PLAN_COUNT_AT] as usize);
        let fields = [WIDTH_AT, PLAN_COUNT_AT, second_count_at(q)];
        let limits = [0, 1, q - 1, q, q + 1, m, m + 1, 64, 65, 256, 65_535];
        let pairs = limits.iter().flat_map(|x| limits.map(|y| (*x, y)));
        for (x, y) in pairs {
            for (a, b) in [(0, 0), (0, 1), (0, 2), (1, 1), (1, 2), (2, 2)] {
                let mut bad = plan.clone();
                put(&mut bad, fields[a], x);
                put(&mut bad, fields[b], y);
                both.at = format!("plan {i}, field {a} set to {x} and field {b} to {y}");
                draw::plan_calls(&mut both, &mut r, &bad);
            }
        }
    }
    mixed(&both, "read_plan", 2);
}

#[test]
fn judging_many_signatures() {
    let mut both = Both::new();
    let mut r = Random::new(24_000);
    for (i, plan) in plans().iter().enumerate() {
        both.at = format!("plan {i}");
        for _ in 0..3_000 {
            let y = r.within(plan[WIDTH_AT] as usize);
            both.judge(plan, y)
                .expect("a good plan and a good signature");
        }
    }
}

#[test]
fn files_read_back_to_what_was_written() {
    let mut both = Both::new();
    for seed in 25_000..27_000 {
        let mut r = Random::new(seed);
        both.at = format!("seed {seed}");
        let c = small_content(&mut r, 64, 30, 6);
        let n = c.spread.len();
        let length = set_length(n, c.s as usize, c.ties.len() / TIE);
        let file = both.write_set(&c, length).expect("a good content");
        both.read_set(&file).expect("a written set");
        let read = read_set(&file).expect("a written set");
        let Circuit {
            m,
            taps,
            inversion,
            spread,
        } = &read.circuit;
        let words = [word_of(taps), word_of(inversion)];
        assert_eq!(words, [c.taps, c.inversion], "{}", both.at);
        assert_eq!((*m as u64, read.s() as u64), (c.m, c.s), "{}", both.at);
        let spread: Vec<u64> = spread.iter().map(|w| word_of(w)).collect();
        assert_eq!(spread, c.spread, "{}", both.at);
        let b = row_bytes(n);
        for t in 0..c.s as usize {
            both.rows(&file, t as u64).expect("a slice of the set");
            let (row, values, marks) = (b * t..b * (t + 1), value_row_at(n, t), mark_row_at(n, t));
            assert_eq!(
                file[values..values + b],
                c.values[row.clone()],
                "{}",
                both.at
            );
            assert_eq!(file[marks..marks + b], c.marks[row], "{}", both.at);
        }
        let (start, long) = both.ties(&file).expect("a written set");
        assert_eq!(file[start..start + long], c.ties, "{}", both.at);
    }
}

#[test]
fn a_million_calls() {
    let mut both = Both::new();
    for seed in 1_000_000..1_008_500 {
        draw::calls(&mut both, seed);
    }
    let compared = both.compared();
    assert!(compared >= 1_000_000, "{compared} calls were compared");
    for (call, numbers) in MEETS {
        for &number in [0].iter().chain(numbers) {
            let floor = match number {
                12 | 13 | 17 => 3_000,
                _ => 400,
            };
            let seen = both.seen(call, number);
            assert!(seen >= floor, "{seen} {call} calls gave {number}");
        }
    }
    for (call, number, _) in both.all_seen() {
        let (_, numbers) = MEETS.iter().find(|(name, _)| *name == call).unwrap();
        assert!(number == 0 || numbers.contains(&number), "{call}: {number}");
    }
    // what the library gave, number by number: 16 in none of two million calls, each other number in hundreds
    let total: u64 = (0..=31).map(|number| both.given(number)).sum();
    assert_eq!(total, 2 * compared);
    for number in 0..=31 {
        let given = both.given(number);
        match number {
            TAKEN_OUT => assert_eq!(given, 0, "{given} of {total} calls gave {number}"),
            _ => assert!(given >= 800, "{given} of {total} calls gave {number}"),
        }
    }
}
