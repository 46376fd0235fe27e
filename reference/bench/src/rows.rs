//! The rows of the table, each with its inputs. m is 64, with 256 chains and 512 slices, where a set is meant.

use crate::others::kernels;
use crate::row::{put, Row, Side};
use crate::same::cutting::{cut, restart_and_cut};
use crate::same::elimination::eliminate;
use crate::same::response::*;
use crate::same::set::{clock, mark_row, read_set, value_row, write_set, Read};
use crate::{best, ours, plain, same};
use reference::library::{Answer, CPlanned, CStretch, CWorded};
use reference::random::*;
use reference::second::set::Content;
use std::hint::black_box;

/// Inputs below a thousand columns are 64 different ones in turn, so that the branch predictor learns nothing.
pub fn inputs_for(columns: usize) -> usize {
    if columns < 1000 {
        64
    } else {
        1
    }
}

/// What the sides of a row read stands until the benchmark ends.
pub fn kept<T>(value: T) -> &'static T {
    Box::leak(Box::new(value))
}

pub type Files = &'static Vec<Vec<u8>>;

/// A content of m 64 and 256 chains that inverts at least one input of the register.
pub fn inverting(r: &mut Random, s: usize, rank: usize, unknowns: usize) -> Content {
    let mut content = content_of_rank(r, (64, 256, s), rank, unknowns);
    content.inversion |= 1;
    content
}

fn sets(seed: u64, s: usize, unknowns: usize, rank: usize, inputs: usize) -> Files {
    let r = &mut Random::new(seed);
    let one = |_| file_of(&inverting(r, s, rank, unknowns));
    kept((0..inputs).map(one).collect())
}

fn plain_sets(sets: Files) -> &'static Vec<plain::PlainSet<'static>> {
    let read = |set: &'static Vec<u8>| plain::read_set(set).expect("a good set");
    kept(sets.iter().map(read).collect())
}

/// Listing the columns of sets of s slices. The straightforward ways find the set read.
pub fn listing(s: usize, unknowns: usize, rank: usize, inputs: usize) -> Row {
    let sets = sets(1, s, unknowns, rank, inputs);
    let read = plain_sets(sets);
    let mut columns = vec![0; 131_072];
    let in_rust = |call: fn(&[u8], &mut [u64]) -> Result<usize, u64>| {
        let mut columns = vec![0; 131_072];
        move |i: usize, ask: bool| {
            let listed = black_box(call(&sets[i], &mut columns));
            put(ask, listed.err().unwrap_or(0), || {
                columns[..listed.unwrap()].to_vec()
            })
        }
    };
    Row::new("listing columns", format!("{unknowns} unknowns"), inputs)
        .side(Side::Ours, move |i, ask| {
            let listed = black_box(ours::list_columns(&sets[i], &mut columns));
            put(ask, listed.refusal, || {
                columns[..listed.count as usize].to_vec()
            })
        })
        .side(Side::Same, in_rust(list_columns))
        .side(Side::Best, in_rust(best::columns::list_columns))
        .side(Side::Plain, move |i, ask| {
            let columns = black_box(read[i].columns());
            put(ask, 0, || columns)
        })
        .side(Side::Other("backward sweep"), move |i, ask| {
            let columns = black_box(read[i].swept_columns());
            put(ask, 0, || columns)
        })
}

fn of_rank(unknowns: usize, rank: usize) -> String {
    match rank {
        64 => format!("{unknowns} unknowns of full rank"),
        _ => format!("{unknowns} unknowns of rank {rank}"),
    }
}

/// What planning, the plan reader and the call that makes words answer with, q second, and the words.
pub fn of_plan(answer: &[u64], words: &[u64]) -> Vec<u64> {
    [answer, &words[..answer[1] as usize]].concat()
}

pub fn planned(p: CPlanned) -> [u64; 3] {
    [p.m, p.q, p.expected]
}

/// A call that is lent a set, a working list, or a column list, and a word list.
type MakesWords<A> = fn(&[u8], &mut [u64], &mut [u64]) -> A;

/// The words of a set by listing all columns and eliminating them: q, and the refusal.
fn listed_words(set: &[u8], columns: &mut [u64], words: &mut [u64]) -> (u64, u64) {
    let listed = black_box(ours::list_columns(set, columns));
    let e = black_box(ours::eliminate(&columns[..listed.count as usize], words));
    (e.q, e.refusal)
}

/// The sets, and the row of such a call by ours, whose answer `numbers` puts into words, by the same algorithm in Rust, the best that we know
/// there, and in Rust by listing all columns.
fn making_words<A: Answer + 'static, const N: usize>(
    call: &'static str,
    (s, unknowns, rank, inputs): (usize, usize, usize, usize),
    ours: (MakesWords<A>, fn(A) -> [u64; N]),
    same: [MakesWords<Result<[u64; N], u64>>; 3],
) -> (Files, Row) {
    let sets = sets(2, s, unknowns, rank, inputs);
    let (mut working, mut words) = ([0; 64], [0; 64]);
    let [same, best, listing] = same;
    let in_rust = |call: MakesWords<Result<[u64; N], u64>>, places: usize| {
        let (mut list, mut words) = (vec![0; places], [0; 64]);
        move |i: usize, ask: bool| {
            let p = black_box(call(&sets[i], &mut list, &mut words));
            put(ask, p.err().unwrap_or(0), || of_plan(&p.unwrap(), &words))
        }
    };
    let (one, numbers) = ours;
    let row = Row::new(call, of_rank(unknowns, rank), inputs)
        .side(Side::Ours, move |i, ask| {
            let p = black_box(one(&sets[i], &mut working, &mut words));
            put(ask, p.refusal(), || of_plan(&numbers(p), &words))
        })
        .side(Side::Same, in_rust(same, 64))
        .side(Side::Best, in_rust(best, 64))
        .side(
            Side::Other("same, listing all columns"),
            in_rust(listing, 131_072),
        );
    (sets, row)
}

/// Planning sets of s slices; also by its two calls in a row, and by listing all columns, which reads the set once more.
pub fn planning(s: usize, unknowns: usize, rank: usize, inputs: usize) -> Row {
    let size = (s, unknowns, rank, inputs);
    let same = [plan, best::words::plan, list_and_plan];
    let (sets, row) = making_words("planning", size, (ours::plan, planned), same);
    let (mut working, mut words) = ([0; 64], [0; 64]);
    let (mut columns, mut others) = (vec![0; 131_072], [0; 64]);
    row.side(Side::Plain, move |i, ask| {
        let set = plain::read_set(&sets[i]).unwrap();
        let p = black_box(set.plan());
        put(ask, if p.is_some() { 0 } else { 17 }, || {
            let (words, expected) = p.unwrap();
            of_plan(&[64, words.len() as u64, expected], &words)
        })
    })
    .side(Side::Parts("words, then expected bits"), move |i, ask| {
        let w = black_box(ours::plan_words(&sets[i], &mut working, &mut words));
        let words = &words[..w.q as usize];
        if w.refusal != 0 {
            return put(ask, w.refusal, Vec::new);
        }
        let e = black_box(ours::expect(&sets[i], words));
        put(ask, e.refusal, || of_plan(&[w.m, w.q, e.expected], words))
    })
    .side(Side::Parts(LISTING), move |i, ask| {
        let (q, refusal) = listed_words(&sets[i], &mut columns, &mut others);
        if refusal != 0 {
            return put(ask, refusal, Vec::new);
        }
        let words = &others[..q as usize];
        let e = black_box(ours::expect(&sets[i], words));
        put(ask, e.refusal, || of_plan(&[64, q, e.expected], words))
    })
}

const LISTING: &str = "the way that lists all columns";

/// The words of sets of s slices; also by listing all columns. Asked is at most 1.1 times that, and an eighth of it for 131,072 unknown
/// cells of full rank.
pub fn wording(s: usize, unknowns: usize, rank: usize, inputs: usize) -> Row {
    let (size, worded) = ((s, unknowns, rank, inputs), |w: CWorded| [w.m, w.q]);
    let same = [plan_words, best::words::plan_words, list_and_word];
    let (sets, row) = making_words("words", size, (ours::plan_words, worded), same);
    let (mut columns, mut others) = (vec![0; 131_072], [0; 64]);
    row.side(Side::Plain, move |i, ask| {
        let set = plain::read_set(&sets[i]).unwrap();
        let words = black_box(set.words());
        put(ask, if words.is_some() { 0 } else { 17 }, || {
            let words = words.unwrap();
            of_plan(&[64, words.len() as u64], &words)
        })
    })
    .side(Side::Parts(LISTING), move |i, ask| {
        let (q, refusal) = listed_words(&sets[i], &mut columns, &mut others);
        put(ask, refusal, || of_plan(&[64, q], &others))
    })
}

/// Cutting sets of s slices into runs that leave at least k words: the runs, the control bits and the cuts. Asked are, over 512 slices
/// with k 8, at least 30 times the speed of restarting each run for 512 unknown cells, 200 times where one run takes all slices, 2 times for
/// 4,096 unknown cells; and at most 1.25 times the time of the same one pass in Rust. The 200 are not reached for 4,096 unknown cells in one
/// run, where most of the work is the elimination.
pub fn cutting(s: usize, unknowns: usize, rank: usize, k: u64, inputs: usize) -> Row {
    let sets = sets(7, s, unknowns, rank, inputs);
    let of_cut =
        |runs: u64, bits: u64, cuts: &[u64]| [&[runs, bits], &cuts[..runs as usize]].concat();
    let in_rust = |call: fn(&[u8], u64, &mut [u64]) -> Result<[u64; 2], u64>| {
        let mut cuts = [0; 512];
        move |i: usize, ask: bool| {
            let c = black_box(call(&sets[i], k, &mut cuts));
            put(ask, c.err().unwrap_or(0), || {
                let [runs, bits] = c.unwrap();
                of_cut(runs, bits, &cuts)
            })
        }
    };
    let mut cuts = [0; 512];
    Row::new(
        "cutting",
        format!("{}, k {k}", of_rank(unknowns, rank)),
        inputs,
    )
    .side(Side::Ours, move |i, ask| {
        let c = black_box(ours::cut(&sets[i], k, &mut cuts));
        put(ask, c.refusal, || of_cut(c.runs, c.bits, &cuts))
    })
    .side(Side::Same, in_rust(cut))
    .side(Side::Best, in_rust(best::cutting::cut))
    .side(Side::Plain, move |i, ask| {
        let cuts = black_box(plain::read_set(&sets[i]).unwrap().cut(k as usize));
        put(ask, *cuts.as_ref().err().unwrap_or(&0), || {
            let cuts = cuts.unwrap();
            let runs = cuts.len() as u64;
            of_cut(runs, 64 * k * runs, &cuts)
        })
    })
    .side(Side::Other("restarting each run"), in_rust(restart_and_cut))
}

/// A set of the largest shape with 63 unknown cells, and a record.
fn large() -> (&'static Content, &'static Vec<u8>, &'static Vec<u8>) {
    let r = &mut Random::new(3);
    let content = kept(inverting(r, 512, 63, 63));
    (content, kept(file_of(content)), kept(record(r, 256, 512)))
}

type ReadsSet = fn(&[u8]) -> Result<(Read, [u64; 256]), u64>;

pub fn reader() -> Row {
    let (_, set, _) = large();
    let all = |numbers: [u64; 5], spread: &[u64]| {
        let [.., n, _] = numbers;
        [&numbers, &spread[..n as usize]].concat()
    };
    let in_rust = |call: ReadsSet| {
        move |_: usize, ask: bool| {
            let read = black_box(call(black_box(set)));
            put(ask, read.err().unwrap_or(0), || {
                let (read, spread) = read.unwrap();
                let (n, s) = (read.n as u64, read.s as u64);
                all([read.m, read.taps, read.inversion, n, s], &spread)
            })
        }
    };
    Row::new("set reader", "34,840 bytes".into(), 1)
        .side(Side::Ours, move |_, ask| {
            let read = black_box(ours::read_set(black_box(set)));
            put(ask, read.refusal, || {
                let numbers = [read.m, read.taps, read.inversion, read.n, read.s];
                all(numbers, &read.spread)
            })
        })
        .side(Side::Same, in_rust(read_set))
        .side(Side::Best, in_rust(best::set::read_set))
        .side(Side::Plain, move |_, ask| {
            let read = black_box(plain::read_set(black_box(set)));
            put(ask, 0, || {
                let read = read.unwrap();
                let (m, n, s) = (read.m.into(), read.spread.len() as u64, read.s as u64);
                all([m, read.taps, read.inversion, n, s], &read.spread)
            })
        })
}

type FindsRow = fn(&[u8], u64) -> Result<(usize, usize), u64>;

/// A row call: value_row or mark_row.
pub fn stretch(marks: bool) -> Row {
    let (_, set, _) = large();
    let (name, one): (_, fn(&[u8], u64) -> CStretch) = match marks {
        false => ("value row", ours::value_row),
        true => ("mark row", ours::mark_row),
    };
    let (same, best): (FindsRow, FindsRow) = match marks {
        false => (value_row, best::set::value_row),
        true => (mark_row, best::set::mark_row),
    };
    let in_rust = |call: FindsRow| {
        move |i: usize, ask: bool| {
            let at = black_box(call(black_box(set), i as u64));
            put(ask, at.err().unwrap_or(0), || {
                let (start, length) = at.unwrap();
                vec![start as u64, length as u64]
            })
        }
    };
    Row::new(name, "34,840 bytes".into(), 512)
        .side(Side::Ours, move |i, ask| {
            let at = black_box(one(black_box(set), i as u64));
            put(ask, at.refusal, || vec![at.start, at.length])
        })
        .side(Side::Same, in_rust(same))
        .side(Side::Best, in_rust(best))
        .side(Side::Plain, move |i, ask| {
            let set = black_box(plain::read_set(black_box(set))).unwrap();
            let start = 22 + 8 * set.spread.len() + set.b * (2 * i + usize::from(marks));
            put(ask, 0, || vec![start as u64, set.b as u64])
        })
}

pub fn signature() -> Row {
    let (_, set, record) = large();
    let read = plain::read_set(set).unwrap();
    let in_rust = |call: fn(&[u8], &[u8]) -> Result<u64, u64>| {
        move |_: usize, ask: bool| {
            let signed = black_box(call(set, black_box(record)));
            put(ask, signed.err().unwrap_or(0), || vec![signed.unwrap()])
        }
    };
    Row::new("a record's signature", "131,072 cells, half 1".into(), 1)
        .side(Side::Ours, move |_, ask| {
            let signed = black_box(ours::sign(set, black_box(record)));
            put(ask, signed.refusal, || vec![signed.signature])
        })
        .side(Side::Same, in_rust(sign))
        .side(Side::Best, in_rust(best::response::sign))
        .side(Side::Plain, move |_, ask| {
            let signed = black_box(read.signature(black_box(record), 32));
            put(ask, 0, || vec![signed])
        })
}

/// The bytes as words, for comparing.
fn bytes(out: &[u8]) -> Vec<u64> {
    out.iter().map(|&b| u64::from(b)).collect()
}

pub fn set_writer() -> Row {
    let (content, _, _) = large();
    let mut out = vec![0; 34_840];
    let in_rust = |call: fn(&Content, &mut [u8]) -> Result<usize, u64>| {
        let mut out = vec![0; 34_840];
        move |_: usize, ask: bool| {
            let wrote = black_box(call(black_box(content), &mut out));
            put(ask, wrote.err().unwrap_or(0), || {
                bytes(&out[..wrote.unwrap()])
            })
        }
    };
    Row::new("set writer", "34,840 bytes".into(), 1)
        .side(Side::Ours, move |_, ask| {
            let wrote = black_box(ours::write_set(black_box(content), &mut out));
            put(ask, wrote.refusal, || bytes(&out[..wrote.length as usize]))
        })
        .side(Side::Same, in_rust(write_set))
        .side(Side::Best, in_rust(best::set::write_set))
}

/// One clock: of m, the tap word, the inversion word, the state, the spread words and a row.
type Clocks = fn(u64, u64, u64, u64, &[u64], &[u8]) -> Result<u64, u64>;

pub fn one_clock() -> Row {
    let (content, _, record) = large();
    let row = |i: usize| &record[32 * i..32 * (i + 1)];
    let state = |i: usize| (i as u64).wrapping_mul(0x9E37_79B9_7F4A_7C15);
    let in_rust = |call: Clocks| {
        move |i: usize, ask: bool| {
            let c = content;
            let next = call(c.m, c.taps, c.inversion, state(i), &c.spread, row(i));
            let clocked = black_box(next);
            put(ask, clocked.err().unwrap_or(0), || vec![clocked.unwrap()])
        }
    };
    Row::new("one clock", "256 chains".into(), 512)
        .side(Side::Ours, move |i, ask| {
            let clocked = black_box(ours::clock(content, state(i), row(i)));
            put(ask, clocked.refusal, || vec![clocked.state])
        })
        .side(Side::Same, in_rust(clock))
        .side(Side::Best, in_rust(best::set::clock))
}

/// 63 words, their expected bits, and their plan file.
fn large_plan() -> (&'static Vec<u64>, u64, &'static Vec<u8>) {
    let r = &mut Random::new(4);
    let mut words = [0; 64];
    ours::eliminate(&[r.word() | 1], &mut words);
    let expected = r.word() >> 1;
    let mut out = vec![0; 526];
    let wrote = ours::write_plan(&words[..63], expected, &mut out);
    out.truncate(wrote.length as usize);
    (kept(words[..63].to_vec()), expected, kept(out))
}

/// The expected bits of 63 words, which are not the set's own, beside the signature of its value rows as a record. That call reads the
/// set too, so it alone is the narrower measure; asked is at most 1.1 times what the set reader and the signature take.
pub fn expecting() -> Row {
    let ((content, set, _), (words, _, _)) = (large(), large_plan());
    let bits = |signature: u64| {
        let odd = |w: &u64| u64::from((w & signature).count_ones() & 1);
        let bits = words.iter().map(odd).enumerate();
        vec![bits.map(|(i, bit)| bit << i).sum()]
    };
    let signed = move || black_box(ours::sign(set, black_box(&content.values)));
    let in_rust = |call: fn(&[u8], &[u64]) -> Result<u64, u64>| {
        move |_: usize, ask: bool| {
            let e = black_box(call(black_box(set), words));
            put(ask, e.err().unwrap_or(0), || vec![e.unwrap()])
        }
    };
    Row::new("expected bits", "34,840 bytes, 63 words".into(), 1)
        .side(Side::Ours, move |_, ask| {
            let e = black_box(ours::expect(black_box(set), words));
            put(ask, e.refusal, || vec![e.expected])
        })
        .side(Side::Same, in_rust(expect))
        .side(Side::Best, in_rust(best::response::expect))
        .side(Side::Plain, move |_, ask| {
            let set = plain::read_set(black_box(set)).unwrap();
            let e = black_box(set.expect(words));
            put(ask, e.err().unwrap_or(0), || vec![e.unwrap()])
        })
        .side(Side::Parts("a record's signature"), move |_, ask| {
            let y = signed();
            put(ask, y.refusal, || bits(y.signature))
        })
        .side(
            Side::Parts("set reader, then a record's signature"),
            move |_, ask| {
                let read = black_box(ours::read_set(black_box(set)));
                let y = signed();
                put(ask, read.refusal | y.refusal, || bits(y.signature))
            },
        )
}

/// Judging: the cancelled bits, and the first word that disagrees.
type Judges = fn(&[u8], u64) -> Result<(u64, Option<u32>), u64>;

pub fn judging() -> Row {
    let (_, _, plan) = large_plan();
    let r = &mut Random::new(5);
    let signatures: &Vec<u64> = kept((0..256).map(|_| r.word()).collect());
    let at = |first: Option<u64>| vec![u64::from(first.is_some()), first.unwrap_or(0)];
    let in_rust = |call: Judges| {
        move |i: usize, ask: bool| {
            let j = black_box(call(black_box(plan), signatures[i]));
            put(ask, j.err().unwrap_or(0), || {
                let (cancelled, first) = j.unwrap();
                [vec![cancelled], at(first.map(u64::from))].concat()
            })
        }
    };
    Row::new("judging", "63 words".into(), 256)
        .side(Side::Ours, move |i, ask| {
            let j = black_box(ours::judge(black_box(plan), signatures[i]));
            put(ask, j.refusal, || vec![j.cancelled, j.failed, j.index])
        })
        .side(Side::Same, in_rust(same::plan::judge))
        .side(Side::Best, in_rust(best::plan::judge))
        .side(Side::Plain, move |i, ask| {
            let (cancelled, first) = black_box(plain::judge(black_box(plan), signatures[i]));
            put(ask, 0, || {
                [vec![cancelled], at(first.map(|f| f as u64))].concat()
            })
        })
}

pub fn plan_reader() -> Row {
    let (_, _, plan) = large_plan();
    let mut words = [0; 64];
    let in_rust = |call: fn(&[u8], &mut [u64]) -> Result<[u64; 3], u64>| {
        let mut words = [0; 64];
        move |_: usize, ask: bool| {
            let p = black_box(call(black_box(plan), &mut words));
            put(ask, p.err().unwrap_or(0), || of_plan(&p.unwrap(), &words))
        }
    };
    Row::new("plan reader", "63 words".into(), 1)
        .side(Side::Ours, move |_, ask| {
            let p = black_box(ours::read_plan(black_box(plan), &mut words));
            put(ask, p.refusal, || of_plan(&planned(p), &words))
        })
        .side(Side::Same, in_rust(same::plan::read_plan))
        .side(Side::Best, in_rust(best::plan::read_plan))
}

pub fn plan_writer() -> Row {
    let (words, expected, _) = large_plan();
    let mut out = [0; 526];
    let in_rust = |call: fn(u64, &[u64], u64, &mut [u8]) -> Result<usize, u64>| {
        let mut out = [0; 526];
        move |_: usize, ask: bool| {
            let wrote = black_box(call(64, black_box(words), expected, &mut out));
            put(ask, wrote.err().unwrap_or(0), || {
                bytes(&out[..wrote.unwrap()])
            })
        }
    };
    Row::new("plan writer", "63 words".into(), 1)
        .side(Side::Ours, move |_, ask| {
            let wrote = black_box(ours::write_plan(black_box(words), expected, &mut out));
            put(ask, wrote.refusal, || bytes(&out[..wrote.length as usize]))
        })
        .side(Side::Same, in_rust(same::plan::write_plan))
        .side(Side::Best, in_rust(best::plan::write_plan))
}

/// The elimination of columns of m bits: the rank and q.
type Eliminates = fn(u64, &[u64], &mut [u64]) -> Result<(u64, usize), u64>;

/// An elimination at width 64, by the libraries too. What those give is a count of words, compared here.
pub fn elimination(count: usize, rank: usize, inputs: usize) -> Row {
    let r = &mut Random::new(6);
    let one = |_| columns_of_rank(r, 64, rank, count);
    let lists: &Vec<Vec<u64>> = kept((0..inputs).map(one).collect());
    let mut words = [0; 64];
    let in_rust = |call: Eliminates| {
        let mut words = [0; 64];
        move |i: usize, ask: bool| {
            let e = black_box(call(64, &lists[i], &mut words));
            put(ask, e.err().unwrap_or(0), || words[..e.unwrap().1].to_vec())
        }
    };
    let size = match rank {
        64 => format!("{count} columns of full rank"),
        _ => format!("{count} columns of rank {rank}"),
    };
    let mut row = Row::new("elimination", size, inputs)
        .side(Side::Ours, move |i, ask| {
            let e = black_box(ours::eliminate(&lists[i], &mut words));
            put(ask, e.refusal, || words[..e.q as usize].to_vec())
        })
        .side(Side::Same, in_rust(eliminate))
        .side(Side::Best, in_rust(best::basis::eliminate))
        .side(Side::Plain, move |i, ask| {
            let words = black_box(plain::eliminate(64, &lists[i]));
            put(ask, if words.is_some() { 0 } else { 17 }, || words.unwrap())
        });
    for (name, kernel) in kernels() {
        row = row.side(Side::Other(name), move |i, ask| {
            let found = black_box(kernel(lists[i].as_ptr(), lists[i].len()));
            assert!(!ask || found as usize == 64 - rank, "{name} finds {found}");
            None
        });
    }
    row
}

/// The unknown cells and ranks of planning and of the words.
const PLANNINGS: [(usize, usize); 22] = [
    (63, 63),
    (500, 10),
    (500, 40),
    (500, 63),
    (1_024, 10),
    (1_024, 40),
    (1_024, 63),
    (4_096, 10),
    (4_096, 40),
    (4_096, 63),
    (16_384, 10),
    (16_384, 40),
    (16_384, 63),
    (65_536, 10),
    (65_536, 40),
    (65_536, 63),
    // the longest way: one group of 64 marks to a portion, and one word left
    (80_000, 63),
    (131_072, 1),
    (131_072, 10),
    (131_072, 40),
    (131_072, 63),
    (131_072, 64),
];

/// The unknown cells and ranks of cutting, k 8: several runs, and one that takes all slices.
const CUTTINGS: [(usize, usize); 5] = [(512, 64), (4_096, 64), (48, 48), (512, 40), (4_096, 40)];

pub const ELIMINATIONS: [(usize, usize); 7] = [
    (16, 16),
    (63, 63),
    (500, 40),
    (500, 63),
    (131_072, 40),
    (131_072, 63),
    (131_072, 64),
];

/// The calls with one size.
const OTHERS: [fn() -> Row; 10] = [
    reader,
    || stretch(false),
    || stretch(true),
    signature,
    expecting,
    set_writer,
    one_clock,
    judging,
    plan_reader,
    plan_writer,
];

/// The whole table, row by row.
pub fn print_all() {
    for unknowns in [63, 500, 4_096, 131_072] {
        listing(512, unknowns, 63, inputs_for(unknowns)).print();
    }
    for (unknowns, rank) in PLANNINGS {
        planning(512, unknowns, rank, inputs_for(unknowns)).print();
    }
    for (unknowns, rank) in PLANNINGS {
        wording(512, unknowns, rank, inputs_for(unknowns)).print();
    }
    for (unknowns, rank) in CUTTINGS {
        cutting(512, unknowns, rank, 8, inputs_for(unknowns)).print();
    }
    for row in OTHERS {
        row().print();
    }
    for (count, rank) in ELIMINATIONS {
        elimination(count, rank, inputs_for(count)).print();
    }
}

#[cfg(test)]
mod tests {
    use super::*;

    /// What the sides of a row give to its inputs agrees.
    fn agree(mut row: Row, gives: &str) {
        assert_eq!(row.compared(), gives, "{} of {}", row.call, row.size);
    }

    #[test]
    fn all_sides_agree_where_the_library_changes_its_way() {
        for unknowns in [1, 63, 64, 65, 129, 511, 512, 513, 700, 2_300] {
            let rank = unknowns.min(40);
            agree(listing(9, unknowns, rank, 4), "an answer");
            agree(planning(9, unknowns, rank, 4), "an answer");
            agree(wording(9, unknowns, rank, 4), "an answer");
        }
        for unknowns in [70, 700] {
            agree(planning(9, unknowns, 64, 4), "refusal 17");
            agree(wording(9, unknowns, 64, 4), "refusal 17");
        }
        for (count, rank) in [(16, 16), (500, 40), (700, 40), (9_000, 62), (9_000, 63)] {
            agree(elimination(count, rank, 4), "an answer");
        }
        agree(elimination(9_000, 64, 4), "refusal 17");
    }

    #[test]
    fn all_sides_of_cutting_agree() {
        for (unknowns, rank) in [
            (1, 1),
            (40, 40),
            (300, 64),
            (300, 20),
            (1_024, 64),
            (1_024, 20),
        ] {
            for k in [1, 8, 20] {
                agree(cutting(40, unknowns, rank, k, 4), "an answer");
            }
            agree(cutting(40, unknowns, rank, 64, 4), "refusal 27");
        }
        agree(cutting(9, 1_500, 64, 8, 4), "refusal 27");
    }

    #[test]
    fn all_sides_of_the_other_calls_agree() {
        for row in OTHERS {
            agree(row(), "an answer");
        }
    }
}
