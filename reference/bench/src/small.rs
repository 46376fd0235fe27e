//! Every call that is lent a set or its parts, on small sets without ties: the sample, and 8 chains with 3 slices.

use crate::row::{put, Answer, Row, Side};
use crate::same::set::Read;
use crate::{best, ours, plain, same};
use reference::random::{content, file_of, Random};
use reference::second::set::Content;
use std::hint::black_box;

/// The sample of document 01: its numbers and rows put in place of a random content's.
fn sample() -> Content {
    let file = include_bytes!("../../../samples/sample.set");
    let read = plain::read_set(file).expect("a good set");
    let mut c = content(&mut Random::new(8), 1, 1, 1, 0, 1);
    (c.m, c.taps, c.inversion) = (read.m.into(), read.taps, read.inversion);
    (c.spread, c.s) = (read.spread, read.s as u64);
    let rows = |behind: usize| {
        let chunks = read.rows.chunks(2 * read.b);
        chunks.flat_map(move |slice| slice[behind..behind + read.b].to_vec())
    };
    (c.values, c.marks) = (rows(0).collect(), rows(read.b).collect());
    c
}

/// A set without ties, and what the calls are lent beside it.
struct Lent {
    content: Content,
    set: Vec<u8>,
    words: Vec<u64>,
}

fn lent(small: &str) -> &'static Lent {
    let content = match small {
        "sample" => sample(),
        "8x3" => content(&mut Random::new(9), 64, 8, 3, 1, 8),
        _ => panic!("sample or 8x3"),
    };
    let set = file_of(&content);
    let mut words = vec![0; 64];
    let made = ours::plan_words(&set, &mut [0; 64], &mut words);
    assert_eq!(made.refusal, 0, "a small set has words");
    words.truncate(made.q as usize);
    Box::leak(Box::new(Lent {
        content,
        set,
        words,
    }))
}

type One = Box<dyn FnMut(usize, bool) -> Option<Answer>>;

fn boxed(call: impl FnMut(usize, bool) -> Option<Answer> + 'static) -> One {
    Box::new(call)
}

fn in_rust<T: Copy + 'static>(
    mut call: impl FnMut() -> Result<T, u64> + 'static,
    numbers: impl Fn(T) -> Vec<u64> + 'static,
) -> One {
    boxed(move |_, ask| {
        let got = black_box(call());
        put(ask, got.err().unwrap_or(0), || numbers(got.unwrap()))
    })
}

fn by_us(l: &'static Lent, call: &str) -> One {
    let (c, set) = (&l.content, black_box(&l.set));
    let (mut list, mut words, mut out) = ([0; 64], [0; 64], vec![0; set.len()]);
    let row = &c.values[..c.spread.len().div_ceil(8)];
    match call {
        "read_set" => boxed(move |_, ask| {
            let r = black_box(ours::read_set(set));
            put(ask, r.refusal, || vec![r.m, r.taps, r.n, r.s])
        }),
        "value_row" | "mark_row" => {
            let one = match call {
                "value_row" => ours::value_row,
                _ => ours::mark_row,
            };
            boxed(move |_, ask| {
                let r = black_box(one(set, 0));
                put(ask, r.refusal, || vec![r.start, r.length])
            })
        }
        "write_set" => boxed(move |_, ask| {
            let r = black_box(ours::write_set(c, &mut out));
            put(ask, r.refusal, || vec![r.length])
        }),
        "clock" => boxed(move |_, ask| {
            let r = black_box(ours::clock(c, 1, row));
            put(ask, r.refusal, || vec![r.state])
        }),
        "sign" => boxed(move |_, ask| {
            let r = black_box(ours::sign(set, &c.values));
            put(ask, r.refusal, || vec![r.signature])
        }),
        "list" => boxed(move |_, ask| {
            let r = black_box(ours::list_columns(set, &mut list));
            put(ask, r.refusal, || list[..r.count as usize].to_vec())
        }),
        "plan_words" => boxed(move |_, ask| {
            let r = black_box(ours::plan_words(set, &mut list, &mut words));
            put(ask, r.refusal, || words[..r.q as usize].to_vec())
        }),
        "expect" => boxed(move |_, ask| {
            let r = black_box(ours::expect(set, &l.words));
            put(ask, r.refusal, || vec![r.expected])
        }),
        "plan" => boxed(move |_, ask| {
            let r = black_box(ours::plan(set, &mut list, &mut words));
            put(ask, r.refusal, || vec![r.m, r.q, r.expected])
        }),
        "cut" => boxed(move |_, ask| {
            let r = black_box(ours::cut(set, 1, &mut list));
            put(ask, r.refusal, || vec![r.runs, r.bits])
        }),
        _ => panic!("a small call"),
    }
}

/// The calls in Rust, the same algorithms or the best that we know.
#[derive(Clone, Copy)]
struct InRust {
    read_set: fn(&[u8]) -> Result<(Read, [u64; 256]), u64>,
    value_row: fn(&[u8], u64) -> Result<(usize, usize), u64>,
    mark_row: fn(&[u8], u64) -> Result<(usize, usize), u64>,
    write_set: fn(&Content, &mut [u8]) -> Result<usize, u64>,
    clock: fn(u64, u64, u64, u64, &[u64], &[u8]) -> Result<u64, u64>,
    sign: fn(&[u8], &[u8]) -> Result<u64, u64>,
    list_columns: fn(&[u8], &mut [u64]) -> Result<usize, u64>,
    plan_words: fn(&[u8], &mut [u64], &mut [u64]) -> Result<[u64; 2], u64>,
    expect: fn(&[u8], &[u64]) -> Result<u64, u64>,
    plan: fn(&[u8], &mut [u64], &mut [u64]) -> Result<[u64; 3], u64>,
    cut: fn(&[u8], u64, &mut [u64]) -> Result<[u64; 2], u64>,
}

const SAME: InRust = InRust {
    read_set: same::set::read_set,
    value_row: same::set::value_row,
    mark_row: same::set::mark_row,
    write_set: same::set::write_set,
    clock: same::set::clock,
    sign: same::response::sign,
    list_columns: same::response::list_columns,
    plan_words: same::response::plan_words,
    expect: same::response::expect,
    plan: same::response::plan,
    cut: same::cutting::cut,
};

const BEST: InRust = InRust {
    read_set: best::set::read_set,
    value_row: best::set::value_row,
    mark_row: best::set::mark_row,
    write_set: best::set::write_set,
    clock: best::set::clock,
    sign: best::response::sign,
    list_columns: best::columns::list_columns,
    plan_words: best::words::plan_words,
    expect: best::response::expect,
    plan: best::words::plan,
    cut: best::cutting::cut,
};

fn by_rust(ways: InRust, l: &'static Lent, call: &str) -> One {
    let (c, set) = (&l.content, black_box(&l.set));
    let (mut list, mut words, mut out) = ([0; 64], [0; 64], vec![0; set.len()]);
    let row = &c.values[..c.spread.len().div_ceil(8)];
    let place = |(start, length)| vec![start as u64, length as u64];
    match call {
        "read_set" => in_rust(
            move || (ways.read_set)(set),
            |(r, _)| vec![r.m, r.taps, r.n as u64, r.s as u64],
        ),
        "value_row" => in_rust(move || (ways.value_row)(set, 0), place),
        "mark_row" => in_rust(move || (ways.mark_row)(set, 0), place),
        "write_set" => in_rust(
            move || (ways.write_set)(c, &mut out),
            |length| vec![length as u64],
        ),
        "clock" => in_rust(
            move || (ways.clock)(c.m, c.taps, c.inversion, 1, &c.spread, row),
            |state| vec![state],
        ),
        "sign" => in_rust(
            move || (ways.sign)(set, &c.values),
            |signature| vec![signature],
        ),
        "list" => boxed(move |_, ask| {
            let r = black_box((ways.list_columns)(set, &mut list));
            put(ask, r.err().unwrap_or(0), || list[..r.unwrap()].to_vec())
        }),
        "plan_words" => boxed(move |_, ask| {
            let r = black_box((ways.plan_words)(set, &mut list, &mut words));
            put(ask, r.err().unwrap_or(0), || {
                words[..r.unwrap()[1] as usize].to_vec()
            })
        }),
        "expect" => in_rust(move || (ways.expect)(set, &l.words), |bits| vec![bits]),
        "plan" => in_rust(
            move || (ways.plan)(set, &mut list, &mut words),
            |p: [u64; 3]| p.to_vec(),
        ),
        "cut" => in_rust(
            move || (ways.cut)(set, 1, &mut list),
            |r: [u64; 2]| r.to_vec(),
        ),
        _ => panic!("a small call"),
    }
}

/// A call on a small set, `sample` or `8x3`.
pub fn row(small: &str, call: &str) -> Row {
    let l = lent(small);
    let mut row = Row::new("small", format!("{call} of {small}"), 1);
    row.sides.push((Side::Ours, by_us(l, call)));
    row.sides.push((Side::Same, by_rust(SAME, l, call)));
    row.sides.push((Side::Best, by_rust(BEST, l, call)));
    row
}

#[cfg(test)]
mod tests {
    use super::*;

    /// The calls, by the names that they are counted by.
    const CALLS: [&str; 11] = [
        "read_set",
        "value_row",
        "mark_row",
        "write_set",
        "clock",
        "sign",
        "list",
        "plan_words",
        "expect",
        "plan",
        "cut",
    ];

    #[test]
    fn all_sides_of_small_sets_agree() {
        for small in ["sample", "8x3"] {
            for call in CALLS {
                let mut row = row(small, call);
                assert_eq!(row.compared(), "an answer", "{}", row.size);
            }
        }
    }
}
