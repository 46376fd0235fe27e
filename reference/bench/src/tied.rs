//! Sets in which 256 of the unknown cells are named, for some symbols of as many cells each, half of them as opposite; each call beside
//! itself on the same set without its entries.

use crate::plain::{read_set, PlainSet};
use crate::row::{put, Answer, Row, Side};
use crate::rows::{inputs_for, inverting, kept, of_plan, planned, Files};
use crate::{best, ours, same};
use reference::random::*;
use reference::second::set::Content;
use std::hint::black_box;

pub const WITHOUT: &str = "without its entries";
pub const SAME_WITHOUT: &str = "same, without its entries";

const NAMED: usize = 256;

/// The slices, the unknown cells and the rank of their columns, without ties.
const SIZES: [[usize; 3]; 11] = [
    [1, 256, 40],
    [2, 256, 40],
    [512, 256, 40],
    [512, 512, 40],
    [512, 768, 40],
    [512, 4_096, 40],
    [512, 4_096, 63],
    [512, 131_072, 40],
    [512, 131_072, 63],
    [512, 4_096, 64],
    [512, 131_072, 64],
];

const SYMBOLS: [usize; 3] = [16, 128, 256];

/// Names 256 of the unknown cells.
fn name_cells(r: &mut Random, content: &mut Content, symbols: usize) {
    let cells = unknown_cells(content);
    let mut chosen = some_of(r, cells.len(), NAMED);
    chosen.sort_unstable();
    let numbers: Vec<u16> = some_of(r, 65_536, symbols)
        .iter()
        .map(|j| *j as u16)
        .collect();
    let order = some_of(r, NAMED, NAMED);
    let entries = chosen.into_iter().zip(order);
    let entry = |(i, k): (usize, usize)| {
        let opposite = (k / symbols + k) % 2;
        tie(cells[i], numbers[k % symbols], opposite as u8)
    };
    content.ties = entries.flat_map(entry).collect();
}

/// Sets with entries, and the same ones without.
fn both([s, unknowns, rank, symbols]: [usize; 4], inputs: usize) -> [Files; 2] {
    let r = &mut Random::new(10);
    let mut pairs = Vec::new();
    for _ in 0..inputs {
        let mut content = inverting(r, s, rank, unknowns);
        let without = file_of(&content);
        name_cells(r, &mut content, symbols);
        pairs.push((file_of(&content), without));
    }
    let (with, without) = pairs.into_iter().unzip();
    [kept(with), kept(without)]
}

/// What a call is lent beside the set.
struct Lent {
    working: Vec<u64>,
    words: [u64; 64],
    columns: Vec<u64>,
}

impl Lent {
    fn new() -> Lent {
        Lent {
            working: vec![0; 64 + NAMED],
            words: [0; 64],
            columns: vec![0; 131_072],
        }
    }
}

/// A call on a set, as ours, the same algorithm or the best that we know makes it.
type Made = fn(&[u8], &mut Lent, bool) -> Option<Answer>;

/// .. as the straightforward way makes it.
type Plainly = fn(&PlainSet) -> Answer;

/// Words that are not the set's own.
const OTHERS: [u64; 3] = [0b11, 0b101, 0b1000];

fn in_rust<T>(
    ask: bool,
    got: Result<T, u64>,
    numbers: impl FnOnce(T) -> Vec<u64>,
) -> Option<Answer> {
    let got = black_box(got);
    ask.then(|| got.map(numbers))
}

fn ways(call: &str) -> (&'static str, [Made; 3], Plainly) {
    match call {
        "planning" => (
            "planning",
            [
                |set, l, ask| {
                    let p = black_box(ours::plan(set, &mut l.working, &mut l.words));
                    put(ask, p.refusal, || of_plan(&planned(p), &l.words))
                },
                |set, l, ask| {
                    let p = same::response::plan(set, &mut l.working, &mut l.words);
                    in_rust(ask, p, |p| of_plan(&p, &l.words))
                },
                |set, l, ask| {
                    let p = best::words::plan(set, &mut l.working, &mut l.words);
                    in_rust(ask, p, |p| of_plan(&p, &l.words))
                },
            ],
            |set| {
                let (words, expected) = set.plan().ok_or(17u64)?;
                Ok(of_plan(&[64, words.len() as u64, expected], &words))
            },
        ),
        "words" => (
            "words",
            [
                |set, l, ask| {
                    let w = black_box(ours::plan_words(set, &mut l.working, &mut l.words));
                    put(ask, w.refusal, || of_plan(&[w.m, w.q], &l.words))
                },
                |set, l, ask| {
                    let w = same::response::plan_words(set, &mut l.working, &mut l.words);
                    in_rust(ask, w, |w| of_plan(&w, &l.words))
                },
                |set, l, ask| {
                    let w = best::words::plan_words(set, &mut l.working, &mut l.words);
                    in_rust(ask, w, |w| of_plan(&w, &l.words))
                },
            ],
            |set| {
                let words = set.words().ok_or(17u64)?;
                Ok(of_plan(&[64, words.len() as u64], &words))
            },
        ),
        "expected" => (
            "expected bits",
            [
                |set, _, ask| {
                    let e = black_box(ours::expect(set, &OTHERS));
                    put(ask, e.refusal, || vec![e.expected])
                },
                |set, _, ask| in_rust(ask, same::response::expect(set, &OTHERS), |e| vec![e]),
                |set, _, ask| in_rust(ask, best::response::expect(set, &OTHERS), |e| vec![e]),
            ],
            |set| set.expect(&OTHERS).map(|e| vec![e]),
        ),
        "listing" => (
            "listing columns",
            [
                |set, l, ask| {
                    let c = black_box(ours::list_columns(set, &mut l.columns));
                    put(ask, c.refusal, || l.columns[..c.count as usize].to_vec())
                },
                |set, l, ask| {
                    let c = same::response::list_columns(set, &mut l.columns);
                    in_rust(ask, c, |c| l.columns[..c].to_vec())
                },
                |set, l, ask| {
                    let c = best::columns::list_columns(set, &mut l.columns);
                    in_rust(ask, c, |c| l.columns[..c].to_vec())
                },
            ],
            |set| Ok(set.columns()),
        ),
        "reading" => (
            "set reader",
            [
                |set, _, ask| {
                    let r = black_box(ours::read_set(set));
                    put(ask, r.refusal, || vec![r.m, r.taps, r.n, r.s])
                },
                |set, _, ask| {
                    let r = same::set::read_set(set);
                    in_rust(ask, r, |(r, _)| vec![r.m, r.taps, r.n as u64, r.s as u64])
                },
                |set, _, ask| {
                    let r = best::set::read_set(set);
                    in_rust(ask, r, |(r, _)| vec![r.m, r.taps, r.n as u64, r.s as u64])
                },
            ],
            |set| {
                Ok(vec![
                    set.m.into(),
                    set.taps,
                    set.spread.len() as u64,
                    set.s as u64,
                ])
            },
        ),
        _ => panic!("CALL"),
    }
}

/// A call on sets with entries: ours, the same algorithm, the best that we know and the straightforward one; and the first two on the sets
/// without them. What all sides answer there is compared here.
pub fn row(call: &str, sizes: [usize; 4], inputs: usize) -> Row {
    let [s, unknowns, rank, symbols] = sizes;
    let (name, [ours, same, best], plain) = ways(call);
    let [with, without] = both(sizes, inputs);
    let lent = |made: Made, sets: Files, compares: bool| {
        let mut l = Lent::new();
        move |i: usize, ask: bool| made(black_box(&sets[i]), &mut l, ask && compares)
    };
    let plainly = move |sets: Files| {
        move |i: usize, ask: bool| {
            let set = read_set(&sets[i]).expect("a good set");
            let got = black_box(plain(&set));
            ask.then_some(got)
        }
    };
    let slices = match s {
        512 => String::new(),
        1 => "1 slice, ".to_string(),
        _ => format!("{s} slices, "),
    };
    let of = match rank {
        64 => "full rank".to_string(),
        _ => format!("rank {rank}"),
    };
    let size = format!(
        "{slices}{unknowns} unknowns of {of}, {symbols} symbols of {}",
        NAMED / symbols
    );
    Row::new("", "the same sets without entries".into(), inputs)
        .side(Side::Ours, lent(ours, without, true))
        .side(Side::Same, lent(same, without, true))
        .side(Side::Best, lent(best, without, true))
        .side(Side::Plain, plainly(without))
        .compared();
    Row::new(name, size, inputs)
        .side(Side::Ours, lent(ours, with, true))
        .side(Side::Same, lent(same, with, true))
        .side(Side::Best, lent(best, with, true))
        .side(Side::Plain, plainly(with))
        .side(Side::Parts(WITHOUT), lent(ours, without, false))
        .side(Side::Parts(SAME_WITHOUT), lent(same, without, false))
}

pub fn print_all() {
    println!("\n| Call | Size | Gives | Ours | Same algorithm in Rust | Best known in Rust | Straightforward | Without entries |");
    println!("|---|---|---|---|---|---|---|---|");
    for call in ["planning", "words", "listing"] {
        for [s, unknowns, rank] in SIZES {
            for symbols in SYMBOLS {
                row(call, [s, unknowns, rank, symbols], inputs_for(unknowns)).print();
            }
        }
    }
    for call in ["expected", "reading"] {
        row(call, [512, 4_096, 40, 16], 1).print();
    }
}

#[cfg(test)]
mod tests {
    use super::*;

    #[test]
    fn all_sides_agree_on_named_cells() {
        for call in ["planning", "words", "listing", "expected", "reading"] {
            for [s, unknowns] in [[1, 256], [2, 300], [9, 700], [9, 769], [9, 2_304]] {
                for symbols in SYMBOLS {
                    let mut row = row(call, [s, unknowns, 40, symbols], 4);
                    assert_eq!(row.compared(), "an answer", "{call} of {}", row.size);
                }
            }
        }
        let mut row = row("planning", [9, 2_304, 64, 16], 4);
        assert_eq!(row.compared(), "refusal 17");
    }
}
