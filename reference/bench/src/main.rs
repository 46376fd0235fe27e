//! The benchmark: one table of every call, ours beside the same algorithm in Rust, the best that we know there, the straightforward one, and
//! M4RI and PARI where they are installed; planning and the expected bits also beside other calls of ours that do the same, or most of it.
//! Then tables of how listing, planning and the elimination grow, drawn as a picture.
//!
//! `bench` prints the tables, `bench PICTURE` also writes the picture, `bench --growth PICTURE` does so for the tables of growth alone,
//! `bench --ties` prints the table of sets with named cells alone. `bench --count CALL SIDE TIMES` makes one call so many times and nothing
//! else, for counting instructions; SIDE is `ours`, `rust`, `best`, `plain` or the name of another way, CALL a name of its list or a row of a
//! table (`row_by_parts`). `bench --against OTHER` times these calls beside those of another folder's bench, whose program OTHER is
//! (`against.rs`).

mod against;
mod best;
mod growth;
mod others;
mod ours;
mod plain;
mod row;
mod rows;
mod same;
mod small;
mod tied;
mod timing;

use row::{Row, Side};
use std::hint::black_box;

/// The calls whose instructions are counted, each with one input.
const COUNTED: [(&str, fn() -> Row); 31] = [
    ("read_set", rows::reader),
    ("value_row", || rows::stretch(false)),
    ("write_set", rows::set_writer),
    ("clock", rows::one_clock),
    ("sign", rows::signature),
    ("list-63", || rows::listing(512, 63, 63, 1)),
    ("list-4096", || rows::listing(512, 4_096, 63, 1)),
    ("plan_words-63", || rows::wording(512, 63, 63, 1)),
    ("plan_words-4096", || rows::wording(512, 4_096, 63, 1)),
    ("expect", rows::expecting),
    ("plan-63", || rows::planning(512, 63, 63, 1)),
    ("plan-4096", || rows::planning(512, 4_096, 63, 1)),
    ("plan-500", || rows::planning(512, 500, 40, 1)),
    ("plan-65536", || rows::planning(512, 65_536, 10, 1)),
    ("plan-80000", || rows::planning(512, 80_000, 63, 1)),
    ("plan-131072", || rows::planning(512, 131_072, 40, 1)),
    ("plan-full", || rows::planning(512, 131_072, 64, 1)),
    ("plan-256-tied", || {
        tied::row("planning", [512, 256, 40, 128], 1)
    }),
    ("plan-4096-tied", || {
        tied::row("planning", [512, 4_096, 40, 128], 1)
    }),
    ("list-4096-tied", || {
        tied::row("listing", [512, 4_096, 40, 128], 1)
    }),
    ("expect-tied", || {
        tied::row("expected", [512, 4_096, 40, 128], 1)
    }),
    ("cut-512", || rows::cutting(512, 512, 64, 8, 1)),
    ("cut-4096", || rows::cutting(512, 4_096, 64, 8, 1)),
    ("cut-48-one-run", || rows::cutting(512, 48, 48, 8, 1)),
    ("cut-512-one-run", || rows::cutting(512, 512, 40, 8, 1)),
    ("cut-4096-one-run", || rows::cutting(512, 4_096, 40, 8, 1)),
    ("eliminate-63", || rows::elimination(63, 63, 1)),
    ("eliminate-131072", || rows::elimination(131_072, 40, 1)),
    ("read_plan", rows::plan_reader),
    ("write_plan", rows::plan_writer),
    ("judge", rows::judging),
];

fn names() -> [&'static str; COUNTED.len()] {
    COUNTED.map(|(name, _)| name)
}

/// A row of a table, as `planning-500-10`: the call, the unknown cells, or columns, and the rank; or of a small set, as `sample-plan`; or with ties, as
/// `tied-planning-512-4096-40-16`: the call, the slices, the unknown cells, the rank and the named symbols.
fn row_by_parts(call: &str) -> Row {
    let parts: Vec<&str> = call.split('-').collect();
    if let [small @ ("sample" | "8x3"), call] = parts[..] {
        return small::row(small, call);
    }
    if let ["tied", call, ref sizes @ ..] = parts[..] {
        let sizes: Vec<usize> = sizes.iter().map(|n| n.parse().expect("a number")).collect();
        let [slices, unknowns, rank, symbols] = sizes[..] else {
            panic!("CALL")
        };
        return tied::row(call, [slices, unknowns, rank, symbols], 1);
    }
    let [call, unknowns, rank] = parts[..] else {
        panic!("CALL")
    };
    let [unknowns, rank] = [unknowns, rank].map(|n| n.parse().expect("a number"));
    match call {
        "listing" => rows::listing(512, unknowns, rank, 1),
        "planning" => rows::planning(512, unknowns, rank, 1),
        "words" => rows::wording(512, unknowns, rank, 1),
        "cutting" => rows::cutting(512, unknowns, rank, 8, 1),
        "elimination" => rows::elimination(unknowns, rank, 1),
        _ => panic!("CALL"),
    }
}

fn row_of(call: &str) -> Row {
    let named = COUNTED.iter().find(|(name, _)| *name == call);
    named.map_or_else(|| row_by_parts(call), |(_, row)| row())
}

fn name_of(side: &Side) -> &'static str {
    match side {
        Side::Ours => "ours",
        Side::Same => "rust",
        Side::Best => "best",
        Side::Plain => "plain",
        Side::Other(name) | Side::Parts(name) => name,
    }
}

fn counted(words: &[&str]) {
    let [call, side, times] = words else {
        return println!("{}", names().join("\n"));
    };
    let times: usize = times.parse().expect("TIMES is a number");
    let row = row_of(call);
    for (of, mut make) in row.sides {
        if name_of(&of) == *side {
            (0..times).for_each(|i| drop(black_box(make(i % row.inputs, false))));
        }
    }
}

fn main() {
    let words: Vec<String> = std::env::args().skip(1).collect();
    let words: Vec<&str> = words.iter().map(String::as_str).collect();
    match words[..] {
        ["--count", ..] => return counted(&words[1..]),
        ["--serve", call] => return against::serve(row_of(call)),
        ["--ties"] => return tied::print_all(),
        ["--growth", picture] => return grown(Some(picture)),
        ["--against", other] => return against::print_all(other, &names()),
        _ => {}
    }
    println!("| Call | Size | Gives | Ours | Same algorithm in Rust | Best known in Rust | Straightforward | Others |");
    println!("|---|---|---|---|---|---|---|---|");
    rows::print_all();
    tied::print_all();
    grown(words.first().copied());
}

/// Prints the tables of growth, and draws them where a path is given.
fn grown(path: Option<&str>) {
    let growth = growth::print_all();
    if let Some(path) = path {
        std::fs::write(path, growth::picture(&growth)).unwrap_or_else(|e| panic!("{path}: {e}"));
    }
}
