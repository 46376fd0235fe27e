//! How listing and planning grow with the unknown cells and the slices, and the elimination with the columns, as tables and as a picture.

use crate::row::{Row, Side};
use crate::rows::{elimination, inputs_for, listing, planning};
use crate::timing::{ratio, Times};

/// Time against unknown cells, or columns, by one way.
struct Line {
    name: String,
    colour: &'static str,
    /// An SVG dash pattern; empty for a line without gaps.
    dashes: &'static str,
    points: Vec<(f64, f64)>,
}

/// The lines of planning and those of the elimination.
pub struct Growth {
    planning: Vec<Line>,
    elimination: Vec<Line>,
}

/// The rank of the columns, or as much as there are unknown cells, so that planning answers.
pub const RANK: usize = 40;

/// The ranks for 512 slices; at 64 planning refuses.
const RANKS: [usize; 4] = [1, RANK, 63, 64];

/// The slices whose planning is drawn, with their colours.
const DRAWN: [(usize, &str); 2] = [(8, "#1a936f"), (512, "#1b6ca8")];

/// Ours, the best known and the straightforward way, in the picture.
const DASHES: [(&str, &str); 3] = [("ours", ""), ("best known", "2 3"), ("plainly", "7 4")];

/// The times of ours and of some other sides of a row, as far as it has them.
fn measured(mut row: Row, others: &[Side], gives: &str) -> Vec<Option<Times>> {
    let wanted: Vec<Side> = [&[Side::Ours], others].concat();
    row.sides.retain(|(side, _)| wanted.contains(side));
    let given = row.compared();
    assert_eq!(given, gives, "{} of {}", row.call, row.size);
    let mut times = row.times();
    let mut of = |side| {
        let at = times.iter().position(|(there, _)| there == side)?;
        Some(times.swap_remove(at).1)
    };
    wanted.iter().map(&mut of).collect()
}

/// .. of ours, the best known and the straightforward way.
fn three(row: Row, gives: &str) -> [Times; 3] {
    let times = measured(row, &[Side::Best, Side::Plain], gives);
    let times: Vec<Times> = times.into_iter().flatten().collect();
    times.try_into().ok().expect("the row has these sides")
}

/// Ours, ours divided by the best known, and the straightforward way divided by ours.
fn shown([ours, best, plain]: &[Times; 3]) -> String {
    let (by_best, by_us) = (ratio(&ours.over(best)), ratio(&plain.over(ours)));
    format!(
        "{} | {} ({by_best}) | {by_us} ×",
        ours.shown(),
        best.shown()
    )
}

/// Times listing and planning, prints their line of the table, and gives the times of planning.
fn print_sets(s: usize, unknowns: usize, rank: usize) -> [Times; 3] {
    let inputs = inputs_for(unknowns);
    let gives = match rank {
        64 => "refusal 17",
        _ => "an answer",
    };
    let list = three(listing(s, unknowns, rank, inputs), "an answer");
    let plan = three(planning(s, unknowns, rank, inputs), gives);
    println!(
        "| {s} | {unknowns} | {rank} | {} | {} |",
        shown(&list),
        shown(&plan)
    );
    plan
}

/// The ranks that are measured: RANK in place of all that are too large.
fn ranks(s: usize, unknowns: usize) -> Vec<usize> {
    match s {
        512 if RANK < unknowns => {
            let there = RANKS.into_iter().filter(|rank| *rank <= unknowns);
            there.collect()
        }
        _ => vec![RANK.min(unknowns)],
    }
}

fn lines_of(s: usize, colour: &'static str) -> Vec<Line> {
    let line = |(way, dashes)| Line {
        name: format!("{way}, {s} slices"),
        colour,
        dashes,
        points: Vec::new(),
    };
    DASHES.map(line).into()
}

fn print_plannings() -> Vec<Line> {
    println!(
        "\n| Slices | Unknowns | Rank | Listing | Best known | Each clocked to the end | Planning | Best known | Plainly |"
    );
    println!("|---|---|---|---|---|---|---|---|---|");
    let mut drawn = Vec::new();
    for s in [1, 8, 64, 512] {
        let colour = DRAWN.iter().find(|(slices, _)| *slices == s);
        let mut lines = colour.map_or(Vec::new(), |(_, colour)| lines_of(s, colour));
        let all = [1, 8, 63, 256, 1_024, 4_096, 16_384, 65_536, 131_072];
        for unknowns in all.into_iter().filter(|u| *u <= 256 * s) {
            for rank in ranks(s, unknowns) {
                let times = print_sets(s, unknowns, rank);
                if rank == RANK.min(unknowns) {
                    for (line, time) in lines.iter_mut().zip(&times) {
                        line.points.push((unknowns as f64, time.median()));
                    }
                }
            }
        }
        drawn.extend(lines);
    }
    drawn
}

/// The ways of the elimination that are drawn beside ours, with their names and colours.
const WAYS: [(Side, &str, &str); 5] = [
    (Side::Ours, "ours", "#1b6ca8"),
    (Side::Best, "best known", "#1a936f"),
    (Side::Plain, "straightforward", "#555555"),
    (Side::Other("M4RI"), "M4RI", "#c8553d"),
    (Side::Other("PARI"), "PARI", "#6a4c93"),
];

/// Ways that aren't there, since their library isn't installed, have no points.
fn print_eliminations() -> Vec<Line> {
    println!("\n| Columns | Rank | Elimination | Best known | Straightforward | M4RI | PARI |");
    println!("|---|---|---|---|---|---|---|");
    let mut lines: Vec<Line> = Vec::new();
    for (_, name, colour) in WAYS {
        lines.push(Line {
            name: name.to_string(),
            colour,
            dashes: "",
            points: Vec::new(),
        });
    }
    let others: Vec<Side> = WAYS[1..].iter().map(|(side, ..)| side.clone()).collect();
    for count in [16, 63, 500, 4_096, 16_384, 131_072] {
        let rank = RANK.min(count);
        let row = elimination(count, rank, inputs_for(count));
        let times = measured(row, &others, "an answer");
        let cells = times.iter().map(|t| t.as_ref().map(Times::shown));
        let cells = cells.map(|cell| cell.unwrap_or("–".to_string()));
        let cells: Vec<String> = cells.collect();
        println!("| {count} | {rank} | {} |", cells.join(" | "));
        for (line, time) in lines.iter_mut().zip(times) {
            line.points.extend(time.map(|t| (count as f64, t.median())));
        }
    }
    lines.retain(|line| !line.points.is_empty());
    lines
}

pub fn print_all() -> Growth {
    Growth {
        planning: print_plannings(),
        elimination: print_eliminations(),
    }
}

const TOP: f64 = 50.0;
const BOTTOM: f64 = 470.0;
const WIDTH: f64 = 400.0;

/// Both axes by powers of ten; x is counted from the left side of a panel.
fn x(left: f64, number: f64) -> f64 {
    left + number.log10() / 5.2 * WIDTH
}

/// From 0.1 µs up to 100 ms.
fn y(us: f64) -> f64 {
    BOTTOM - (us.log10() + 1.0) / 6.0 * (BOTTOM - TOP)
}

fn text(x: f64, y: f64, anchor: &str, words: &str) -> String {
    format!("<text x=\"{x:.1}\" y=\"{y:.1}\" text-anchor=\"{anchor}\">{words}</text>\n")
}

fn stroke([x1, y1, x2, y2]: [f64; 4], style: &str) -> String {
    format!("<line x1=\"{x1:.1}\" y1=\"{y1:.1}\" x2=\"{x2:.1}\" y2=\"{y2:.1}\" {style}/>\n")
}

fn axes(left: f64, title: &str, under: &str) -> String {
    let (grey, right) = ("stroke=\"#ddd\"", left + WIDTH);
    let mut svg = text(left, 30.0, "start", title);
    let numbers = ["1", "10", "100", "1,000", "10,000", "100,000"];
    for (power, name) in (0..).zip(numbers) {
        let at = x(left, 10f64.powi(power));
        svg += &stroke([at, TOP, at, BOTTOM], grey);
        svg += &text(at, BOTTOM + 18.0, "middle", name);
    }
    let times = [
        "0.1 µs", "1 µs", "10 µs", "100 µs", "1 ms", "10 ms", "100 ms",
    ];
    for (power, name) in (-1..).zip(times) {
        let at = y(10f64.powi(power));
        svg += &stroke([left, at, right, at], grey);
        svg += &text(left - 6.0, at + 4.0, "end", name);
    }
    svg + &text(left + WIDTH / 2.0, BOTTOM + 40.0, "middle", under)
}

/// A panel's lines, and behind them their names in the order of their ends.
fn panel(left: f64, lines: &[Line]) -> String {
    let mut svg = String::new();
    let end = |line: &&Line| line.points.last().map_or(0.0, |(_, us)| *us);
    let mut ordered: Vec<&Line> = lines.iter().collect();
    ordered.sort_by(|a, b| end(b).total_cmp(&end(a)));
    for (i, line) in ordered.into_iter().enumerate() {
        let style = format!(
            "stroke=\"{}\" stroke-width=\"2\" stroke-dasharray=\"{}\"",
            line.colour, line.dashes
        );
        let points = line.points.iter();
        let points = points.map(|(n, us)| format!("{:.1},{:.1}", x(left, *n), y(*us)));
        let points = points.collect::<Vec<String>>().join(" ");
        svg += &format!("<polyline points=\"{points}\" fill=\"none\" {style}/>\n");
        let (at, key) = (left + WIDTH + 14.0, TOP + 10.0 + 24.0 * i as f64);
        svg += &stroke([at, key, at + 35.0, key], &style);
        svg += &text(at + 42.0, key + 4.0, "start", &line.name);
    }
    svg
}

pub fn picture(growth: &Growth) -> String {
    let [left, right] = [70.0, 760.0];
    let rank = format!("rank {RANK} or as many as there are");
    let mut svg = String::from(
        "<svg xmlns=\"http://www.w3.org/2000/svg\" viewBox=\"0 0 1350 530\" font-family=\"sans-serif\" font-size=\"13\">\n\
         <rect width=\"1350\" height=\"530\" fill=\"white\"/>\n",
    );
    svg += &axes(left, &format!("Planning, {rank}"), "unknown cells");
    svg += &panel(left, &growth.planning);
    svg += &axes(right, &format!("Elimination, {rank}"), "columns");
    svg += &panel(right, &growth.elimination);
    svg + "</svg>\n"
}
