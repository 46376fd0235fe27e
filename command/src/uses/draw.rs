//! The response of a set as a picture, with its words under it.

use super::cut::{least_words, Cutting};
use super::{Input, Use};
use crate::arguments::Given;
use crate::canceller::{self, Plan, Refusal, Reply, Set, Tie, SET_MAX};
use crate::ending::{Outcome, Status};
use crate::numbers::{grouped, many};
use crate::refusals::NO_WORDS;
use crate::svg::{number, ticks, Svg, LETTER, SIZE};
use crate::text_form::{cells_of, unknown_cells, Cell};
use crate::{bits, files};
use std::fmt::Write;

pub const USE: Use = Use {
    name: "draw",
    forms: &["draw FILE.set [--cut K] [-o FILE.svg]"],
    does: "draw the response and its words as SVG",
    more: "\
Slices go across and chains down. A cell that is 0 is empty, one that is 1 is filled, and an unknown one is crossed. Under the
response stand the rank, q and each word as a row of register bits, M1 (bit 0) first. A set for which no words exist (refusal
17) is drawn too, and the picture says so.

A tied cell has a square with its symbol's number on it, and a bar over the number where it holds the symbol's opposite. Symbols
have colours in turn; where the squares are too small for numbers, a browser tells them at the pointer.

With --cut K the picture shows the runs of 'canceller cut FILE.set K' too: a bracket with the run's number over the slices of
each, a line between two runs, and how many runs and control bits there are. The words under the response are still those of
the whole of it.

Example: canceller draw sample.set -o sample.svg
         canceller draw runs.set --cut 2 -o runs.svg",
    options: &["--cut", "-o"],
    operands: 1..=1,
    run,
};

fn run(given: &Given) -> Outcome {
    let k = given.option("--cut").map(|k| least_words(&USE, k));
    let k = k.transpose()?;
    let set = Input::read(&given.operands[0], SET_MAX)?;
    let picture = set.ask(|file| Picture::of(file, &set.name, k))?.drawn();
    files::write(given.option("-o"), picture.as_bytes())?;
    Ok(Status::Done)
}

/// Everything that is drawn.
struct Picture {
    name: String,
    set: Set,
    slices: Vec<Vec<Cell>>,
    ties: Vec<Tie>,
    /// None where there are no words.
    plan: Option<Plan>,
    /// None where no runs are asked for.
    cutting: Option<Cutting>,
}

/// The kinds of cells: what they are called, and how they are filled. Unknown cells are the darkest, so that few of them are seen
/// among many others, without colour too.
const KINDS: [(Cell, &str, &str, &str); 3] = [
    (Cell::Zero, "zero", "0", "#ffffff"),
    (Cell::One, "one", "1", "#c6d2de"),
    (Cell::Unknown, "unknown", "X, unknown", "url(#crossed)"),
];

/// The colours of tied cells, in turn by symbol: dark, so that white numbers can be read on them.
const COLOURS: [&str; 8] = [
    "#1f3b57", "#2e6f40", "#6b3fa0", "#8a5a00", "#006d77", "#7a2048", "#444444", "#0b4f9e",
];

/// A tied cell's square and the bar of an opposite one, in a cell of the side 1.
const SQUARE: &str = ".1h.8v.8h-.8z";
const BAR_OVER: &str = ".16h.6v.1h-.6z";

const MARGIN: f64 = 24.0;
const LINE: f64 = 18.0;
/// Where the text behind a box of the legend starts.
const BEHIND: f64 = MARGIN + 22.0;
/// Cells smaller than this have no lines between them, and bars beside them that say where unknown ones are.
const ROOM: f64 = 6.0;
const BAR: f64 = 80.0;
const LEFT: f64 = 64.0;
const TOP: f64 = 88.0;
/// The height of the runs' brackets and numbers, between the axis of the slices and the response.
const RUNS: f64 = 32.0;

impl Picture {
    fn of(file: &[u8], name: &str, k: Option<u64>) -> Reply<Picture> {
        let set = canceller::read_set(file)?;
        let plan = match canceller::plan(file) {
            Ok(plan) => Some(plan),
            Err(Refusal(NO_WORDS)) => None,
            Err(refusal) => return Err(refusal),
        };
        Ok(Picture {
            name: name.to_string(),
            slices: cells_of(file, &set)?,
            ties: Tie::all(canceller::ties(file)?),
            set,
            plan,
            cutting: k.map(|k| Cutting::of(file, k)).transpose()?,
        })
    }

    /// How wide and how high a cell is.
    fn cell(&self) -> (f64, f64) {
        let side = |room: f64, many: usize| (room / many.max(1) as f64).clamp(2.5, 28.0);
        (
            side(1280.0, self.slices.len()),
            side(800.0, self.set.spread.len()),
        )
    }

    /// The room between the axis of the slices and the response: that of the runs.
    fn runs_high(&self) -> f64 {
        self.cutting.as_ref().map_or(0.0, |_| RUNS)
    }

    /// Where the response starts: runs take a heading more, and their room.
    fn top(&self) -> f64 {
        let heading = self.cutting.as_ref().map_or(0.0, |_| LINE);
        TOP + heading + self.runs_high()
    }

    /// The lines of the legend: ties take two more.
    fn legend_high(&self) -> f64 {
        let lines = if self.ties.is_empty() { 4.0 } else { 6.0 };
        lines * LINE
    }

    /// The numbers of the symbols that ties name, each once, in the order of their first cells.
    fn named(&self) -> Vec<u16> {
        let mut numbers = Vec::new();
        for tie in &self.ties {
            if !numbers.contains(&tie.symbol) {
                numbers.push(tie.symbol);
            }
        }
        numbers
    }

    fn words(&self) -> &[u64] {
        self.plan.as_ref().map_or(&[], |plan| &plan.words)
    }

    /// The side of a register bit's box.
    fn bit_box(&self) -> f64 {
        if self.set.m <= 24 {
            28.0
        } else {
            14.0
        }
    }

    fn drawn(&self) -> String {
        let (wide, high) = self.cell();
        let across = wide * self.slices.len() as f64;
        let down = high * self.set.spread.len() as f64;
        let headings = self.headings();
        let cut = self.cutting.as_ref().map(cut_heading);
        let bars = if wide.min(high) < ROOM {
            BAR + 24.0
        } else {
            0.0
        };
        let under = self.top() + down + 28.0 + bars;
        let words_top = under + self.legend_high() + 44.0;
        let height = words_top + self.words().len() as f64 * LINE + MARGIN;
        let letters = |text: &String| text.chars().count() as f64 * LETTER;
        let legend = self.tie_legend().into_iter().map(|(_, text)| text);
        let legend = legend.map(|text| letters(&text) + BEHIND - MARGIN);
        let over = headings.iter().chain(&cut).map(letters);
        let longest = over.chain(legend).fold(0.0, f64::max);
        let width = (LEFT + across + bars)
            .max(self.words_width())
            .max(MARGIN + longest)
            + MARGIN;

        let mut svg = Svg::new(width, height, &format!("Response: {}", self.name));
        svg.put(format_args!(
            "<defs><pattern id=\"crossed\" width=\"1\" height=\"1\" patternUnits=\"userSpaceOnUse\">\
             <rect width=\"1\" height=\"1\" fill=\"#a4161a\"/>\
             <path d=\"M.15 .15L.85 .85M.85 .15L.15 .85\" stroke=\"#ffffff\" stroke-width=\".12\"/></pattern></defs>"
        ));
        svg.text(MARGIN, 28.0, &headings[0]);
        svg.text(MARGIN, 28.0 + LINE, &headings[1]);
        if let Some(cut) = &cut {
            svg.text(MARGIN, 28.0 + 2.0 * LINE, cut);
        }
        self.draw_axes(&mut svg, wide, high);
        self.draw_cells(&mut svg, wide, high);
        self.draw_lines(&mut svg, wide, high);
        self.draw_ties(&mut svg, wide, high);
        if let Some(cutting) = &self.cutting {
            self.draw_runs(&mut svg, cutting, wide, down);
        }
        if wide.min(high) < ROOM {
            self.draw_bars(&mut svg, wide, high);
        }
        self.draw_legend(&mut svg, under);
        self.draw_tie_legend(&mut svg, under + 3.0 * LINE);
        svg.text(MARGIN, under + self.legend_high(), &headings[2]);
        self.draw_words(&mut svg, words_top);
        svg.done()
    }

    /// The two lines over the response, and the one over the words.
    fn headings(&self) -> [String; 3] {
        let (set, n) = (&self.set, self.set.spread.len() as u64);
        let unknown = self.count(Cell::Unknown) as u64;
        // what no word is left for has full rank: q is m less the rank
        let q = self.words().len();
        let rank = set.m - q as u64;
        let none = match self.plan {
            Some(_) => String::new(),
            None => format!("; no words: every signature is explained ({NO_WORDS})"),
        };
        let symbols = match self.ties.len() {
            0 => String::new(),
            ties => {
                let symbols = unknown - ties as u64 + self.named().len() as u64;
                format!(", {}", many(symbols, "symbol"))
            }
        };
        let inversion = match set.inversion {
            0 => String::new(),
            word => format!("inversion {word}, "),
        };
        [
            self.name.clone(),
            format!(
                "m {}, taps {}, {inversion}{}, {}",
                set.m,
                set.taps,
                many(n, "chain"),
                many(set.s, "slice")
            ),
            format!(
                "{}{symbols}, rank {rank}, q {q}{none}",
                many(unknown, "unknown cell")
            ),
        ]
    }

    fn count(&self, kind: Cell) -> usize {
        let cells = self.slices.iter().flatten();
        cells.filter(|cell| **cell == kind).count()
    }

    fn draw_axes(&self, svg: &mut Svg, wide: f64, high: f64) {
        let (top, over) = (self.top(), self.top() - self.runs_high());
        svg.text(LEFT, over - 22.0, "slice");
        for slice in ticks(0, self.slices.len() as i64 - 1, wide, 26.0) {
            let x = LEFT + (slice as f64 + 0.5) * wide;
            svg.anchored(x, over - 6.0, "middle", &slice.to_string());
        }
        svg.anchored(LEFT - 8.0, top - 6.0, "end", "chain");
        for chain in ticks(0, self.set.spread.len() as i64 - 1, high, 16.0) {
            let y = top + (chain as f64 + 0.5) * high + 4.0;
            svg.anchored(LEFT - 8.0, y, "end", &chain.to_string());
        }
    }

    /// A path for each kind, with a square for each cell whose corner is its slice and its chain.
    fn draw_cells(&self, svg: &mut Svg, wide: f64, high: f64) {
        let (wide, high, top) = (number(wide), number(high), self.top());
        svg.put(format_args!(
            "<g id=\"cells\" transform=\"translate({LEFT} {top}) scale({wide} {high})\">"
        ));
        for (kind, name, _, fill) in KINDS {
            let mut path = String::new();
            for (slice, cells) in self.slices.iter().enumerate() {
                for (chain, _) in cells.iter().enumerate().filter(|(_, cell)| **cell == kind) {
                    write!(path, "M{slice} {chain}h1v1h-1z").expect("a string grows");
                }
            }
            let count = self.count(kind);
            svg.put(format_args!(
                "<path id=\"{name}\" data-count=\"{count}\" fill=\"{fill}\" d=\"{path}\"/>"
            ));
        }
        svg.put(format_args!("</g>"));
    }

    /// Lines between the cells, where there is room for them, and a frame.
    fn draw_lines(&self, svg: &mut Svg, wide: f64, high: f64) {
        let (s, n, top) = (self.slices.len(), self.set.spread.len(), self.top());
        let (across, down) = (number(wide * s as f64), number(high * n as f64));
        let mut path = String::new();
        for slice in (1..s).filter(|_| wide >= ROOM) {
            let x = number(LEFT + slice as f64 * wide);
            write!(path, "M{x} {top}v{down}").expect("a string grows");
        }
        for chain in (1..n).filter(|_| high >= ROOM) {
            let y = number(top + chain as f64 * high);
            write!(path, "M{LEFT} {y}h{across}").expect("a string grows");
        }
        svg.put(format_args!(
            "<path d=\"{path}\" stroke=\"#888888\" stroke-width=\"0.5\" fill=\"none\"/>"
        ));
        svg.put(format_args!(
            "<rect x=\"{LEFT}\" y=\"{top}\" width=\"{across}\" height=\"{down}\" fill=\"none\" stroke=\"#000000\"/>"
        ));
    }

    /// A square on each tied cell in its symbol's colour, with the symbol's number where there is room for it; over the number of a cell
    /// that holds the opposite, a bar.
    fn draw_ties(&self, svg: &mut Svg, wide: f64, high: f64) {
        if self.ties.is_empty() {
            return;
        }
        let (top, named) = (self.top(), self.named());
        svg.put(format_args!(
            "<g id=\"ties\" transform=\"translate({LEFT} {top}) scale({} {})\">",
            number(wide),
            number(high)
        ));
        for tie in &self.ties {
            let (slice, chain, symbol) = (tie.slice, tie.chain, tie.symbol);
            let turn = named.iter().position(|number| *number == symbol);
            let colour = COLOURS[turn.unwrap_or(0) % COLOURS.len()];
            let (kind, bar) = match tie.opposite {
                false => ("as is", String::new()),
                true => {
                    let bar = format!("M{slice}.2 {chain}{BAR_OVER}");
                    ("opposite", format!("<path d=\"{bar}\" fill=\"#ffffff\"/>"))
                }
            };
            svg.put(format_args!(
                "<g class=\"tie\" data-slice=\"{slice}\" data-chain=\"{chain}\" data-symbol=\"{symbol}\" data-side=\"{kind}\">\
                 <title>slice {slice}, chain {chain}: symbol {symbol}, {kind}</title>\
                 <path d=\"M{slice}.1 {chain}{SQUARE}\" fill=\"{colour}\"/>{bar}</g>"
            ));
        }
        svg.put(format_args!("</g>"));
        self.draw_tie_numbers(svg, wide, high);
    }

    fn draw_tie_numbers(&self, svg: &mut Svg, wide: f64, high: f64) {
        const LEAST: f64 = 6.0;
        for tie in &self.ties {
            let text = tie.symbol.to_string();
            let fits = 0.75 * wide / (text.len() as f64 * LETTER / SIZE);
            let size = fits.min(0.5 * high).min(SIZE);
            if size >= LEAST {
                let x = LEFT + (f64::from(tie.slice) + 0.5) * wide;
                let y = self.top() + (f64::from(tie.chain) + 0.55) * high;
                svg.sized(x, y, size, &text);
            }
        }
    }

    /// What the squares of tied cells mean, without a bar and with one, where there are any.
    fn tie_legend(&self) -> Vec<(bool, String)> {
        if self.ties.is_empty() {
            return Vec::new();
        }
        let symbols = many(self.named().len() as u64, "symbol");
        let cells = |opposite: bool| {
            let of_kind = self.ties.iter().filter(|tie| tie.opposite == opposite);
            many(of_kind.count() as u64, "cell")
        };
        vec![
            (false, format!("tied to one of {symbols}: {}", cells(false))),
            (true, format!(".. as its opposite: {}", cells(true))),
        ]
    }

    fn draw_tie_legend(&self, svg: &mut Svg, top: f64) {
        for (i, (opposite, text)) in self.tie_legend().iter().enumerate() {
            let y = top + i as f64 * LINE;
            let bar = match opposite {
                false => String::new(),
                true => format!("<path d=\"M.2 {BAR_OVER}\" fill=\"#ffffff\"/>"),
            };
            svg.put(format_args!(
                "<g transform=\"translate({MARGIN} {}) scale(14)\"><path d=\"M.1 {SQUARE}\" fill=\"{}\"/>{bar}</g>",
                number(y - 11.0),
                COLOURS[0]
            ));
            svg.text(BEHIND, y, text);
        }
    }

    /// Over each run a bracket with its number, where there is room for it, and between two runs a line down through the response.
    fn draw_runs(&self, svg: &mut Svg, cutting: &Cutting, wide: f64, down: f64) {
        let (top, k, bits) = (self.top(), cutting.k, cutting.bits);
        let at = |slice: u64| LEFT + slice as f64 * wide;
        svg.put(format_args!(
            "<g id=\"runs\" data-k=\"{k}\" data-bits=\"{bits}\" stroke=\"#1f3b57\" stroke-width=\"{}\" fill=\"none\">",
            number((wide / 4.0).clamp(0.5, 2.0))
        ));
        let mut between = String::new();
        for (i, run) in cutting.runs.iter().enumerate() {
            let (first, last, words) = (run.first, run.last, run.words);
            let gap = (wide / 8.0).min(2.0);
            let (left, right) = (at(first) + gap, at(last + 1) - gap);
            let (x, y, across) = (number(left), number(top - 4.0), number(right - left));
            svg.put(format_args!(
                "<path class=\"run\" data-run=\"{i}\" data-first=\"{first}\" data-last=\"{last}\" data-words=\"{words}\" \
                 d=\"M{x} {y}v-8h{across}v8\"/>"
            ));
            if i > 0 {
                // from over the brackets on, and not through the numbers
                let (x, y) = (number(at(first)), number(top - 15.0));
                write!(between, "M{x} {y}v{}", number(15.0 + down)).expect("a string grows");
            }
        }
        svg.put(format_args!("<path id=\"cuts\" d=\"{between}\"/></g>"));
        self.draw_run_numbers(svg, cutting, wide);
    }

    fn draw_run_numbers(&self, svg: &mut Svg, cutting: &Cutting, wide: f64) {
        let y = self.top() - 18.0;
        if !cutting.runs.is_empty() {
            svg.anchored(LEFT - 8.0, y, "end", "run");
        }
        let mut free = LEFT;
        for (i, run) in cutting.runs.iter().enumerate() {
            let text = i.to_string();
            let long = text.len() as f64 * LETTER;
            let x = LEFT + (run.first + run.last + 1) as f64 / 2.0 * wide;
            // the first is always there; a number that would run into the one before it is left out
            if i == 0 || x - long / 2.0 >= free {
                svg.anchored(x, y, "middle", &text);
                free = x + long / 2.0 + LETTER;
            }
        }
    }

    /// How many unknown cells each slice has, and each chain.
    fn unknowns(&self) -> (Vec<usize>, Vec<usize>) {
        let (mut by_slice, mut by_chain) =
            (vec![0; self.slices.len()], vec![0; self.set.spread.len()]);
        for (slice, chain) in unknown_cells(&self.slices) {
            by_slice[slice] += 1;
            by_chain[chain] += 1;
        }
        (by_slice, by_chain)
    }

    /// A bar under each slice and behind each chain that has unknown cells, as long as they are many.
    fn draw_bars(&self, svg: &mut Svg, wide: f64, high: f64) {
        let (by_slice, by_chain) = self.unknowns();
        let top = self.top();
        let (right, bottom) = (
            LEFT + wide * by_slice.len() as f64 + 8.0,
            top + high * by_chain.len() as f64 + 8.0,
        );
        let most = |counts: &[usize]| counts.iter().copied().max().unwrap_or(0).max(1);
        let long = |count: usize, most: usize| number((BAR * count as f64 / most as f64).max(2.0));
        let some = |counts: &[usize]| -> Vec<(usize, usize)> {
            let all = counts.iter().copied().enumerate();
            all.filter(|(_, count)| *count > 0).collect()
        };
        let mut path = String::new();
        for (slice, count) in some(&by_slice) {
            let (x, y) = (number(LEFT + slice as f64 * wide), number(bottom));
            let (w, h) = (number(wide), long(count, most(&by_slice)));
            write!(path, "M{x} {y}h{w}v{h}h-{w}z").expect("a string grows");
        }
        for (chain, count) in some(&by_chain) {
            let (x, y) = (number(right), number(top + chain as f64 * high));
            let (w, h) = (long(count, most(&by_chain)), number(high));
            write!(path, "M{x} {y}h{w}v{h}h-{w}z").expect("a string grows");
        }
        svg.put(format_args!(
            "<path id=\"bars\" fill=\"#a4161a\" d=\"{path}\"/>"
        ));
        let up_to = |counts: &[usize]| format!("up to {}", most(counts));
        svg.anchored(LEFT - 8.0, bottom + 12.0, "end", "X");
        let under = format!("X in each slice: {}", up_to(&by_slice));
        svg.text(LEFT, bottom + BAR + 14.0, &under);
        svg.text(right, top - 22.0, "X in each");
        svg.text(right, top - 6.0, &format!("chain: {}", up_to(&by_chain)));
    }

    fn draw_legend(&self, svg: &mut Svg, top: f64) {
        for (i, (kind, _, what, fill)) in KINDS.into_iter().enumerate() {
            let y = top + i as f64 * LINE;
            svg.put(format_args!(
                "<g transform=\"translate({MARGIN} {}) scale(14)\"><rect width=\"1\" height=\"1\" fill=\"{fill}\" \
                 stroke=\"#000000\" stroke-width=\".06\"/></g>",
                number(y - 11.0)
            ));
            let count = grouped(self.count(kind) as u64);
            let cells = if count == "1" { "cell" } else { "cells" };
            svg.text(BEHIND, y, &format!("{what}: {count} {cells}"));
        }
    }

    /// Where the boxes of a word's bits start, and where the text behind them does.
    fn word_places(&self) -> (f64, f64) {
        let boxes = MARGIN + 9.0 * LETTER;
        (boxes, boxes + self.bit_box() * self.set.m as f64 + 12.0)
    }

    /// What stands behind the boxes of each word.
    fn word_texts(&self) -> Vec<String> {
        let Some(plan) = &self.plan else {
            return Vec::new();
        };
        let longest = plan.words.iter().max().map_or(0, |w| w.to_string().len());
        let line = |(i, word): (usize, &u64)| {
            let expected = u8::from(bits::is_set(plan.expected, i as u64));
            let gap = " ".repeat(longest - word.to_string().len());
            format!("= {word}{gap}  expected {expected}  {}", bits::xor(*word))
        };
        // blanks in a row are one in SVG: a no-break space is not
        let lines = plan.words.iter().enumerate().map(line);
        lines.map(|line| line.replace(' ', "\u{a0}")).collect()
    }

    fn words_width(&self) -> f64 {
        let texts = self.word_texts();
        let longest = texts.iter().map(|text| text.chars().count()).max();
        longest.map_or(0.0, |letters| {
            self.word_places().1 + letters as f64 * LETTER
        })
    }

    fn draw_words(&self, svg: &mut Svg, top: f64) {
        let (boxes, behind) = self.word_places();
        let (m, side) = (self.set.m, self.bit_box());
        let (wide, high) = (number(side), number(LINE - 4.0));
        if self.words().is_empty() {
            return;
        }
        svg.put(format_args!(
            "<defs><rect id=\"in\" width=\"{wide}\" height=\"{high}\" fill=\"#1f3b57\" stroke=\"#000000\" stroke-width=\"0.5\"/>\
             <rect id=\"out\" width=\"{wide}\" height=\"{high}\" fill=\"#ffffff\" stroke=\"#000000\" stroke-width=\"0.5\"/></defs>"
        ));
        for bit in (0..m).filter(|bit| side > 20.0 || bit % 4 == 0) {
            let x = boxes + (bit as f64 + 0.5) * side;
            svg.anchored(x, top - 16.0, "middle", &format!("M{}", bit + 1));
        }
        for (i, (word, text)) in self.words().iter().zip(self.word_texts()).enumerate() {
            let y = top + i as f64 * LINE;
            svg.text(MARGIN, y, &format!("word {i}"));
            svg.put(format_args!("<g class=\"word\" data-word=\"{word}\">"));
            for bit in 0..m {
                let kind = if bits::is_set(*word, bit) {
                    "in"
                } else {
                    "out"
                };
                let (x, y) = (number(boxes + bit as f64 * side), number(y - 11.0));
                svg.put(format_args!("<use href=\"#{kind}\" x=\"{x}\" y=\"{y}\"/>"));
            }
            svg.put(format_args!("</g>"));
            svg.text(behind, y, &text);
        }
    }
}

/// The line over the response that says what it is cut into.
fn cut_heading(cutting: &Cutting) -> String {
    let runs = many(cutting.runs.len() as u64, "run");
    let bits = grouped(cutting.bits);
    let control = if cutting.bits == 1 { "bit" } else { "bits" };
    format!("cut for K {}: {runs}, {bits} control {control}", cutting.k)
}
