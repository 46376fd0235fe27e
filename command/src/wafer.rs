//! The wafer map: a square for each die. It keeps a few bytes for each place of the wafer.

use crate::csv::Judged;
use crate::ending::{unusable, Outcome};
use crate::numbers;
use crate::svg::{number, ticks, Svg, LETTER};
use std::collections::{BTreeMap, HashMap};

/// The most places, and the most rows or columns of places, that a map has room for.
const PLACES_MAX: usize = 1_000_000;
const SPAN_MAX: i64 = 10_000;

/// The dies by their places; of two rows for one place the last one counts.
#[derive(Default)]
pub struct Wafer {
    dies: HashMap<(i32, i32), Judged>,
    retested: u64,
}

/// The least and the greatest of these, 0 where there are none.
fn span(of: impl Iterator<Item = i32> + Clone) -> (i64, i64) {
    let (least, most) = (of.clone().min(), of.max());
    (i64::from(least.unwrap_or(0)), i64::from(most.unwrap_or(0)))
}

impl Wafer {
    pub fn note(&mut self, x: i32, y: i32, judged: Judged) -> Outcome<()> {
        if self.dies.insert((x, y), judged).is_some() {
            self.retested += 1;
        } else if self.dies.len() > PLACES_MAX {
            let most = numbers::grouped(PLACES_MAX as u64);
            return unusable(format!(
                "more than {most} places: a map has no room for them"
            ));
        }
        Ok(())
    }

    /// A line about rows for a place that has one already.
    pub fn retests(&self) -> Option<String> {
        let many = numbers::grouped(self.retested);
        let line = format!("retests: {many}; of the rows for one place the last one counts");
        (self.retested > 0).then_some(line)
    }

    /// The map as SVG.
    pub fn drawn(&self, title: &str) -> Outcome<String> {
        let (left, right) = span(self.dies.keys().map(|die| die.0));
        let (top, bottom) = span(self.dies.keys().map(|die| die.1));
        let (wide, high) = (right - left + 1, bottom - top + 1);
        if wide.max(high) > SPAN_MAX {
            let most = numbers::grouped(SPAN_MAX as u64);
            return unusable(format!(
                "the places reach from x {left} to {right} and from y {top} to {bottom}: a map has room for {most} each way"
            ));
        }
        let die = (840.0 / wide.max(high) as f64).clamp(2.0, 30.0);
        let (x0, y0) = (72.0, 84.0);
        let (map_wide, map_high) = (die * wide as f64, die * high as f64);
        let legend = self.legend();
        let in_column = ((map_high / 20.0) as usize).max(12);
        let columns = legend.len().div_ceil(in_column);
        let legend_x = x0 + map_wide + 32.0;
        let longest = legend.iter().map(|(_, text)| text.chars().count()).max();
        let legend_wide = 30.0 + longest.unwrap_or(0) as f64 * LETTER + 12.0;
        let titles = (title.chars().count() as f64 + 4.0) * LETTER;
        let width = (legend_x + columns as f64 * legend_wide).max(titles + 48.0);
        let rows = in_column.min(legend.len());
        let height = y0 + map_high.max(rows as f64 * 20.0) + 48.0;

        let mut svg = Svg::new(width, height, &format!("Wafer map: {title}"));
        self.define(&mut svg);
        svg.text(24.0, 28.0, title);
        let places = numbers::grouped(self.dies.len() as u64);
        svg.text(
            24.0,
            46.0,
            &format!("{places} dies; x to the right, y down"),
        );
        let label = left.to_string().len().max(right.to_string().len());
        for x in ticks(left, right, die, (label + 1) as f64 * LETTER) {
            let at = x0 + ((x - left) as f64 + 0.5) * die;
            svg.anchored(at, y0 - 8.0, "middle", &x.to_string());
        }
        svg.anchored(x0 - 8.0, y0 - 8.0, "end", "y\\x");
        for y in ticks(top, bottom, die, 18.0) {
            let at = y0 + ((y - top) as f64 + 0.5) * die + 4.0;
            svg.anchored(x0 - 8.0, at, "end", &y.to_string());
        }
        let die = number(die);
        svg.put(format_args!(
            "<g id=\"dies\" transform=\"translate({x0} {y0}) scale({die})\">"
        ));
        let mut all: Vec<_> = self.dies.iter().collect();
        all.sort_by_key(|((x, y), _)| (*y, *x));
        for ((x, y), judged) in all {
            let (kind, x, y) = (id(*judged), i64::from(*x) - left, i64::from(*y) - top);
            svg.put(format_args!("<use href=\"#{kind}\" x=\"{x}\" y=\"{y}\"/>"));
        }
        svg.put(format_args!("</g>"));
        for (i, (judged, text)) in legend.iter().enumerate() {
            let x = legend_x + (i / in_column) as f64 * legend_wide;
            let y = y0 + (i % in_column) as f64 * 20.0;
            if let Some(judged) = judged {
                let kind = id(*judged);
                svg.put(format_args!(
                    "<g transform=\"translate({} {}) scale(16)\"><use href=\"#{kind}\"/></g>",
                    number(x),
                    number(y)
                ));
                svg.text(x + 24.0, y + 12.5, text);
            } else {
                svg.text(x, y + 12.5, text);
            }
        }
        Ok(svg.done())
    }

    /// How many dies there are of each kind.
    fn counts(&self) -> BTreeMap<Judged, u64> {
        let mut counts = BTreeMap::from([(Judged::Pass, 0)]);
        for judged in self.dies.values() {
            *counts.entry(*judged).or_default() += 1;
        }
        counts
    }

    /// A line for each kind, and one on retests.
    fn legend(&self) -> Vec<(Option<Judged>, String)> {
        let mut lines = Vec::new();
        for (judged, many) in self.counts() {
            let what = match judged {
                Judged::Pass => "passes".to_string(),
                Judged::Fail(word) => format!("fails at word {word}"),
                Judged::Refused(number) => format!("refused {number}"),
                Judged::Unreadable => "unreadable".to_string(),
            };
            lines.push((Some(judged), format!("{what}: {}", numbers::grouped(many))));
        }
        if self.retested > 0 {
            let many = numbers::grouped(self.retested);
            lines.push((None, format!("retests: {many}; of the rows")));
            lines.push((None, "for one place the last counts".to_string()));
        }
        lines
    }

    /// The square of each kind, of the side 1: passes are empty, fails have a colour and their word's index, refused ones are
    /// crossed and unreadable ones hatched.
    fn define(&self, svg: &mut Svg) {
        svg.put(format_args!("<defs>"));
        for judged in self.counts().into_keys() {
            let fill = match judged {
                Judged::Pass => "#e6f2e6".to_string(),
                Judged::Fail(word) => colour(word),
                Judged::Refused(_) | Judged::Unreadable => "#d0d0d0".to_string(),
            };
            let mark = match judged {
                Judged::Pass => String::new(),
                Judged::Fail(word) => format!(
                    "<text x=\".5\" y=\".7\" font-size=\".55\" text-anchor=\"middle\">{word}</text>"
                ),
                Judged::Refused(_) => strokes("M.1 .1L.9 .9M.9 .1L.1 .9"),
                Judged::Unreadable => strokes("M.1 .5L.5 .1M.1 .9L.9 .1M.5 .9L.9 .5"),
            };
            svg.put(format_args!(
                "<g id=\"{}\"><rect x=\".04\" y=\".04\" width=\".92\" height=\".92\" fill=\"{fill}\" stroke=\"#555555\" \
                 stroke-width=\".06\"/>{mark}</g>",
                id(judged)
            ));
        }
        svg.put(format_args!("</defs>"));
    }
}

fn strokes(path: &str) -> String {
    format!("<path d=\"{path}\" stroke=\"#000000\" stroke-width=\".1\"/>")
}

/// The name of a kind's square.
fn id(judged: Judged) -> String {
    match judged {
        Judged::Pass => "pass".to_string(),
        Judged::Fail(word) => format!("w{word}"),
        Judged::Refused(number) => format!("refused{number}"),
        Judged::Unreadable => "unreadable".to_string(),
    }
}

/// A colour for a word: light enough for black figures, far from those of its neighbours, and from blue over red to yellow, since
/// green is what passes.
fn colour(word: u64) -> String {
    let hue = 180 + (180 + 97 * word) % 245;
    let channel = |offset: u64| {
        let k = ((offset * 30 + hue) % 360) as f64 / 30.0;
        let value = 0.62 - 0.34 * (k - 3.0).min(9.0 - k).clamp(-1.0, 1.0);
        (value * 255.0).round() as u8
    };
    format!("#{:02x}{:02x}{:02x}", channel(0), channel(8), channel(4))
}
