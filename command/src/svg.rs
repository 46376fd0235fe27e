//! Pictures as SVG.

use std::fmt::Write;

/// Text is of one width a letter, so that what stands beside it can be placed.
pub const SIZE: f64 = 12.0;
pub const LETTER: f64 = 0.602 * SIZE;

/// A picture in the making.
pub struct Svg {
    text: String,
}

impl Svg {
    pub fn new(width: f64, height: f64, title: &str) -> Svg {
        let (width, height) = (number(width.ceil()), number(height.ceil()));
        let mut svg = Svg {
            text: String::new(),
        };
        svg.put(format_args!(
            "<svg xmlns=\"http://www.w3.org/2000/svg\" width=\"{width}\" height=\"{height}\" viewBox=\"0 0 {width} {height}\" \
             font-family=\"DejaVu Sans Mono, Menlo, Consolas, monospace\" font-size=\"{SIZE}\">"
        ));
        svg.put(format_args!("<title>{}</title>", escaped(title)));
        svg.put(format_args!(
            "<rect width=\"{width}\" height=\"{height}\" fill=\"#ffffff\"/>"
        ));
        svg
    }

    /// A line of the file.
    pub fn put(&mut self, line: std::fmt::Arguments) {
        writeln!(self.text, "{line}").expect("a string grows");
    }

    /// A line of text whose baseline starts here.
    pub fn text(&mut self, x: f64, y: f64, text: &str) {
        self.anchored(x, y, "start", text);
    }

    /// .. which ends or has its middle here.
    pub fn anchored(&mut self, x: f64, y: f64, anchor: &str, text: &str) {
        let (x, y, text) = (number(x), number(y), escaped(text));
        self.put(format_args!(
            "<text x=\"{x}\" y=\"{y}\" text-anchor=\"{anchor}\">{text}</text>"
        ));
    }

    /// A white line of text of another size, whose middle is here.
    pub fn sized(&mut self, x: f64, y: f64, size: f64, text: &str) {
        // a third of the size brings the middle of the figures to the baseline
        let (x, y, size) = (number(x), number(y + size / 3.0), number(size));
        self.put(format_args!(
            "<text x=\"{x}\" y=\"{y}\" text-anchor=\"middle\" font-size=\"{size}\" fill=\"#ffffff\">{}</text>",
            escaped(text)
        ));
    }

    pub fn done(self) -> String {
        self.text + "</svg>\n"
    }
}

/// A number with at most two digits behind the point.
pub fn number(value: f64) -> String {
    let text = format!("{value:.2}");
    text.trim_end_matches('0').trim_end_matches('.').to_string()
}

/// Text as it stands in XML, which knows no control characters.
fn escaped(text: &str) -> String {
    let mut out = String::new();
    for letter in text.chars() {
        match letter {
            '&' => out += "&amp;",
            '<' => out += "&lt;",
            '>' => out += "&gt;",
            '"' => out += "&quot;",
            c if c.is_control() || matches!(c, '\u{fffe}' | '\u{ffff}') => out.push('\u{fffd}'),
            c => out.push(c),
        }
    }
    out
}

/// Round numbers from `first` to `last`, so far apart that `room` pixels lie between two of them where one step takes `step`.
pub fn ticks(first: i64, last: i64, step: f64, room: f64) -> Vec<i64> {
    let round = (0..).flat_map(|i| [1, 2, 5].map(|d| d * 10i64.pow(i)));
    let apart = round
        .take(30)
        .find(|d| *d as f64 * step >= room)
        .unwrap_or(i64::MAX);
    (first..=last)
        .filter(|t| t.rem_euclid(apart) == 0)
        .collect()
}
