//! The text form of a set: one setting a line, in this order; `#` starts a comment; blank lines don't count.
//!
//!     width 3
//!     taps 3             a word: decimal, 0x.., or `bits` and the numbers of its bits
//!     inversion 0        a word too; without this line it is 0
//!     chains 2
//!     spread 0 1         for each chain its number and its spread word
//!     spread 1 bits 2
//!     slices 2
//!     1X                 for each slice a line of cells, 0, 1 or X, chain 0 first
//!     10
//!     tie 0 1 7          for each tie the slice and chain of its cell and its symbol's number; `opposite` behind it where the
//!                        cell holds the symbol's opposite; without such lines every unknown cell is free

use crate::canceller::{self, Reply, Set, Tie};
use crate::ending::{unusable, Outcome};
use crate::numbers;
use std::fmt::Write;

/// No text of a set is longer than this.
pub const TEXT_MAX: usize = 16 * 1024 * 1024;

/// The settings that may be left out, and the word behind a tie.
const INVERSION: &str = "inversion";
const TIE: &str = "tie";
const OPPOSITE: &str = "opposite";

/// What the set writer is handed.
pub struct Form {
    pub set: Set,
    pub values: Vec<u8>,
    pub marks: Vec<u8>,
    pub ties: Vec<u8>,
}

/// A word of a line, and the byte of the line at which it starts.
struct Token<'a> {
    at: usize,
    text: &'a [u8],
}

/// A line without its comment, which holds something.
struct Line<'a> {
    number: usize,
    text: &'a [u8],
}

/// A line that starts with the name of a setting, and its words behind the name.
struct Setting<'a> {
    name: &'static str,
    line: Line<'a>,
    words: Vec<Token<'a>>,
}

fn is_blank(byte: &u8) -> bool {
    byte.is_ascii_whitespace()
}

impl<'a> Line<'a> {
    fn tokens(&self) -> impl Iterator<Item = Token<'a>> {
        let text = self.text;
        let mut at = 0;
        std::iter::from_fn(move || {
            at += text[at..].iter().take_while(|b| is_blank(b)).count();
            let rest = &text[at..];
            let length = rest.iter().take_while(|b| !is_blank(b)).count();
            let token = Token {
                at,
                text: &rest[..length],
            };
            at += length;
            (length > 0).then_some(token)
        })
    }

    /// Behind the last word.
    fn end(&self) -> usize {
        self.text.trim_ascii_end().len()
    }
}

/// The lines of a text, and where in the file one is.
struct Text<'a> {
    file: &'a str,
    lines: Vec<Line<'a>>,
    /// How many of them are read.
    read: usize,
    /// The line behind the last one.
    last: usize,
}

impl<'a> Text<'a> {
    fn new(file: &'a str, bytes: &'a [u8]) -> Text<'a> {
        const MARK: &[u8] = "\u{feff}".as_bytes();
        let bytes = bytes.strip_prefix(MARK).unwrap_or(bytes);
        let bytes = bytes.strip_suffix(b"\n").unwrap_or(bytes);
        let all = bytes.split(|b| *b == b'\n');
        let without_comment = |text: &'a [u8]| text.split(|b| *b == b'#').next().unwrap_or(text);
        let lines = all.clone().enumerate().map(|(i, text)| Line {
            number: i + 1,
            text: without_comment(text),
        });
        Text {
            file,
            lines: lines
                .filter(|line| !line.text.iter().all(is_blank))
                .collect(),
            read: 0,
            last: all.count() + usize::from(!bytes.is_empty()),
        }
    }

    /// The next line that holds something.
    fn next(&mut self, expected: &str) -> Outcome<&Line<'a>> {
        if self.read == self.lines.len() {
            let (file, last) = (self.file, self.last);
            return unusable(format!(
                "{file}:{last}:1: expected {expected}, found the end of the file"
            ));
        }
        self.read += 1;
        Ok(&self.lines[self.read - 1])
    }

    /// An error at this byte of a line. What stands before it is in order, and so is ASCII: bytes are characters.
    fn wrong<T>(&self, line: &Line, at: usize, expected: &str, found: &str) -> Outcome<T> {
        let (file, number, column) = (self.file, line.number, at + 1);
        unusable(format!(
            "{file}:{number}:{column}: expected {expected}, found {found}"
        ))
    }

    fn wrong_token<T>(&self, line: &Line, token: Option<Token>, expected: &str) -> Outcome<T> {
        match token {
            Some(token) => self.wrong(line, token.at, expected, &numbers::found(token.text)),
            None => self.wrong(line, line.end(), expected, "the end of the line"),
        }
    }

    /// The line of one of these settings.
    fn one_of(&mut self, names: &[&'static str]) -> Outcome<Setting<'a>> {
        let quoted: Vec<String> = names.iter().map(|name| format!("'{name} ..'")).collect();
        let expected = quoted.join(" or ");
        let line = self.next(&expected)?;
        let line = Line { ..*line };
        let mut tokens = line.tokens();
        let first = tokens.next();
        let is_first = |name: &&&str| first.as_ref().is_some_and(|t| t.text == name.as_bytes());
        match names.iter().find(is_first) {
            Some(name) => {
                let words = tokens.collect();
                Ok(Setting { name, line, words })
            }
            None => self.wrong_token(&line, first, &expected),
        }
    }

    fn setting(&mut self, name: &'static str) -> Outcome<Setting<'a>> {
        self.one_of(&[name])
    }

    /// A setting that is one number.
    fn number(&mut self, name: &'static str) -> Outcome<u64> {
        let setting = self.setting(name)?;
        self.number_of(setting)
    }

    fn number_of(&self, setting: Setting<'a>) -> Outcome<u64> {
        let Setting { line, words, .. } = setting;
        let mut tokens = words.into_iter();
        let number = self.one_number(&line, tokens.next())?;
        self.ended(&line, tokens.next())?;
        Ok(number)
    }

    fn one_number(&self, line: &Line, token: Option<Token>) -> Outcome<u64> {
        match token.as_ref().and_then(|t| numbers::word(t.text)) {
            Some(number) => Ok(number),
            None => self.wrong_token(line, token, numbers::WORD),
        }
    }

    fn ended(&self, line: &Line, token: Option<Token>) -> Outcome<()> {
        match token {
            None => Ok(()),
            more => self.wrong_token(line, more, "the end of the line"),
        }
    }

    /// A word: a number, or `bits` and the numbers of its bits.
    fn word(&self, line: &Line, mut tokens: impl Iterator<Item = Token<'a>>) -> Outcome<u64> {
        let first = tokens.next();
        if first.as_ref().is_some_and(|t| t.text == b"bits") {
            return self.bit_list(line, tokens);
        }
        let Some(number) = first.as_ref().and_then(|t| numbers::word(t.text)) else {
            let expected = format!("{}, or 'bits ..'", numbers::WORD);
            return self.wrong_token(line, first, &expected);
        };
        self.ended(line, tokens.next())?;
        Ok(number)
    }

    fn bit_list(&self, line: &Line, tokens: impl Iterator<Item = Token<'a>>) -> Outcome<u64> {
        let mut word = 0u64;
        for token in tokens {
            match numbers::word(token.text) {
                Some(bit) if bit < 64 && word >> bit & 1 == 0 => word |= 1 << bit,
                Some(bit) if bit < 64 => {
                    let expected = "each bit once";
                    return self.wrong_token(line, Some(token), expected);
                }
                _ => return self.wrong_token(line, Some(token), "a bit from 0 to 63"),
            }
        }
        if word == 0 {
            return self.wrong_token(line, None, "a bit from 0 to 63");
        }
        Ok(word)
    }

    /// The spread words of so many chains.
    fn spread(&mut self, chains: u64) -> Outcome<Vec<u64>> {
        let mut all = Vec::new();
        while (all.len() as u64) < chains {
            let chain = all.len();
            let name = format!("{chain}");
            let Setting { line, words, .. } = self.setting("spread")?;
            let mut tokens = words.into_iter();
            match tokens.next() {
                Some(token) if numbers::word(token.text) == Some(chain as u64) => {}
                token => return self.wrong_token(&line, token, &format!("chain {name}")),
            }
            all.push(self.word(&line, tokens)?);
        }
        Ok(all)
    }

    /// The value rows and the mark rows of so many slices of n chains.
    fn rows(&mut self, slices: u64, n: usize) -> Outcome<(Vec<u8>, Vec<u8>)> {
        let (mut values, mut marks) = (Vec::new(), Vec::new());
        for slice in 0..slices {
            let expected = format!("the cells of slice {slice}");
            let line = self.next(&expected)?;
            let line = Line { ..*line };
            let start = values.len();
            values.resize(start + n.div_ceil(8), 0);
            marks.resize(values.len(), 0);
            self.cells(&line, n, &mut values[start..], &mut marks[start..])?;
        }
        Ok((values, marks))
    }

    fn cells(&self, line: &Line, n: usize, values: &mut [u8], marks: &mut [u8]) -> Outcome<()> {
        let cells = line.text.iter().enumerate().filter(|(_, b)| !is_blank(b));
        let mut chain = 0;
        for (at, cell) in cells {
            let rest = &line.text[at..line.end()];
            let row = match cell {
                b'0' | b'1' | b'X' | b'x' if chain == n => {
                    let expected = format!("the end of the line behind {n} cells");
                    return self.wrong(line, at, &expected, &numbers::found(rest));
                }
                b'0' => None,
                b'1' => Some(&mut *values),
                b'X' | b'x' => Some(&mut *marks),
                _ => {
                    let expected = "a cell: 0, 1 or X";
                    return self.wrong(line, at, expected, &numbers::found(rest));
                }
            };
            if let Some(row) = row {
                row[chain / 8] |= 1 << (chain % 8);
            }
            chain += 1;
        }
        if chain < n {
            let expected = format!("{n} cells, one for each chain");
            return self.wrong(line, line.end(), &expected, &format!("{chain}"));
        }
        Ok(())
    }

    /// The ties, up to the end of the text behind so many slices.
    fn ties(&mut self, slices: u64) -> Outcome<Vec<u8>> {
        let mut ties = Vec::new();
        let expected = format!("'{TIE} ..' or the end of the file behind {slices} slices");
        while let Some(line) = self.lines.get(self.read) {
            let mut tokens = line.tokens();
            match tokens.next() {
                Some(token) if token.text == TIE.as_bytes() => {}
                token => return self.wrong_token(line, token, &expected),
            }
            ties.extend(self.tie(line, tokens)?.bytes());
            self.read += 1;
        }
        Ok(ties)
    }

    /// A tie behind its name. Whether there is such a cell is for the set writer to say.
    fn tie(&self, line: &Line, mut tokens: impl Iterator<Item = Token<'a>>) -> Outcome<Tie> {
        let mut number = || {
            let token = tokens.next();
            match token.as_ref().and_then(|t| numbers::count(t.text)) {
                Some(number) => Ok(number),
                None => self.wrong_token(line, token, numbers::COUNT),
            }
        };
        let (slice, chain, symbol) = (number()?, number()?, number()?);
        let last = tokens.next();
        let opposite = last.is_some();
        if last.as_ref().is_some_and(|t| t.text != OPPOSITE.as_bytes()) {
            let expected = format!("'{OPPOSITE}' or the end of the line");
            return self.wrong_token(line, last, &expected);
        }
        self.ended(line, tokens.next())?;
        Ok(Tie {
            slice,
            chain,
            symbol,
            opposite,
        })
    }
}

/// What a text says, or where it isn't the text form. Whether the numbers are a set's is for the set writer to say.
pub fn parse(file: &str, bytes: &[u8]) -> Outcome<Form> {
    if bytes.len() > TEXT_MAX {
        let most = numbers::grouped(TEXT_MAX as u64);
        return unusable(format!(
            "{file}: longer than any text of a set: {most} bytes"
        ));
    }
    let mut text = Text::new(file, bytes);
    let m = text.number("width")?;
    let Setting { line, words, .. } = text.setting("taps")?;
    let taps = text.word(&line, words.into_iter())?;
    let mut next = text.one_of(&[INVERSION, "chains"])?;
    let mut inversion = 0;
    if next.name == INVERSION {
        inversion = text.word(&next.line, next.words.into_iter())?;
        next = text.setting("chains")?;
    }
    let chains = text.number_of(next)?;
    let spread = text.spread(chains)?;
    let s = text.number("slices")?;
    let (values, marks) = text.rows(s, spread.len())?;
    let ties = text.ties(s)?;
    let set = Set {
        m,
        taps,
        inversion,
        spread,
        s,
    };
    Ok(Form {
        set,
        values,
        marks,
        ties,
    })
}

/// The text of a set: words in hexadecimal with a digit for each four bits of the register, the inversion word where it isn't 0, and
/// the ties where there are any.
pub fn print(file: &[u8]) -> Reply<String> {
    let set = canceller::read_set(file)?;
    let digits = set.m.div_ceil(4) as usize;
    let mut text = String::new();
    let mut line = |l: std::fmt::Arguments| writeln!(text, "{l}").expect("a string grows");
    line(format_args!("width {}", set.m));
    line(format_args!("taps 0x{:0digits$x}", set.taps));
    if set.inversion != 0 {
        line(format_args!("{INVERSION} 0x{:0digits$x}", set.inversion));
    }
    line(format_args!("chains {}", set.spread.len()));
    for (chain, word) in set.spread.iter().enumerate() {
        line(format_args!("spread {chain} 0x{word:0digits$x}"));
    }
    line(format_args!("slices {}", set.s));
    for slice in cells_of(file, &set)? {
        let row: String = slice.into_iter().map(Cell::letter).collect();
        line(format_args!("{row}"));
    }
    for tie in Tie::all(canceller::ties(file)?) {
        let opposite = if tie.opposite { " opposite" } else { "" };
        let (slice, chain, symbol) = (tie.slice, tie.chain, tie.symbol);
        line(format_args!("{TIE} {slice} {chain} {symbol}{opposite}"));
    }
    Ok(text)
}

/// A cell of a response.
#[derive(Clone, Copy, Debug, PartialEq, Eq)]
pub enum Cell {
    Zero,
    One,
    Unknown,
}

impl Cell {
    fn letter(self) -> char {
        match self {
            Cell::Zero => '0',
            Cell::One => '1',
            Cell::Unknown => 'X',
        }
    }
}

/// The cells of a set: for each slice those of its chains.
pub fn cells_of(file: &[u8], set: &Set) -> Reply<Vec<Vec<Cell>>> {
    let is_set = |row: &[u8], chain: usize| row[chain / 8] >> (chain % 8) & 1 == 1;
    let slice = |t| {
        let (values, marks) = (
            canceller::value_row(file, t)?,
            canceller::mark_row(file, t)?,
        );
        let cell = |chain| match (is_set(marks, chain), is_set(values, chain)) {
            (true, _) => Cell::Unknown,
            (false, true) => Cell::One,
            (false, false) => Cell::Zero,
        };
        Ok((0..set.spread.len()).map(cell).collect())
    };
    (0..set.s).map(slice).collect()
}

/// The slice and chain of each unknown cell, by slice and then by chain.
pub fn unknown_cells(slices: &[Vec<Cell>]) -> Vec<(usize, usize)> {
    let in_slice = |(slice, cells): (usize, &Vec<Cell>)| -> Vec<(usize, usize)> {
        let chains = cells.iter().enumerate();
        let unknown = chains.filter(|(_, cell)| **cell == Cell::Unknown);
        unknown.map(|(chain, _)| (slice, chain)).collect()
    };
    slices.iter().enumerate().flat_map(in_slice).collect()
}
