//! A CSV file of dies judged row by row. Rows are looked at where they stand in one buffer, and pass through byte for byte; nothing
//! is kept of a row but what is counted, and its place on the wafer where a map is asked for.

use crate::canceller::{self, Refusal, Verdict};
use crate::ending::{unusable, Outcome, Status};
use crate::files::{self, Output};
use crate::wafer::Wafer;
use crate::{numbers, refusals};
use std::ffi::OsStr;
use std::fs::File;
use std::io::{ErrorKind, IsTerminal, Read, Write};
use std::time::{Duration, Instant};

/// The longest row that is taken, in bytes, and how much is read at a time.
const ROW_MAX: usize = 1 << 20;
const PIECE: usize = 256 * 1024;

/// What a row's signature gets.
#[derive(Clone, Copy, Debug, PartialEq, Eq, Hash, PartialOrd, Ord)]
pub enum Judged {
    Pass,
    Fail(u64),
    Refused(u64),
    Unreadable,
}

impl Judged {
    fn of(plan: &[u8], signature: Option<u64>) -> Judged {
        let Some(signature) = signature else {
            return Judged::Unreadable;
        };
        match canceller::judge(plan, signature) {
            Ok((_, Verdict::Passes)) => Judged::Pass,
            Ok((_, Verdict::FailsAt(word))) => Judged::Fail(word),
            Err(Refusal(number)) => Judged::Refused(number),
        }
    }

    /// The two fields behind the row: the verdict, and the word's index or the refusal's number.
    fn put(self, out: &mut Vec<u8>) {
        let (verdict, index): (&[u8], Option<u64>) = match self {
            Judged::Pass => (b",pass,", None),
            Judged::Fail(word) => (b",fail,", Some(word)),
            Judged::Refused(number) => (b",refused,", Some(number)),
            Judged::Unreadable => (b",unreadable,", None),
        };
        out.extend_from_slice(verdict);
        if let Some(index) = index {
            // words and numbers have at most two digits
            if index > 9 {
                out.push(b'0' + (index / 10 % 10) as u8);
            }
            out.push(b'0' + (index % 10) as u8);
        }
    }
}

/// Where a field stands in its row.
type Span = (usize, usize);

/// Where a row ends: its last field, and the next row. `open` is where a quoted field starts that the input doesn't close.
struct RowEnd {
    content: usize,
    next: usize,
    quoted: bool,
    open: Option<usize>,
}

/// Looks through the row at the front of these bytes and hands over the number, start and end of each field; None where the row
/// doesn't end in them, and more may come.
fn scan(bytes: &[u8], ended: bool, mut field: impl FnMut(usize, usize, usize)) -> Option<RowEnd> {
    let (mut number, mut at) = (0, 0);
    let (mut quoted, mut open) = (false, None);
    loop {
        let start = at;
        if bytes.get(at) == Some(&b'"') {
            at = behind_quotes(bytes, at + 1);
            quoted = true;
            open = (at > bytes.len()).then_some(start);
            at = at.min(bytes.len());
        }
        // most letters and figures are above the comma: one test for each of them
        let ends = |b: &u8| *b <= b',' && (*b == b',' || *b == b'\n');
        at += bytes[at..].iter().take_while(|b| !ends(b)).count();
        if at == bytes.len() && !ended {
            return None;
        }
        field(number, start, at);
        if bytes.get(at) == Some(&b',') {
            number += 1;
            at += 1;
            continue;
        }
        let returned = at > 0 && at < bytes.len() && bytes[at - 1] == b'\r';
        return Some(RowEnd {
            content: at - usize::from(returned),
            next: (at + 1).min(bytes.len()),
            quoted,
            open,
        });
    }
}

/// The place behind the quote that closes a field, or one past the end of the bytes. Two quotes in a row are one of the field's.
fn behind_quotes(bytes: &[u8], mut at: usize) -> usize {
    while at < bytes.len() {
        if bytes[at] != b'"' {
            at += 1;
        } else if bytes.get(at + 1) == Some(&b'"') {
            at += 2;
        } else {
            return at + 1;
        }
    }
    bytes.len() + 1
}

/// A field without blanks around it and without its quotes.
fn bare(field: &[u8]) -> &[u8] {
    match field.trim_ascii() {
        [b'"', inner @ .., b'"'] => inner.trim_ascii(),
        other => other,
    }
}

/// The rows of an input, from one buffer.
struct Rows<'a> {
    file: File,
    path: &'a OsStr,
    name: String,
    buffer: Vec<u8>,
    start: usize,
    end: usize,
    ended: bool,
    /// The line at which the next row starts.
    line: u64,
}

impl<'a> Rows<'a> {
    fn open(path: &'a OsStr) -> Outcome<Rows<'a>> {
        Ok(Rows {
            file: files::open(path)?,
            path,
            name: files::name_of(path),
            buffer: vec![0; PIECE],
            start: 0,
            end: 0,
            ended: false,
            line: 1,
        })
    }

    /// Reads on behind the row that is begun.
    fn fill(&mut self) -> Outcome<()> {
        self.buffer.copy_within(self.start..self.end, 0);
        self.end -= self.start;
        self.start = 0;
        if self.end == self.buffer.len() {
            self.buffer.resize(2 * self.end, 0);
        }
        loop {
            match self.file.read(&mut self.buffer[self.end..]) {
                Ok(0) => self.ended = true,
                Ok(many) => self.end += many,
                Err(error) if error.kind() == ErrorKind::Interrupted => continue,
                Err(error) => return files::cannot_read(self.path, &error),
            }
            return Ok(());
        }
    }

    fn ahead(&self) -> &[u8] {
        &self.buffer[self.start..self.end]
    }

    /// The next row, its fields handed over; it stands at the front of what is ahead until `pass`.
    fn next(&mut self, mut field: impl FnMut(usize, usize, usize)) -> Outcome<Option<RowEnd>> {
        loop {
            if self.ended && self.start == self.end {
                return Ok(None);
            }
            let row = scan(self.ahead(), self.ended, &mut field);
            let length = row.as_ref().map_or(self.end - self.start, |r| r.content);
            if length > ROW_MAX {
                let most = numbers::grouped(ROW_MAX as u64);
                return self.wrong(0, &format!("a row of at most {most} bytes"), "a longer one");
            }
            match row {
                Some(RowEnd { open: Some(at), .. }) => {
                    return self.wrong(at, "a quoted field that is closed", "the end of the file");
                }
                Some(row) => return Ok(Some(row)),
                None => self.fill()?,
            }
        }
    }

    fn pass(&mut self, row: &RowEnd) {
        self.line += 1;
        if row.quoted {
            let lines = self.ahead()[..row.content].iter();
            self.line += lines.filter(|b| **b == b'\n').count() as u64;
        }
        self.start += row.next;
    }

    /// `name:line:column` of a byte of the row at the front.
    fn place(&self, at: usize) -> String {
        let before = &self.ahead()[..at];
        let line = self.line + before.iter().filter(|b| **b == b'\n').count() as u64;
        let in_line = before.rsplit(|b| *b == b'\n').next().unwrap_or(before);
        let column = 1 + in_line.iter().filter(|b| **b & 0xC0 != 0x80).count();
        format!("{}:{line}:{column}", self.name)
    }

    fn wrong<T>(&self, at: usize, expected: &str, found: &str) -> Outcome<T> {
        let place = self.place(at);
        unusable(format!("{place}: expected {expected}, found {found}"))
    }
}

/// What is judged, and where to.
pub struct Asked<'a> {
    pub plan: &'a [u8],
    pub csv: &'a OsStr,
    pub column: &'a str,
    /// With columns x and y.
    pub wafer: Option<&'a mut Wafer>,
}

/// The numbers of the columns that are looked at: the signature's, x and y.
type Wanted = [usize; 3];
const NAMES: [&str; 3] = ["signature", "x", "y"];
const NOWHERE: usize = usize::MAX;

/// The column of this name in the header.
fn column_of(rows: &Rows, names: &[String], name: &str) -> Outcome<usize> {
    let mut places = (0..names.len()).filter(|i| names[*i] == name);
    match (places.next(), places.next()) {
        (Some(place), None) => Ok(place),
        (Some(_), Some(_)) => rows.wrong(0, &format!("one column '{name}'"), "two"),
        (None, _) => {
            let found = numbers::found(names.join(",").as_bytes());
            rows.wrong(0, &format!("a column '{name}' in the header"), &found)
        }
    }
}

/// Passes the header through, with two names more, and finds the columns.
fn header(rows: &mut Rows, asked: &Asked, output: &mut Output) -> Outcome<Wanted> {
    const MARK: &[u8] = "\u{feff}".as_bytes();
    while !rows.ended && rows.end < MARK.len() {
        rows.fill()?;
    }
    if rows.ahead().starts_with(MARK) {
        output.put(MARK)?;
        rows.start += MARK.len();
    }
    let mut spans: Vec<Span> = Vec::new();
    let Some(row) = rows.next(|number, start, end| {
        // a row that isn't whole yet is looked through again
        spans.truncate(number);
        spans.push((start, end));
    })?
    else {
        return rows.wrong(0, "a header", "the end of the file");
    };
    let name = |span: &Span| {
        let text = String::from_utf8_lossy(bare(&rows.ahead()[span.0..span.1]));
        text.replace("\"\"", "\"")
    };
    let names: Vec<String> = spans.iter().map(name).collect();
    let mut wanted = [column_of(rows, &names, asked.column)?, NOWHERE, NOWHERE];
    if asked.wafer.is_some() {
        for i in 1..3 {
            wanted[i] = column_of(rows, &names, NAMES[i])?;
        }
    }
    put_row(rows, &row, output, |out| {
        out.extend_from_slice(b",verdict,index")
    })?;
    Ok(wanted)
}

/// Passes a row through with more fields behind its own.
fn put_row(
    rows: &mut Rows,
    row: &RowEnd,
    output: &mut Output,
    more: impl FnOnce(&mut Vec<u8>),
) -> Outcome<()> {
    let held = output.held();
    held.extend_from_slice(&rows.ahead()[..row.content]);
    more(held);
    held.extend_from_slice(&rows.ahead()[row.content..row.next]);
    rows.pass(row);
    output.settle()
}

/// What the rows got.
#[derive(Default)]
pub struct Tally {
    rows: u64,
    passes: u64,
    fails: Vec<u64>,
    refused: Vec<u64>,
    unreadable: u64,
    /// Where the first unreadable signature stands, and what was expected.
    first: Option<String>,
    /// Rows whose place on the wafer can't be read, and the first of them.
    placeless: u64,
    first_placeless: Option<String>,
}

impl Tally {
    fn count(&mut self, judged: Judged) {
        fn one_more(counts: &mut Vec<u64>, at: u64) {
            let at = at as usize;
            if counts.len() <= at {
                counts.resize(at + 1, 0);
            }
            counts[at] += 1;
        }
        self.rows += 1;
        match judged {
            Judged::Pass => self.passes += 1,
            Judged::Fail(word) => one_more(&mut self.fails, word),
            Judged::Refused(number) => one_more(&mut self.refused, number),
            Judged::Unreadable => self.unreadable += 1,
        }
    }

    /// The worst that came up.
    pub fn status(&self) -> Status {
        let worst = [
            (self.unreadable + self.placeless > 0, Status::Unusable),
            (!self.refused.is_empty(), Status::Refused),
            (!self.fails.is_empty(), Status::Fails),
        ];
        let there = worst.iter().find(|(there, _)| *there);
        there.map_or(Status::Done, |(_, status)| *status)
    }

    /// Lines for standard error.
    pub fn summary(&self) -> Vec<String> {
        let grouped = numbers::grouped;
        let mut lines = vec![format!(
            "{} rows: {} pass, {} fail, {} refused, {} unreadable",
            grouped(self.rows),
            grouped(self.passes),
            grouped(self.fails.iter().sum()),
            grouped(self.refused.iter().sum()),
            grouped(self.unreadable)
        )];
        let some = |counts: &'_ [u64]| -> Vec<(usize, u64)> {
            let all = counts.iter().copied().enumerate();
            all.filter(|(_, many)| *many > 0).collect()
        };
        for (word, many) in some(&self.fails) {
            lines.push(format!("fails at word {word}: {}", grouped(many)));
        }
        for (number, many) in some(&self.refused) {
            let sentence = refusals::sentence(number as u64);
            let many = grouped(many);
            lines.push(format!("refused {number}: {many}: {sentence}"));
        }
        if let Some(first) = &self.first {
            lines.push(format!("the first that is unreadable: {first}"));
        }
        if let Some(first) = &self.first_placeless {
            let many = grouped(self.placeless);
            lines.push(format!(
                "without a place on the map: {many}; the first: {first}"
            ));
        }
        lines
    }
}

/// A line on a terminal that says how far it is.
struct Progress {
    shown: bool,
    last: Instant,
}

impl Progress {
    const EVERY: u64 = 1 << 16;

    fn show(&mut self, rows: u64) {
        if !rows.is_multiple_of(Progress::EVERY) {
            return;
        }
        let mut terminal = std::io::stderr();
        if terminal.is_terminal() && self.last.elapsed() > Duration::from_millis(200) {
            let _ = write!(terminal, "\r{} rows", numbers::grouped(rows));
            self.last = Instant::now();
            self.shown = true;
        }
    }

    fn clear(&self) {
        if self.shown {
            let _ = write!(std::io::stderr(), "\r{:40}\r", "");
        }
    }
}

/// Judges every row. The output is still to be closed.
pub fn judge(mut asked: Asked, output: &mut Output) -> Outcome<Tally> {
    let mut rows = Rows::open(asked.csv)?;
    let wanted = header(&mut rows, &asked, output)?;
    let mut tally = Tally::default();
    let mut progress = Progress {
        shown: false,
        last: Instant::now(),
    };
    let result = loop {
        match one_row(&mut rows, &wanted, &mut asked, output, &mut tally) {
            Ok(true) => progress.show(tally.rows),
            Ok(false) => break Ok(()),
            Err(stop) => break Err(stop),
        }
    };
    progress.clear();
    result.map(|()| tally)
}

/// Judges the next row; false where there is none.
#[inline]
fn one_row(
    rows: &mut Rows,
    wanted: &Wanted,
    asked: &mut Asked,
    output: &mut Output,
    tally: &mut Tally,
) -> Outcome<bool> {
    let mut spans: [Option<Span>; 3] = [None; 3];
    let row = rows.next(|number, start, end| {
        for (span, column) in spans.iter_mut().zip(wanted) {
            if number == *column {
                *span = Some((start, end));
            }
        }
    })?;
    let Some(row) = row else {
        return Ok(false);
    };
    if row.content == 0 {
        put_row(rows, &row, output, |_| {})?;
        return Ok(true);
    }
    let field = |span: Span| bare(&rows.ahead()[span.0..span.1.min(row.content)]);
    let signature = spans[0].and_then(|span| numbers::word(field(span)));
    let judged = Judged::of(asked.plan, signature);
    if judged == Judged::Unreadable && tally.first.is_none() {
        tally.first = Some(not_there(rows, &row, spans[0], numbers::WORD));
    }
    if let Some(wafer) = &mut asked.wafer {
        let number = |span: Option<Span>| span.and_then(|span| numbers::signed(field(span)));
        match (number(spans[1]), number(spans[2])) {
            (Some(x), Some(y)) => wafer.note(x, y, judged)?,
            (x, _) => {
                tally.placeless += 1;
                if tally.first_placeless.is_none() {
                    let span = if x.is_none() { spans[1] } else { spans[2] };
                    tally.first_placeless = Some(not_there(rows, &row, span, "a whole number"));
                }
            }
        }
    }
    tally.count(judged);
    put_row(rows, &row, output, |out| judged.put(out))?;
    Ok(true)
}

/// Where a field is that isn't what was expected.
#[cold]
fn not_there(rows: &Rows, row: &RowEnd, span: Option<Span>, expected: &str) -> String {
    let (at, found) = match span {
        Some((start, end)) => (
            start,
            numbers::found(&rows.ahead()[start..end.min(row.content)]),
        ),
        None => (row.content, "the end of the row".to_string()),
    };
    format!("{}: expected {expected}, found {found}", rows.place(at))
}
