//! The words of a set from portions of its columns, as many as a working list of 64 places takes, from the last column on.

use super::closed_words::is_settled;
use super::elimination::{byte_table, pays, put_words, reduce, skip_by_table, unit_words};
use super::response::*;
use super::set::Read;
use super::ties::{count_flags, fill_symbols, opening_flags, unmark, Ties};

/// As much of a row as there is room for, over the end of the list: by words of 64 marks, up to the first that doesn't fit. How many
/// places stand before it, and how many chains are left.
fn list_fitting(columns: &mut [u64], words: &[u64], row: &[u8]) -> (usize, usize) {
    let chains = words.len();
    let mut place = columns.len();
    for i in (0..chains.div_ceil(64)).rev() {
        let marks = marks_at(row, i, chains);
        if marks != 0 && place < marks.count_ones() as usize {
            return (place, chains.min(64 * (i + 1)));
        }
        place = list_word(&mut columns[..place], &words[64 * i..], marks);
    }
    (place, 0)
}

/// Which columns are left: those of the first t slices, but that in the last of these only the first `chains` chains are left. In a
/// list with a portion so many places stand before it.
struct Portion {
    t: usize,
    chains: usize,
    place: usize,
}

/// The way to make columns: all chains' words advanced by one clock for each slice; by the table of 8 clocks; by the powers of the
/// register.
#[derive(Clone, Copy)]
enum Way<'a> {
    Clocks,
    Eights(&'a [u64; 256]),
    Powers(&'a [u64; 576]),
}

/// Where the marked cells come from, and the way to make their columns.
#[derive(Clone, Copy)]
struct Source<'a> {
    marks: Marks<'a>,
    read: Read,
    way: Way<'a>,
}

/// The last of the first t slices is done: how many are left. The chains' words are advanced for the slice before it, by eights only behind
/// the last of eight slices; with powers slices without a marked cell are passed over.
fn go_down(source: Source, words: &mut [u64], t: usize) -> usize {
    let read = source.read;
    match source.way {
        Way::Powers(_) => return source.marks.marked_end(t - 1),
        Way::Eights(table) if (read.s - t) % 8 == 7 => advance_few(read.m, table, 8, words),
        Way::Eights(_) => {}
        Way::Clocks => advance_words(read, words),
    }
    t - 1
}

/// Puts for each word of marked cells what it is so many clocks later.
fn put_later(source: Source, clocks: usize, words: &mut [u64]) {
    let read = source.read;
    match source.way {
        Way::Powers(powers) => power_words(&powers[clocks..][..read.m as usize], words),
        Way::Eights(table) if clocks % 8 != 0 => {
            advance_few(read.m, table, clocks as u64 % 8, words)
        }
        Way::Eights(_) | Way::Clocks => {}
    }
}

/// Fills a list from its end. `words` are those of the chains for the slice that comes next; by eights they are behind by the clocks over
/// whole eights, and with powers they stay the spread words.
fn fill_portion(
    source: Source,
    words: &mut [u64],
    columns: &mut [u64],
    (mut t, mut chains): (usize, usize),
) -> Portion {
    let Source { marks, read, .. } = source;
    let mut place = columns.len();
    while 0 < t {
        let row = marks.row(t - 1);
        let (start, left) = list_fitting(&mut columns[..place], &words[..chains], row);
        put_later(source, read.s - t, &mut columns[start..place]);
        place = start;
        chains = left;
        if 0 < chains {
            break;
        }
        t = go_down(source, words, t);
        chains = words.len();
    }
    Portion { t, chains, place }
}

/// How far the work has come: the columns that are left, as after a portion; how many words are left, and about how many columns;
/// whether the last portion took at most one word away.
#[derive(Clone, Copy)]
struct Progress {
    t: usize,
    chains: usize,
    left: usize,
    more: usize,
    calm: bool,
}

fn is_table_worth(at: Progress, words: usize) -> bool {
    at.calm && pays(words, at.more)
}

/// The next portion: its columns through the elimination. With a table of the words, first all portions that leave them as they are.
fn add_next(
    source: Source,
    words: &mut [u64],
    working: &mut [u64],
    held: &mut [u64],
    mut at: Progress,
) -> Progress {
    let worth = is_table_worth(at, held.len());
    let table = worth.then(|| byte_table(held));
    while 0 < at.t {
        let portion = fill_portion(source, words, working, (at.t, at.chains));
        let columns = &working[portion.place..];
        (at.t, at.chains) = (portion.t, portion.chains);
        at.more = at.more.saturating_sub(columns.len());
        at.calm = true;
        let even = match &table {
            Some(table) => skip_by_table(table, columns),
            None => 0,
        };
        if even < columns.len() || table.is_none() {
            at.left = reduce(held, &columns[even..]);
            at.calm = held.len() - at.left < 2;
            break;
        }
    }
    at
}

/// Whether it is known that no column that is left changes the words held: asked where the last portion changed them and so many columns
/// are left that asking is worth it.
fn is_done(source: Source, words: &[u64], held: &[u64], before: usize, at: Progress) -> bool {
    if held.len() == before || at.more < 64 {
        return false;
    }
    is_settled(source.read, source.marks, at.t, words, held)
}

/// How many words are left, at the front of `held`. It stops where none is left, and where it is known that no column changes them any
/// more.
fn reduce_all(
    source: Source,
    words: &mut [u64],
    working: &mut [u64],
    held: &mut [u64],
    unknowns: usize,
) -> usize {
    let mut at = Progress {
        t: source.read.s,
        chains: words.len(),
        left: held.len(),
        more: unknowns,
        calm: false,
    };
    let mut before = at.left;
    while 0 < at.t {
        if at.left == 0 {
            return 0;
        }
        if is_done(source, words, &held[..at.left], before, at) {
            return at.left;
        }
        before = at.left;
        at = add_next(source, words, working, &mut held[..at.left], at);
    }
    at.left
}

/// The columns of the named symbols behind the first 64 places, and how many they are.
fn put_symbols(
    read: Read,
    spread: &[u64; 256],
    ties: Ties,
    working: &mut [u64],
) -> Result<usize, u64> {
    if ties.len() == 0 {
        return Ok(0);
    }
    let flags = opening_flags(ties);
    let symbols = count_flags(&flags);
    let places = working.get_mut(64..64 + symbols).ok_or(14u64)?;
    fill_symbols(read, spread, ties, &flags, places);
    Ok(symbols)
}

/// The words of the cells that the rows mark: how many they are. A few columns are made one by one; for many, all the chains' words
/// are advanced together, by eights of clocks where the register has at least 8 bits.
fn reduce_cells(
    marks: Marks,
    read: Read,
    spread: &[u64; 256],
    working: &mut [u64],
    held: &mut [u64],
) -> usize {
    let mut all = *spread;
    let unknowns = marks.estimate(read.s);
    let many = needs_sweep(read, spread, unknowns);
    let mut reduce_by = |way| {
        let source = Source { marks, read, way };
        reduce_all(source, &mut all[..read.n], working, held, unknowns)
    };
    if !many {
        return reduce_by(Way::Powers(&powers(read, 576)));
    }
    if read.m < 8 {
        return reduce_by(Way::Clocks);
    }
    reduce_by(Way::Eights(&eight_on(read)))
}

/// The words of a set that was read: how many they are. Those of the cells without an entry, and then the named symbols' columns.
pub fn fill_words(
    set: &[u8],
    read: Read,
    spread: &[u64; 256],
    working: &mut [u64],
    words: &mut [u64],
) -> Result<usize, u64> {
    let ties = Ties::of_set(set, read.n, read.s);
    let symbols = put_symbols(read, spread, ties, working)?;
    let Some(working) = working.get_mut(..64 + symbols) else {
        return Err(14);
    };
    let mut held = unit_words();
    let held = &mut held[..read.m as usize];
    let marks = Marks::of_set(set, read.n);
    let (portion, named) = working.split_at_mut(64);
    let left = if ties.len() == 0 {
        reduce_cells(marks, read, spread, portion, held)
    } else {
        let free = unmark(marks, (read.n, read.s), ties, |_| false);
        let free = Marks::of_list(&free, read.n);
        let left = reduce_cells(free, read, spread, portion, held);
        reduce(&mut held[..left], named)
    };
    working.fill(0);
    put_words(&held[..left], words)
}
