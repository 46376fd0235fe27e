//! Small sets by force: every filling of their unknown cells that obeys the ties, what these explain, and every signature judged.

use crate::both::Both;
use crate::random::Random;
use crate::second::plan::Plan;
use crate::second::set::Set;
use crate::second::ties::Cell;
use crate::second::{word_of, Bits};
use std::collections::{BTreeMap, BTreeSet};

/// The symbol number of a cell and whether it is tied as opposite; None for a cell without a tie.
fn named(set: &Set, cell: Cell) -> Option<(u64, bool)> {
    let tie = set.ties.iter().find(|tie| tie.cell == cell)?;
    Some((tie.symbol, tie.side == 1))
}

/// The response in which the unknown cells hold the bits of `filling`, by slice and then by chain, whether or not they obey the ties.
pub fn filled(set: &Set, filling: u64) -> Vec<Bits> {
    let mut cells = set.values.clone();
    for (i, (t, c)) in set.unknowns().into_iter().enumerate() {
        cells[t][c] = filling >> i & 1 == 1;
    }
    cells
}

/// "Cells with one symbol number take one value, or its opposite": whether there is such a value for each number.
pub fn obeys(set: &Set, cells: &[Bits]) -> bool {
    let mut values = BTreeMap::new();
    set.unknowns().into_iter().all(|(t, c)| {
        let Some((symbol, opposite)) = named(set, (t, c)) else {
            return true;
        };
        let value = cells[t][c] != opposite;
        *values.entry(symbol).or_insert(value) == value
    })
}

/// Other bits in the unknown cells of a response, which obey the ties.
pub fn refill(r: &mut Random, set: &Set, cells: &mut [Bits]) {
    let mut values = BTreeMap::new();
    for (t, c) in set.unknowns() {
        cells[t][c] = match named(set, (t, c)) {
            None => r.one_in(2),
            Some((symbol, opposite)) => {
                *values.entry(symbol).or_insert_with(|| r.one_in(2)) != opposite
            }
        };
    }
}

/// The signatures that some filling explains: of all fillings of the unknown cells those that obey the ties.
pub fn explained(set: &Set) -> BTreeSet<u64> {
    let fillings = (0..1u64 << set.unknowns().len()).map(|filling| filled(set, filling));
    let obeying = fillings.filter(|cells| obeys(set, cells));
    obeying.map(|cells| set.signature(&cells)).collect()
}

/// The record file of a response.
pub fn record_of(cells: &[Bits]) -> Vec<u8> {
    let mut bytes = Vec::new();
    for row in cells {
        for part in row.chunks(8) {
            bytes.push(word_of(part) as u8);
        }
    }
    bytes
}

/// The first word whose parity with the signature isn't its expected bit.
pub fn first_to_disagree(plan: &Plan, y: u64) -> Option<u64> {
    let disagrees =
        |i: &usize| ((plan.words[*i] & y).count_ones() % 2 == 1) != (plan.expected >> i & 1 == 1);
    (0..plan.words.len()).find(disagrees).map(|i| i as u64)
}

/// Judges every signature of the plan's width by its file: these pass, and no others, which fail at the first word that disagrees.
pub fn passes_exactly(both: &mut Both, p: &Plan, explained: &BTreeSet<u64>) {
    let plan = both.write_plan(p, 600).expect("a good plan");
    for y in 0..1u64 << p.m {
        let judged = both.judge(&plan, y).expect("a signature of the width");
        let at = judged.fails_at;
        assert_eq!(at.is_none(), explained.contains(&y), "{}, {y}", both.at);
        assert_eq!(at, first_to_disagree(p, y), "{}, {y}", both.at);
    }
}
