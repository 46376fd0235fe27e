//! Ties (document 02, No. 7): the entries behind a set's slices, and the symbols that the unknown cells hold.

use super::layout::*;
use super::set::Set;
use super::*;

/// A cell: its slice and its chain.
pub type Cell = (usize, usize);

/// An entry: "slice, chain and symbol number (2 bytes each) and a byte, 0 for as is, 1 for opposite".
#[derive(Clone, Copy, Debug, PartialEq)]
pub struct Tie {
    pub cell: Cell,
    pub symbol: u64,
    pub side: u8,
}

impl Tie {
    fn at(bytes: &[u8], at: usize) -> Tie {
        let number = |i: usize| number_at(bytes, at + COUNT * i, COUNT).expect("a whole entry");
        Tie {
            cell: (number(0) as usize, number(1) as usize),
            symbol: number(2),
            side: bytes[at + 3 * COUNT],
        }
    }

    /// "Cells with one symbol number take one value, or its opposite."
    fn holds(&self, value: bool) -> bool {
        value != (self.side == 1)
    }
}

/// The entries of a list of bytes without their count: None where they "aren't whole entries within the count's limit".
pub fn entries(bytes: &[u8]) -> Option<Vec<Tie>> {
    let count = bytes.len() / TIE;
    if bytes.len() != TIE * count || count > TIES_MOST {
        return None;
    }
    Some((0..count).map(|i| Tie::at(bytes, TIE * i)).collect())
}

/// Numbers 29 to 31, each over all entries: "29 for a cell absent or not unknown; 30 for entries not strictly ascending by slice and
/// chain; 31 for a last byte above 1".
pub fn take_ties(ties: &[Tie], is_unknown: impl Fn(Cell) -> bool) -> Reply<()> {
    refuse_if(ties.iter().any(|tie| !is_unknown(tie.cell)), 29)?;
    refuse_if(ties.windows(2).any(|two| two[0].cell >= two[1].cell), 30)?;
    refuse_if(ties.iter().any(|tie| tie.side > 1), 31)?;
    Ok(())
}

impl Set {
    /// The entry of a cell, if it has one.
    fn tie_of(&self, cell: Cell) -> Option<&Tie> {
        self.ties.iter().find(|tie| tie.cell == cell)
    }

    /// The cells of the symbol of this number, by slice and then by chain.
    fn cells_of(&self, symbol: u64) -> Vec<Cell> {
        let of_symbol = self.ties.iter().filter(|tie| tie.symbol == symbol);
        of_symbol.map(|tie| tie.cell).collect()
    }

    /// The symbols, each by its cells, where its first cell stands among the unknown ones: "each unnamed unknown is a free symbol".
    pub fn symbols(&self) -> Vec<Vec<Cell>> {
        let mut symbols = Vec::new();
        for cell in self.unknowns() {
            match self.tie_of(cell) {
                None => symbols.push(vec![cell]),
                Some(tie) => {
                    let cells = self.cells_of(tie.symbol);
                    if cells[0] == cell {
                        symbols.push(cells);
                    }
                }
            }
        }
        symbols
    }

    /// How many symbols are named by an entry, or by more.
    pub fn named(&self) -> usize {
        let is_first = |i: &usize| {
            let earlier = &self.ties[..*i];
            earlier.iter().all(|tie| tie.symbol != self.ties[*i].symbol)
        };
        (0..self.ties.len()).filter(is_first).count()
    }

    /// "A filling is now one that obeys this": the response in which each symbol of `symbols()` has the value that `value` gives for it.
    pub fn filled(&self, value: impl Fn(usize) -> bool) -> Vec<Bits> {
        let mut cells = self.values.clone();
        for (i, symbol) in self.symbols().iter().enumerate() {
            for &(t, c) in symbol {
                let tie = self.tie_of((t, c));
                cells[t][c] = tie.map_or(value(i), |tie| tie.holds(value(i)));
            }
        }
        cells
    }
}
