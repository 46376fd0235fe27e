//! Sets, records, the clock, signatures and columns.

use super::layout::*;
use super::ties::{entries, take_ties, Cell, Tie};
use super::*;

/// The register and its chains.
#[derive(Clone, Debug, PartialEq)]
pub struct Circuit {
    pub m: usize,
    pub taps: Bits,
    pub inversion: Bits,
    pub spread: Vec<Bits>,
}

/// A set: cells by slice and chain, and the ties among the unknown ones.
#[derive(Clone, Debug, PartialEq)]
pub struct Set {
    pub circuit: Circuit,
    pub values: Vec<Bits>,
    pub marks: Vec<Bits>,
    pub ties: Vec<Tie>,
}

impl Circuit {
    /// One clock: shift up, drop bit m, XOR the taps in if the old bit m - 1 was set, XOR in each driving chain's word, XOR in the
    /// inversion word. `driving` lists the chains whose cell is 1.
    pub fn clock(&self, state: &[bool], driving: &[usize]) -> Bits {
        let mut next = vec![false; self.m];
        for i in 1..self.m {
            next[i] = state[i - 1];
        }
        if state[self.m - 1] {
            xor_into(&mut next, &self.taps);
        }
        for &chain in driving {
            xor_into(&mut next, &self.spread[chain]);
        }
        xor_into(&mut next, &self.inversion);
        next
    }

    /// The state after the last slice, from zero. Each slice lists the chains whose cell is 1.
    pub fn signature(&self, slices: &[Vec<usize>]) -> Bits {
        slices.iter().fold(vec![false; self.m], |state, driving| {
            self.clock(&state, driving)
        })
    }

    /// The same register and chains with the inversion word 0.
    pub fn uninverted(&self) -> Circuit {
        Circuit {
            inversion: vec![false; self.m],
            ..self.clone()
        }
    }

    /// The signature of the response of s slices in which one cell is 1 and all others 0.
    fn response_to_one(&self, s: usize, slice: usize, chain: usize) -> Bits {
        let mut response = vec![vec![]; s];
        response[slice].push(chain);
        self.signature(&response)
    }
}

impl Set {
    pub fn n(&self) -> usize {
        self.circuit.spread.len()
    }

    pub fn s(&self) -> usize {
        self.values.len()
    }

    /// The unknown cells, by slice and then by chain.
    pub fn unknowns(&self) -> Vec<Cell> {
        let mut found = Vec::new();
        for t in 0..self.s() {
            for c in 0..self.n() {
                if self.marks[t][c] {
                    found.push((t, c));
                }
            }
        }
        found
    }

    /// The columns: "a symbol's column is the XOR of its cells' columns, listed where its first cell was".
    pub fn columns(&self) -> Vec<u64> {
        let register = self.circuit.uninverted();
        let of_cell = |&(t, c): &Cell| register.response_to_one(self.s(), t, c);
        let of_symbol = |cells: &Vec<Cell>| {
            let mut column = vec![false; self.circuit.m];
            for cell in cells {
                xor_into(&mut column, &of_cell(cell));
            }
            word_of(&column)
        };
        self.symbols().iter().map(of_symbol).collect()
    }

    /// The signature of a response of the set's shape.
    pub fn signature(&self, cells: &[Bits]) -> u64 {
        let slices: Vec<Vec<usize>> = cells.iter().map(|row| driving(row)).collect();
        word_of(&self.circuit.signature(&slices))
    }

    /// "The expected signature has all symbols 0."
    pub fn zero_signature(&self) -> u64 {
        self.signature(&self.filled(|_| false))
    }

    /// The same set without its ties: every unknown cell is free.
    pub fn untied(&self) -> Set {
        Set {
            ties: vec![],
            ..self.clone()
        }
    }
}

/// Numbers 2, 3, 25, 4 and 6: a circuit handed over in parts.
fn circuit_of(m: u64, taps: u64, inversion: u64, spread: &[u64]) -> Reply<Circuit> {
    refuse_if(m < 1 || m > 64, 2)?;
    let m = m as usize;
    refuse_if(bad_taps(taps, m), 3)?;
    refuse_if(beyond(inversion, m), 25)?;
    refuse_if(spread.is_empty() || spread.len() > 256, 4)?;
    refuse_if(spread.iter().any(|&w| bad_spread_word(w, m)), 6)?;
    Ok(Circuit {
        m,
        taps: bits_of(taps, m),
        inversion: bits_of(inversion, m),
        spread: spread.iter().map(|&w| bits_of(w, m)).collect(),
    })
}

fn bad_taps(taps: u64, m: usize) -> bool {
    taps & 1 == 0 || beyond(taps, m)
}

fn bad_spread_word(w: u64, m: usize) -> bool {
    w == 0 || beyond(w, m)
}

/// The chains whose cell is 1.
pub fn driving(cells: &[bool]) -> Vec<usize> {
    (0..cells.len()).filter(|&c| cells[c]).collect()
}

fn cells(row: &[u8], n: usize) -> Bits {
    (0..n).map(|c| row_bit(row, c)).collect()
}

/// Numbers 1, 2, 3, 25, 4, 5 and 6, each its own test, in the document's order.
fn read_circuit(bytes: &[u8]) -> Reply<Circuit> {
    refuse_if(bytes.len() < CHAINS_AT, 1)?;
    let m = number_at(bytes, WIDTH_AT, COUNT).ok_or(1u64)?;
    refuse_if(m < 1 || m > 64, 2)?;
    let taps = number_at(bytes, TAPS_AT, WORD).ok_or(1u64)?;
    refuse_if(bad_taps(taps, m as usize), 3)?;
    let inversion = number_at(bytes, INVERSION_AT, WORD).ok_or(1u64)?;
    refuse_if(beyond(inversion, m as usize), 25)?;
    let n = number_at(bytes, CHAINS_AT, COUNT).ok_or(4u64)?;
    refuse_if(n < 1 || n > 256, 4)?;
    let mut spread = Vec::new();
    for c in 0..n as usize {
        spread.push(number_at(bytes, spread_word_at(c), WORD).ok_or(5u64)?);
    }
    circuit_of(m, taps, inversion, &spread)
}

/// .. and 7 to 10, and 29 to 31.
pub fn read_set(bytes: &[u8]) -> Reply<Set> {
    let circuit = read_circuit(bytes)?;
    let n = circuit.spread.len();
    let s = number_at(bytes, slices_at(n), COUNT).ok_or(7u64)?;
    refuse_if(s > 512, 7)?;
    let s = s as usize;
    let count = number_at(bytes, tie_count_at(n, s), COUNT).ok_or(8u64)?;
    refuse_if(count > TIES_MOST as u64, 8)?;
    refuse_if(bytes.len() != set_length(n, s, count as usize), 8)?;
    let row = |at: usize| &bytes[at..at + row_bytes(n)];
    let value_row = |t: usize| row(value_row_at(n, t));
    let mark_row = |t: usize| row(mark_row_at(n, t));
    refuse_if(
        (0..s).any(|t| has_spare(value_row(t), n) || has_spare(mark_row(t), n)),
        9,
    )?;
    let values: Vec<Bits> = (0..s).map(|t| cells(value_row(t), n)).collect();
    let marks: Vec<Bits> = (0..s).map(|t| cells(mark_row(t), n)).collect();
    refuse_if(
        (0..s).any(|t| (0..n).any(|c| values[t][c] && marks[t][c])),
        10,
    )?;
    let ties = entries(&bytes[tie_at(n, s, 0)..]).ok_or(8u64)?;
    take_ties(&ties, |(t, c)| t < s && c < n && marks[t][c])?;
    Ok(Set {
        circuit,
        values,
        marks,
        ties,
    })
}

/// Which of a slice's two rows.
#[derive(Clone, Copy, Debug, PartialEq)]
pub enum Row {
    Values,
    Marks,
}

/// Where a row of one slice stands: its first byte and how many.
pub fn row_place(bytes: &[u8], slice: u64, row: Row) -> Reply<(usize, usize)> {
    let set = read_set(bytes)?;
    refuse_if(slice >= set.s() as u64, 11)?;
    let (n, t) = (set.n(), slice as usize);
    let at = match row {
        Row::Values => value_row_at(n, t),
        Row::Marks => mark_row_at(n, t),
    };
    Ok((at, row_bytes(n)))
}

/// Where the entries of a set stand, without their count: the first byte and how many.
pub fn ties_place(bytes: &[u8]) -> Reply<(usize, usize)> {
    let set = read_set(bytes)?;
    Ok((tie_at(set.n(), set.s(), 0), TIE * set.ties.len()))
}

/// What the set writer takes.
#[derive(Clone, Debug, PartialEq)]
pub struct Content {
    pub m: u64,
    pub taps: u64,
    pub inversion: u64,
    pub spread: Vec<u64>,
    pub values: Vec<u8>,
    pub marks: Vec<u8>,
    pub s: u64,
    /// The entries "as bytes laid out as in the file", without their count.
    pub ties: Vec<u8>,
}

/// The set writer, with an output of `room` bytes: the file, or the number.
pub fn write_set(content: &Content, room: usize) -> Reply<Vec<u8>> {
    let Content { values, marks, .. } = content;
    let (m, taps, inversion) = (content.m, content.taps, content.inversion);
    let circuit = circuit_of(m, taps, inversion, &content.spread)?;
    refuse_if(content.s > 512, 7)?;
    let (n, s) = (circuit.spread.len(), content.s as usize);
    let b = row_bytes(n);
    refuse_if(values.len() != b * s || marks.len() != b * s, 8)?;
    let ties = entries(&content.ties).ok_or(8u64)?;
    let row = |list: &[u8], t: usize| list[b * t..b * (t + 1)].to_vec();
    refuse_if(
        (0..s).any(|t| has_spare(&row(values, t), n) || has_spare(&row(marks, t), n)),
        9,
    )?;
    refuse_if(
        (0..s).any(|t| (0..n).any(|c| row_bit(&row(values, t), c) && row_bit(&row(marks, t), c))),
        10,
    )?;
    take_ties(&ties, |(t, c)| t < s && c < n && row_bit(&row(marks, t), c))?;
    let mut file = Vec::new();
    put_number(&mut file, m, COUNT);
    put_number(&mut file, taps, WORD);
    put_number(&mut file, inversion, WORD);
    put_number(&mut file, n as u64, COUNT);
    for &w in &content.spread {
        put_number(&mut file, w, WORD);
    }
    put_number(&mut file, content.s, COUNT);
    for t in 0..s {
        file.extend(row(values, t));
        file.extend(row(marks, t));
    }
    put_number(&mut file, ties.len() as u64, COUNT);
    file.extend(&content.ties);
    refuse_if(room < file.len(), 24)?;
    Ok(file)
}

/// The clock call: the next state, or the number.
pub fn clock(
    m: u64,
    taps: u64,
    inversion: u64,
    state: u64,
    spread: &[u64],
    row: &[u8],
) -> Reply<u64> {
    let circuit = circuit_of(m, taps, inversion, spread)?;
    let n = spread.len();
    refuse_if(row.len() != row_bytes(n), 8)?;
    refuse_if(has_spare(row, n), 9)?;
    refuse_if(beyond(state, circuit.m), 23)?;
    let next = circuit.clock(&bits_of(state, circuit.m), &driving(&cells(row, n)));
    Ok(word_of(&next))
}

/// The cells of a record of the set's shape: numbers 12 and 13.
pub fn read_record(set: &Set, record: &[u8]) -> Reply<Vec<Bits>> {
    let n = set.n();
    refuse_if(record.len() != record_length(n, set.s()), 12)?;
    let rows = || record.chunks(row_bytes(n));
    refuse_if(rows().any(|row| has_spare(row, n)), 13)?;
    Ok(rows().map(|row| cells(row, n)).collect())
}

/// A record's signature, all cells as recorded.
pub fn sign(bytes: &[u8], record: &[u8]) -> Reply<u64> {
    let set = read_set(bytes)?;
    let cells = read_record(&set, record)?;
    Ok(set.signature(&cells))
}

/// The columns, for a lent list of `room` places. "The call that lists columns keeps its own rule" (document 02, No. 3): 14 for a list
/// shorter than what is listed, and that is a column for each symbol (No. 7).
pub fn list_columns(bytes: &[u8], room: usize) -> Reply<Vec<u64>> {
    let set = read_set(bytes)?;
    refuse_if(room < set.symbols().len(), 14)?;
    Ok(set.columns())
}
