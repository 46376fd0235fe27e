//! The canceller for Rust: slices in, `Result` out. It needs nothing but std and the static library; keep this file as it is, as a
//! module of your crate, and link with `-L target/staticlib -l static=canceller` (or the same two lines from a build script).
//! `raw` is include/canceller.h, declaration by declaration; the rest is the safe wrapper.
#![allow(dead_code)]

use std::fmt;

/// The C boundary as the header declares it.
pub mod raw {
    #[repr(C)]
    #[derive(Clone, Copy, Debug, PartialEq)]
    pub struct CSet {
        pub refusal: u64,
        pub m: u64,
        pub taps: u64,
        pub inversion: u64,
        pub n: u64,
        pub s: u64,
        pub spread: [u64; 256],
    }

    #[repr(C)]
    #[derive(Clone, Copy, Debug, PartialEq)]
    pub struct CStretch {
        pub refusal: u64,
        pub start: u64,
        pub length: u64,
    }

    #[repr(C)]
    #[derive(Clone, Copy, Debug, PartialEq)]
    pub struct CWritten {
        pub refusal: u64,
        pub length: u64,
    }

    #[repr(C)]
    #[derive(Clone, Copy, Debug, PartialEq)]
    pub struct CClocked {
        pub refusal: u64,
        pub state: u64,
    }

    #[repr(C)]
    #[derive(Clone, Copy, Debug, PartialEq)]
    pub struct CSigned {
        pub refusal: u64,
        pub signature: u64,
    }

    #[repr(C)]
    #[derive(Clone, Copy, Debug, PartialEq)]
    pub struct CListed {
        pub refusal: u64,
        pub count: u64,
    }

    #[repr(C)]
    #[derive(Clone, Copy, Debug, PartialEq)]
    pub struct CEliminated {
        pub refusal: u64,
        pub rank: u64,
        pub q: u64,
    }

    #[repr(C)]
    #[derive(Clone, Copy, Debug, PartialEq)]
    pub struct CWorded {
        pub refusal: u64,
        pub m: u64,
        pub q: u64,
    }

    #[repr(C)]
    #[derive(Clone, Copy, Debug, PartialEq)]
    pub struct CExpected {
        pub refusal: u64,
        pub expected: u64,
    }

    #[repr(C)]
    #[derive(Clone, Copy, Debug, PartialEq)]
    pub struct CPlanned {
        pub refusal: u64,
        pub m: u64,
        pub q: u64,
        pub expected: u64,
    }

    #[repr(C)]
    #[derive(Clone, Copy, Debug, PartialEq)]
    pub struct CCutting {
        pub refusal: u64,
        pub runs: u64,
        pub bits: u64,
    }

    #[repr(C)]
    #[derive(Clone, Copy, Debug, PartialEq)]
    pub struct CJudged {
        pub refusal: u64,
        pub cancelled: u64,
        pub failed: u64,
        pub index: u64,
    }

    extern "C" {
        pub fn canceller_read_set(set: *const u8, set_len: usize) -> CSet;
        pub fn canceller_value_row(set: *const u8, set_len: usize, slice: u64) -> CStretch;
        pub fn canceller_mark_row(set: *const u8, set_len: usize, slice: u64) -> CStretch;
        pub fn canceller_ties(set: *const u8, set_len: usize) -> CStretch;
        pub fn canceller_write_set(
            m: u64,
            taps: u64,
            inversion: u64,
            spread: *const u64,
            n: usize,
            values: *const u8,
            values_len: usize,
            marks: *const u8,
            marks_len: usize,
            s: u64,
            ties: *const u8,
            ties_len: usize,
            out: *mut u8,
            out_len: usize,
        ) -> CWritten;
        pub fn canceller_clock(
            m: u64,
            taps: u64,
            inversion: u64,
            state: u64,
            spread: *const u64,
            n: usize,
            row: *const u8,
            row_len: usize,
        ) -> CClocked;
        pub fn canceller_sign(
            set: *const u8,
            set_len: usize,
            record: *const u8,
            record_len: usize,
        ) -> CSigned;
        pub fn canceller_list_columns(
            set: *const u8,
            set_len: usize,
            columns: *mut u64,
            columns_len: usize,
        ) -> CListed;
        pub fn canceller_eliminate(
            m: u64,
            columns: *const u64,
            columns_len: usize,
            words: *mut u64,
            words_len: usize,
        ) -> CEliminated;
        pub fn canceller_plan_words(
            set: *const u8,
            set_len: usize,
            working: *mut u64,
            working_len: usize,
            words: *mut u64,
            words_len: usize,
        ) -> CWorded;
        pub fn canceller_expect(
            set: *const u8,
            set_len: usize,
            words: *const u64,
            words_len: usize,
        ) -> CExpected;
        pub fn canceller_plan(
            set: *const u8,
            set_len: usize,
            working: *mut u64,
            working_len: usize,
            words: *mut u64,
            words_len: usize,
        ) -> CPlanned;
        pub fn canceller_cut(
            set: *const u8,
            set_len: usize,
            k: u64,
            cuts: *mut u64,
            cuts_len: usize,
        ) -> CCutting;
        pub fn canceller_write_plan(
            m: u64,
            words: *const u64,
            words_len: usize,
            expected: u64,
            out: *mut u8,
            out_len: usize,
        ) -> CWritten;
        pub fn canceller_read_plan(
            plan: *const u8,
            plan_len: usize,
            words: *mut u64,
            words_len: usize,
        ) -> CPlanned;
        pub fn canceller_judge(plan: *const u8, plan_len: usize, signature: u64) -> CJudged;
    }
}

/// Bytes of the longest set, plan and record, and the most unknown cells, slices, ties and words that there can be.
pub const SET_MAX: usize = 36_632;
pub const PLAN_MAX: usize = 526;
pub const RECORD_MAX: usize = 16_384;
pub const UNKNOWNS_MAX: usize = 131_072;
pub const SLICES_MAX: usize = 512;
pub const TIES_MAX: usize = 256;
/// The places of the working list that planning is lent: always enough, 64 and one for each named symbol.
pub const WORKING_PLACES: usize = 64 + TIES_MAX;
pub const WORDS_MAX: usize = 64;

/// Why a call declined: the number of README.md's table.
#[derive(Clone, Copy, Debug, PartialEq, Eq)]
pub struct Refusal(pub u64);

impl fmt::Display for Refusal {
    fn fmt(&self, f: &mut fmt::Formatter<'_>) -> fmt::Result {
        write!(f, "refused: {}", self.0)
    }
}

impl std::error::Error for Refusal {}

pub type Reply<T> = Result<T, Refusal>;

fn accepted<T>(refusal: u64, answer: T) -> Reply<T> {
    match refusal {
        0 => Ok(answer),
        number => Err(Refusal(number)),
    }
}

/// The register and its chains, and the number of slices.
#[derive(Clone, Debug, PartialEq)]
pub struct Set {
    pub m: u64,
    pub taps: u64,
    /// XORed into the state at every clock; 0 where no register input is inverted.
    pub inversion: u64,
    pub spread: Vec<u64>,
    pub s: u64,
}

/// A tie: the unknown cell of this slice and chain holds the symbol of this number, or its opposite.
#[derive(Clone, Copy, Debug, PartialEq, Eq)]
pub struct Tie {
    pub slice: u16,
    pub chain: u16,
    pub symbol: u16,
    pub opposite: bool,
}

impl Tie {
    /// Bytes of a tie in a set file.
    pub const BYTES: usize = 7;

    /// As it stands in a set file.
    pub fn bytes(&self) -> [u8; Tie::BYTES] {
        let [s0, s1] = self.slice.to_le_bytes();
        let [c0, c1] = self.chain.to_le_bytes();
        let [y0, y1] = self.symbol.to_le_bytes();
        [s0, s1, c0, c1, y0, y1, self.opposite.into()]
    }

    /// The ties of such a stretch.
    pub fn all(stretch: &[u8]) -> Vec<Tie> {
        let number = |entry: &[u8], at: usize| u16::from_le_bytes([entry[at], entry[at + 1]]);
        let tie = |entry: &[u8]| Tie {
            slice: number(entry, 0),
            chain: number(entry, 2),
            symbol: number(entry, 4),
            opposite: entry[6] != 0,
        };
        stretch.chunks_exact(Tie::BYTES).map(tie).collect()
    }
}

/// The words of a set and their expected bits, bit i for word i.
#[derive(Clone, Debug, PartialEq)]
pub struct Plan {
    pub m: u64,
    pub words: Vec<u64>,
    pub expected: u64,
}

#[derive(Clone, Copy, Debug, PartialEq, Eq)]
pub enum Verdict {
    Passes,
    /// The first word that disagrees.
    FailsAt(u64),
}

/// The register, the chains and the number of slices of a set file.
pub fn read_set(set: &[u8]) -> Reply<Set> {
    let read = unsafe { raw::canceller_read_set(set.as_ptr(), set.len()) };
    let set = Set {
        m: read.m,
        taps: read.taps,
        inversion: read.inversion,
        spread: read.spread[..read.n as usize].to_vec(),
        s: read.s,
    };
    accepted(read.refusal, set)
}

fn stretch(set: &[u8], at: raw::CStretch) -> Reply<&[u8]> {
    let start = at.start as usize;
    accepted(at.refusal, &set[start..start + at.length as usize])
}

/// The values of one slice, as they stand in the set.
pub fn value_row(set: &[u8], slice: u64) -> Reply<&[u8]> {
    stretch(set, unsafe {
        raw::canceller_value_row(set.as_ptr(), set.len(), slice)
    })
}

/// The unknown marks of one slice, as they stand in the set.
pub fn mark_row(set: &[u8], slice: u64) -> Reply<&[u8]> {
    stretch(set, unsafe {
        raw::canceller_mark_row(set.as_ptr(), set.len(), slice)
    })
}

/// The ties, as they stand in the set; `Tie::all` reads them.
pub fn ties(set: &[u8]) -> Reply<&[u8]> {
    stretch(set, unsafe { raw::canceller_ties(set.as_ptr(), set.len()) })
}

/// The set file of this register, these rows and these ties: `values` and `marks` hold one row for each slice, one after the other,
/// and `ties` the bytes of each tie, by slice and then by chain.
pub fn write_set(set: &Set, values: &[u8], marks: &[u8], ties: &[u8]) -> Reply<Vec<u8>> {
    let mut out = vec![0; SET_MAX];
    let written = unsafe {
        raw::canceller_write_set(
            set.m,
            set.taps,
            set.inversion,
            set.spread.as_ptr(),
            set.spread.len(),
            values.as_ptr(),
            values.len(),
            marks.as_ptr(),
            marks.len(),
            set.s,
            ties.as_ptr(),
            ties.len(),
            out.as_mut_ptr(),
            out.len(),
        )
    };
    out.truncate(written.length as usize);
    accepted(written.refusal, out)
}

/// The state after one clock with the cells of one row.
pub fn clock(
    m: u64,
    taps: u64,
    inversion: u64,
    state: u64,
    spread: &[u64],
    row: &[u8],
) -> Reply<u64> {
    let (words, bytes) = (spread.as_ptr(), row.as_ptr());
    let (n, row_len) = (spread.len(), row.len());
    let clocked =
        unsafe { raw::canceller_clock(m, taps, inversion, state, words, n, bytes, row_len) };
    accepted(clocked.refusal, clocked.state)
}

/// The signature of a record.
pub fn sign(set: &[u8], record: &[u8]) -> Reply<u64> {
    let signed =
        unsafe { raw::canceller_sign(set.as_ptr(), set.len(), record.as_ptr(), record.len()) };
    accepted(signed.refusal, signed.signature)
}

/// The columns of the symbols, each where its first cell stands by slice and then by chain; an unknown cell without a tie is a symbol.
pub fn list_columns(set: &[u8]) -> Reply<Vec<u64>> {
    let mut columns = vec![0; UNKNOWNS_MAX];
    let at = columns.as_mut_ptr();
    let listed = unsafe { raw::canceller_list_columns(set.as_ptr(), set.len(), at, columns.len()) };
    columns.truncate(listed.count as usize);
    accepted(listed.refusal, columns)
}

/// The rank of the columns and their X-free words.
pub fn eliminate(m: u64, columns: &[u64]) -> Reply<(u64, Vec<u64>)> {
    let mut words = vec![0; WORDS_MAX];
    let at = words.as_mut_ptr();
    let done =
        unsafe { raw::canceller_eliminate(m, columns.as_ptr(), columns.len(), at, words.len()) };
    words.truncate(done.q as usize);
    accepted(done.refusal, (done.rank, words))
}

/// The width of a set and its words, without expected bits.
pub fn plan_words(set: &[u8]) -> Reply<(u64, Vec<u64>)> {
    let mut working = vec![0; WORKING_PLACES];
    let mut words = vec![0; WORDS_MAX];
    let (k, w) = (working.as_mut_ptr(), words.as_mut_ptr());
    let (room, places) = (working.len(), words.len());
    let worded = unsafe { raw::canceller_plan_words(set.as_ptr(), set.len(), k, room, w, places) };
    words.truncate(worded.q as usize);
    accepted(worded.refusal, (worded.m, words))
}

/// The expected bits of words for a set, bit i for word i, whether or not the words are the set's own.
pub fn expect(set: &[u8], words: &[u64]) -> Reply<u64> {
    let expected =
        unsafe { raw::canceller_expect(set.as_ptr(), set.len(), words.as_ptr(), words.len()) };
    accepted(expected.refusal, expected.expected)
}

fn plan_of(planned: raw::CPlanned, mut words: Vec<u64>) -> Reply<Plan> {
    let (m, expected) = (planned.m, planned.expected);
    words.truncate(planned.q as usize);
    accepted(planned.refusal, Plan { m, words, expected })
}

/// The plan of a set.
pub fn plan(set: &[u8]) -> Reply<Plan> {
    let mut working = vec![0; WORKING_PLACES];
    let mut words = vec![0; WORDS_MAX];
    let (k, w) = (working.as_mut_ptr(), words.as_mut_ptr());
    let (room, places) = (working.len(), words.len());
    let planned = unsafe { raw::canceller_plan(set.as_ptr(), set.len(), k, room, w, places) };
    plan_of(planned, words)
}

/// The first slice of each run that the slices are cut into, each run leaving at least k words, and the control bits in all.
pub fn cut(set: &[u8], k: u64) -> Reply<(Vec<u64>, u64)> {
    let mut cuts = vec![0; SLICES_MAX];
    let at = cuts.as_mut_ptr();
    let cutting = unsafe { raw::canceller_cut(set.as_ptr(), set.len(), k, at, cuts.len()) };
    cuts.truncate(cutting.runs as usize);
    accepted(cutting.refusal, (cuts, cutting.bits))
}

/// The plan file.
pub fn write_plan(plan: &Plan) -> Reply<Vec<u8>> {
    let mut out = vec![0; PLAN_MAX];
    let (words, at) = (&plan.words, out.as_mut_ptr());
    let written = unsafe {
        raw::canceller_write_plan(
            plan.m,
            words.as_ptr(),
            words.len(),
            plan.expected,
            at,
            out.len(),
        )
    };
    out.truncate(written.length as usize);
    accepted(written.refusal, out)
}

/// The plan in a plan file.
pub fn read_plan(file: &[u8]) -> Reply<Plan> {
    let mut words = vec![0; WORDS_MAX];
    let at = words.as_mut_ptr();
    let read = unsafe { raw::canceller_read_plan(file.as_ptr(), file.len(), at, words.len()) };
    plan_of(read, words)
}

/// The cancelled bits of a signature, bit i for word i of the plan, and the verdict.
pub fn judge(plan_file: &[u8], signature: u64) -> Reply<(u64, Verdict)> {
    let judged = unsafe { raw::canceller_judge(plan_file.as_ptr(), plan_file.len(), signature) };
    let verdict = match judged.failed {
        0 => Verdict::Passes,
        _ => Verdict::FailsAt(judged.index),
    };
    accepted(judged.refusal, (judged.cancelled, verdict))
}
