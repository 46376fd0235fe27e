//! The library's calls, on ordinary memory.

use reference::library::*;
use reference::second::set::Content;

pub fn plan(set: &[u8], working: &mut [u64], words: &mut [u64]) -> CPlanned {
    let (k, k_len) = (working.as_mut_ptr(), working.len());
    let (w, w_len) = (words.as_mut_ptr(), words.len());
    unsafe { canceller_plan(set.as_ptr(), set.len(), k, k_len, w, w_len) }
}

pub fn plan_words(set: &[u8], working: &mut [u64], words: &mut [u64]) -> CWorded {
    let (k, k_len) = (working.as_mut_ptr(), working.len());
    let (w, w_len) = (words.as_mut_ptr(), words.len());
    unsafe { canceller_plan_words(set.as_ptr(), set.len(), k, k_len, w, w_len) }
}

pub fn expect(set: &[u8], words: &[u64]) -> CExpected {
    unsafe { canceller_expect(set.as_ptr(), set.len(), words.as_ptr(), words.len()) }
}

pub fn cut(set: &[u8], k: u64, cuts: &mut [u64]) -> CCutting {
    let (c, c_len) = (cuts.as_mut_ptr(), cuts.len());
    unsafe { canceller_cut(set.as_ptr(), set.len(), k, c, c_len) }
}

pub fn list_columns(set: &[u8], columns: &mut [u64]) -> CListed {
    let (c, c_len) = (columns.as_mut_ptr(), columns.len());
    unsafe { canceller_list_columns(set.as_ptr(), set.len(), c, c_len) }
}

pub fn read_set(set: &[u8]) -> CSet {
    unsafe { canceller_read_set(set.as_ptr(), set.len()) }
}

pub fn value_row(set: &[u8], slice: u64) -> CStretch {
    unsafe { canceller_value_row(set.as_ptr(), set.len(), slice) }
}

pub fn mark_row(set: &[u8], slice: u64) -> CStretch {
    unsafe { canceller_mark_row(set.as_ptr(), set.len(), slice) }
}

pub fn sign(set: &[u8], record: &[u8]) -> CSigned {
    unsafe { canceller_sign(set.as_ptr(), set.len(), record.as_ptr(), record.len()) }
}

pub fn write_set(c: &Content, out: &mut [u8]) -> CWritten {
    let (m, taps, inversion, s) = (c.m, c.taps, c.inversion, c.s);
    let (spread, n) = (c.spread.as_ptr(), c.spread.len());
    let (values, values_len) = (c.values.as_ptr(), c.values.len());
    let (marks, marks_len) = (c.marks.as_ptr(), c.marks.len());
    let (ties, ties_len) = (c.ties.as_ptr(), c.ties.len());
    let (to, room) = (out.as_mut_ptr(), out.len());
    unsafe {
        canceller_write_set(
            m, taps, inversion, spread, n, values, values_len, marks, marks_len, s, ties, ties_len,
            to, room,
        )
    }
}

pub fn clock(c: &Content, state: u64, row: &[u8]) -> CClocked {
    let (spread, n) = (c.spread.as_ptr(), c.spread.len());
    let (row, row_len) = (row.as_ptr(), row.len());
    unsafe { canceller_clock(c.m, c.taps, c.inversion, state, spread, n, row, row_len) }
}

pub fn eliminate(columns: &[u64], words: &mut [u64]) -> CEliminated {
    let (w, w_len) = (words.as_mut_ptr(), words.len());
    unsafe { canceller_eliminate(64, columns.as_ptr(), columns.len(), w, w_len) }
}

pub fn judge(plan: &[u8], signature: u64) -> CJudged {
    unsafe { canceller_judge(plan.as_ptr(), plan.len(), signature) }
}

pub fn read_plan(plan: &[u8], words: &mut [u64]) -> CPlanned {
    let (w, w_len) = (words.as_mut_ptr(), words.len());
    unsafe { canceller_read_plan(plan.as_ptr(), plan.len(), w, w_len) }
}

pub fn write_plan(words: &[u64], expected: u64, out: &mut [u8]) -> CWritten {
    let (to, room) = (out.as_mut_ptr(), out.len());
    unsafe { canceller_write_plan(64, words.as_ptr(), words.len(), expected, to, room) }
}
