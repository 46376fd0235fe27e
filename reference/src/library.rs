//! The proved library through its C boundary: the declarations of the example for Rust.

#[path = "../../examples/canceller.rs"]
pub mod canceller;

pub use canceller::raw::*;

/// What every answer of the boundary has: its refusal number, 0 for an answer.
pub trait Answer: Copy + PartialEq + std::fmt::Debug {
    /// A refusal: its number, and all else 0.
    fn refused(number: u64) -> Self;
    fn refusal(&self) -> u64;
}

macro_rules! answers {
    ($($name:ident)*) => {
        $(impl Answer for $name {
            fn refused(number: u64) -> $name {
                // all fields are u64
                let zero: $name = unsafe { std::mem::zeroed() };
                $name { refusal: number, ..zero }
            }

            fn refusal(&self) -> u64 {
                self.refusal
            }
        })*
    };
}

answers!(CSet CStretch CWritten CClocked CSigned CListed CEliminated CWorded CExpected CPlanned CCutting CJudged);

/// A call that is lent a set, a working list and a word list.
pub type MakesWords<A> =
    unsafe extern "C" fn(*const u8, usize, *mut u64, usize, *mut u64, usize) -> A;

/// What lists lent to the library alone hold before.
pub const FILL: u64 = 0x5EED_5EED_5EED_5EED;

/// Such a call of the library on lists of these many places: its answer, and the lists as it leaves them.
pub fn made<A>(call: MakesWords<A>, set: &[u8], rooms: [usize; 2]) -> (A, [Vec<u64>; 2]) {
    let mut lists = rooms.map(|room| vec![FILL; room]);
    let [working, words] = &mut lists;
    let (k, k_len) = (working.as_mut_ptr(), working.len());
    let (w, w_len) = (words.as_mut_ptr(), words.len());
    let answer = unsafe { call(set.as_ptr(), set.len(), k, k_len, w, w_len) };
    (answer, lists)
}
