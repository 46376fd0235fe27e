//! Every call made by the second implementation once and by the proved library twice, with its slices against the fence behind
//! them and against the fence in front, and all that comes back compared: the answer, every lent list whole, and that what was
//! lent to be read is as it was.

use crate::fence::{Fenced, SIDES};
use crate::library::*;
use crate::random::Random;
use crate::second::cutting::{cut, Cutting};
use crate::second::elimination::eliminate;
use crate::second::plan::{judge, read_plan_into, write_plan, Judged, Plan};
use crate::second::planning::{expect, plan, plan_words, Planning};
use crate::second::set::{
    clock, list_columns, read_set, row_place, sign, ties_place, write_set, Content, Row,
};
use crate::second::{word_of, Reply};
use std::collections::BTreeMap;

/// The numbers of a set, in the order in which they are looked for, and those that a call on a set looks for behind them.
macro_rules! sets {
    ($($more:literal),*) => {
        &[1, 2, 3, 25, 4, 5, 6, 7, 8, 9, 10, 29, 30, 31 $(, $more)*]
    };
}

/// Each call with the numbers that it can meet, in the order in which it looks for them.
pub const MEETS: [(&str, &[u64]); 16] = [
    ("read_set", sets![]),
    ("value_row", sets![11]),
    ("mark_row", sets![11]),
    ("ties", sets![]),
    ("write_set", &[2, 3, 25, 4, 6, 7, 8, 9, 10, 29, 30, 31, 24]),
    ("clock", &[2, 3, 25, 4, 6, 8, 9, 23]),
    ("sign", sets![12, 13]),
    ("list_columns", sets![14]),
    ("eliminate", &[2, 15, 17, 18]),
    ("plan_words", sets![14, 17, 18]),
    ("expect", sets![20, 21]),
    ("plan", sets![14, 17, 18]),
    ("cut", sets![26, 27, 28]),
    ("write_plan", &[19, 20, 21, 22, 24]),
    ("read_plan", &[19, 20, 21, 22, 18]),
    ("judge", &[19, 20, 21, 22, 23]),
];

/// "Show that 16 cannot come up, then take it out; the number isn't given to anything else." (Document 02, No. 4.)
pub const TAKEN_OUT: u64 = 16;

/// A slice to lend.
enum Lend<'a> {
    /// To be read.
    Bytes(&'a [u8]),
    Words(&'a [u64]),
    /// To be written: bytes or words of room, and what the front must hold after the call.
    Output(usize, &'a [u8]),
    List(usize, &'a [u64]),
}

fn as_bytes(words: &[u64]) -> &[u8] {
    unsafe { std::slice::from_raw_parts(words.as_ptr() as *const u8, 8 * words.len()) }
}

impl Lend<'_> {
    /// Its bytes, those that are known after the call, and whether they are there before it too.
    fn laid(&self) -> (usize, &[u8], bool) {
        match self {
            Lend::Bytes(bytes) => (bytes.len(), bytes, true),
            Lend::Words(words) => (8 * words.len(), as_bytes(words), true),
            Lend::Output(room, front) => (*room, front, false),
            Lend::List(room, front) => (8 * room, as_bytes(front), false),
        }
    }
}

/// A slice as it is lent, for either type.
#[derive(Clone, Copy)]
struct Lent {
    at: *mut u8,
    bytes: usize,
}

impl Lent {
    fn bytes(&self) -> (*const u8, usize) {
        (self.at, self.bytes)
    }

    fn words(&self) -> (*const u64, usize) {
        (self.at as *const u64, self.bytes / 8)
    }

    fn output(&self) -> (*mut u8, usize) {
        (self.at, self.bytes)
    }

    fn list(&self) -> (*mut u64, usize) {
        (self.at as *mut u64, self.bytes / 8)
    }
}

/// The two implementations, with fenced memory for the library's slices.
pub struct Both {
    fences: [[Fenced; 5]; 2],
    /// What is lent to be written holds in the two calls: noise, and other noise.
    pub before: [Before; 2],
    /// How often each call was compared, by the number it gave; 0 for an answer.
    seen: BTreeMap<(&'static str, u64), u64>,
    /// How often the library gave each number, whatever the call.
    given: BTreeMap<u64, u64>,
    /// What the test is at, for the message of a failure.
    pub at: String,
}

/// At the end of every test that compares by it: of all calls that it made of the library, none gave the number that was taken out.
impl Drop for Both {
    fn drop(&mut self) {
        let given = self.given(TAKEN_OUT);
        // a test that has failed already says more
        if !std::thread::panicking() {
            assert_eq!(given, 0, "{given} calls gave {TAKEN_OUT}");
        }
    }
}

impl Default for Both {
    fn default() -> Both {
        Both::new()
    }
}

/// The answer of the boundary for a reply of the second implementation.
fn answer<T, A: Answer>(reply: &Reply<T>, of: impl FnOnce(&T) -> A) -> A {
    match reply {
        Err(number) => A::refused(*number),
        Ok(value) => of(value),
    }
}

fn planned_answer(reply: &Reply<Plan>) -> CPlanned {
    answer(reply, |p| CPlanned {
        refusal: 0,
        m: p.m,
        q: p.words.len() as u64,
        expected: p.expected,
    })
}

fn stretch_answer(reply: &Reply<(usize, usize)>) -> CStretch {
    answer(reply, |&(start, length)| CStretch {
        refusal: 0,
        start: start as u64,
        length: length as u64,
    })
}

fn written_answer(reply: &Reply<Vec<u8>>) -> CWritten {
    answer(reply, |file| CWritten {
        refusal: 0,
        length: file.len() as u64,
    })
}

/// What success puts over the front of a lent list; nothing in a refusal.
fn front<T, E>(reply: &Reply<T>, of: impl FnOnce(&T) -> &[E]) -> &[E] {
    reply.as_ref().map_or(&[], of)
}

/// What a slice of so many bytes that is lent to be written holds before the call.
pub type Before = fn(usize) -> Vec<u8>;

fn noise(seed: u64, bytes: usize) -> Vec<u8> {
    let mut r = Random::new(seed);
    let words = (0..bytes.div_ceil(8)).flat_map(|_| r.word().to_le_bytes());
    words.take(bytes).collect()
}

/// Lays the slices against the fences: an input as it is, a list to be written with what it holds before.
fn lay(fences: &mut [Fenced; 5], lend: &[Lend], held: Before) -> Vec<Lent> {
    let lay_one = |(slice, fence): (&Lend, &mut Fenced)| {
        let (bytes, known, before) = slice.laid();
        let memory = fence.bytes(bytes);
        match before {
            true => memory.copy_from_slice(known),
            false => memory.copy_from_slice(&held(bytes)),
        }
        Lent {
            at: memory.as_mut_ptr(),
            bytes,
        }
    };
    lend.iter().zip(fences).map(lay_one).collect()
}

impl Both {
    pub fn new() -> Both {
        Both {
            fences: SIDES.map(|side| [0; 5].map(|_| Fenced::new(side, 4096 * 16))),
            before: [|bytes| noise(1, bytes), |bytes| noise(2, bytes)],
            seen: BTreeMap::new(),
            given: BTreeMap::new(),
            at: String::new(),
        }
    }

    pub fn at(at: &str) -> Both {
        let mut both = Both::new();
        both.at = at.to_string();
        both
    }

    /// The library's call on both sides of the fenced memory, held to `want`, to the lists as they must be left, and to the inputs
    /// as they were. What is not known of a lent list must hold after the call what it held before.
    fn compare<A: Answer>(
        &mut self,
        call: &'static str,
        lend: &[Lend],
        want: A,
        make: impl Fn(&[Lent]) -> A,
    ) {
        for (fences, held) in self.fences.iter_mut().zip(self.before) {
            let lent = lay(fences, lend, held);
            let got = make(&lent);
            *self.given.entry(got.refusal()).or_insert(0) += 1;
            assert!(
                got == want,
                "{call}, {}: the library gives {got:?}, the second implementation {want:?}",
                self.at
            );
            for ((i, slice), fence) in lend.iter().enumerate().zip(fences.iter_mut()) {
                let (bytes, known, _) = slice.laid();
                let (front, rest) = fence.bytes(bytes).split_at(known.len());
                assert!(
                    front == known && (rest.is_empty() || *rest == held(bytes)[known.len()..]),
                    "{call}, {}: slice {i} is not left as the second implementation says",
                    self.at
                );
            }
        }
        *self.seen.entry((call, want.refusal())).or_insert(0) += 1;
    }

    /// How many calls were compared.
    pub fn compared(&self) -> u64 {
        self.seen.values().sum()
    }

    /// How many comparisons of this call gave this number; 0 counts its answers.
    pub fn seen(&self, call: &str, number: u64) -> u64 {
        let there = self.seen.iter().find(|(k, _)| **k == (call, number));
        there.map_or(0, |(_, count)| *count)
    }

    /// How many calls of the library, two for each comparison, gave this number.
    pub fn given(&self, number: u64) -> u64 {
        self.given.get(&number).copied().unwrap_or(0)
    }

    /// Of a hundred comparisons of this call, how many were answers.
    pub fn accepted(&self, call: &str) -> u64 {
        let of_call = self.seen.iter().filter(|((name, _), _)| *name == call);
        100 * self.seen(call, 0) / of_call.map(|(_, count)| count).sum::<u64>().max(1)
    }

    /// Every call and number with its count.
    pub fn all_seen(&self) -> impl Iterator<Item = (&'static str, u64, u64)> + '_ {
        self.seen
            .iter()
            .map(|(&(call, n), &count)| (call, n, count))
    }

    /// The set reader.
    pub fn read_set(&mut self, set: &[u8]) -> Reply<()> {
        let reply = read_set(set);
        let want = answer(&reply, |read| {
            let mut want = CSet::refused(0);
            want.m = read.circuit.m as u64;
            want.taps = word_of(&read.circuit.taps);
            want.inversion = word_of(&read.circuit.inversion);
            want.n = read.n() as u64;
            want.s = read.s() as u64;
            for (w, bits) in want.spread.iter_mut().zip(&read.circuit.spread) {
                *w = word_of(bits);
            }
            want
        });
        self.compare("read_set", &[Lend::Bytes(set)], want, |lent| {
            let (set, set_len) = lent[0].bytes();
            unsafe { canceller_read_set(set, set_len) }
        });
        reply.map(|_| ())
    }

    /// Both row calls.
    pub fn rows(&mut self, set: &[u8], slice: u64) -> Reply<()> {
        let place = |row| row_place(set, slice, row);
        let want = |row| stretch_answer(&place(row));
        let lend = [Lend::Bytes(set)];
        self.compare("value_row", &lend, want(Row::Values), |lent| {
            let (set, set_len) = lent[0].bytes();
            unsafe { canceller_value_row(set, set_len, slice) }
        });
        self.compare("mark_row", &lend, want(Row::Marks), |lent| {
            let (set, set_len) = lent[0].bytes();
            unsafe { canceller_mark_row(set, set_len, slice) }
        });
        place(Row::Values).map(|_| ())
    }

    /// Where the ties stand.
    pub fn ties(&mut self, set: &[u8]) -> Reply<(usize, usize)> {
        let reply = ties_place(set);
        let want = stretch_answer(&reply);
        self.compare("ties", &[Lend::Bytes(set)], want, |lent| {
            let (set, set_len) = lent[0].bytes();
            unsafe { canceller_ties(set, set_len) }
        });
        reply
    }

    /// The set writer, with an output of `room` bytes.
    pub fn write_set(&mut self, content: &Content, room: usize) -> Reply<Vec<u8>> {
        let reply = write_set(content, room);
        let want = written_answer(&reply);
        let lend = [
            Lend::Words(&content.spread),
            Lend::Bytes(&content.values),
            Lend::Bytes(&content.marks),
            Lend::Bytes(&content.ties),
            Lend::Output(room, front(&reply, |file| file)),
        ];
        let (m, taps, inversion, s) = (content.m, content.taps, content.inversion, content.s);
        self.compare("write_set", &lend, want, |lent| {
            let ((spread, n), (out, out_len)) = (lent[0].words(), lent[4].output());
            let ((values, values_len), (marks, marks_len)) = (lent[1].bytes(), lent[2].bytes());
            let (ties, ties_len) = lent[3].bytes();
            unsafe {
                canceller_write_set(
                    m, taps, inversion, spread, n, values, values_len, marks, marks_len, s, ties,
                    ties_len, out, out_len,
                )
            }
        });
        reply
    }

    /// One clock. A refusal hands the state back.
    pub fn clock(
        &mut self,
        m: u64,
        taps: u64,
        inversion: u64,
        state: u64,
        spread: &[u64],
        row: &[u8],
    ) -> Reply<u64> {
        let reply = clock(m, taps, inversion, state, spread, row);
        let want = CClocked {
            refusal: reply.err().unwrap_or(0),
            state: reply.unwrap_or(state),
        };
        let lend = [Lend::Words(spread), Lend::Bytes(row)];
        self.compare("clock", &lend, want, |lent| {
            let ((spread, n), (row, row_len)) = (lent[0].words(), lent[1].bytes());
            unsafe { canceller_clock(m, taps, inversion, state, spread, n, row, row_len) }
        });
        reply
    }

    /// A record's signature.
    pub fn sign(&mut self, set: &[u8], record: &[u8]) -> Reply<u64> {
        let reply = sign(set, record);
        let want = answer(&reply, |&signature| CSigned {
            refusal: 0,
            signature,
        });
        let lend = [Lend::Bytes(set), Lend::Bytes(record)];
        self.compare("sign", &lend, want, |lent| {
            let ((set, set_len), (record, record_len)) = (lent[0].bytes(), lent[1].bytes());
            unsafe { canceller_sign(set, set_len, record, record_len) }
        });
        reply
    }

    /// The columns, with a list of `room` places.
    pub fn list_columns(&mut self, set: &[u8], room: usize) -> Reply<Vec<u64>> {
        let reply = list_columns(set, room);
        let want = answer(&reply, |columns| CListed {
            refusal: 0,
            count: columns.len() as u64,
        });
        let list = front(&reply, |columns| columns);
        let lend = [Lend::Bytes(set), Lend::List(room, list)];
        self.compare("list_columns", &lend, want, |lent| {
            let ((set, set_len), (columns, columns_len)) = (lent[0].bytes(), lent[1].list());
            unsafe { canceller_list_columns(set, set_len, columns, columns_len) }
        });
        reply
    }

    /// The elimination, with a list of `room` places.
    pub fn eliminate(&mut self, m: u64, columns: &[u64], room: usize) -> Reply<(u64, Vec<u64>)> {
        let reply = eliminate(m, columns, room);
        let want = answer(&reply, |(rank, words)| CEliminated {
            refusal: 0,
            rank: *rank,
            q: words.len() as u64,
        });
        let list = front(&reply, |(_, words)| words);
        let lend = [Lend::Words(columns), Lend::List(room, list)];
        self.compare("eliminate", &lend, want, |lent| {
            let ((columns, columns_len), (words, words_len)) = (lent[0].words(), lent[1].list());
            unsafe { canceller_eliminate(m, columns, columns_len, words, words_len) }
        });
        reply
    }

    /// A call that makes words of a set, lent lists of these many places: `left` is what their fronts must hold after it.
    fn makes_words<A: Answer>(
        &mut self,
        call: &'static str,
        set: &[u8],
        rooms: [usize; 2],
        left: [&[u64]; 2],
        want: A,
        make: MakesWords<A>,
    ) {
        let lend = [
            Lend::Bytes(set),
            Lend::List(rooms[0], left[0]),
            Lend::List(rooms[1], left[1]),
        ];
        self.compare(call, &lend, want, |lent| {
            let (set, set_len) = lent[0].bytes();
            let ((working, working_len), (words, words_len)) = (lent[1].list(), lent[2].list());
            unsafe { make(set, set_len, working, working_len, words, words_len) }
        });
    }

    /// The words of a set, with lists of these many places.
    pub fn plan_words(
        &mut self,
        set: &[u8],
        working_room: usize,
        word_room: usize,
    ) -> Reply<(u64, Vec<u64>)> {
        let Planning { reply, working } = plan_words(set, working_room, word_room);
        let want = answer(&reply, |(m, words)| CWorded {
            refusal: 0,
            m: *m,
            q: words.len() as u64,
        });
        let rooms = [working_room, word_room];
        let left = [&working, front(&reply, |(_, words)| words)];
        self.makes_words("plan_words", set, rooms, left, want, canceller_plan_words);
        reply
    }

    /// The expected bits of words for a set.
    pub fn expect(&mut self, set: &[u8], words: &[u64]) -> Reply<u64> {
        let reply = expect(set, words);
        let want = answer(&reply, |&expected| CExpected {
            refusal: 0,
            expected,
        });
        let lend = [Lend::Bytes(set), Lend::Words(words)];
        self.compare("expect", &lend, want, |lent| {
            let ((set, set_len), (words, words_len)) = (lent[0].bytes(), lent[1].words());
            unsafe { canceller_expect(set, set_len, words, words_len) }
        });
        reply
    }

    /// Planning, with lists of these many places.
    pub fn plan(&mut self, set: &[u8], working_room: usize, word_room: usize) -> Reply<Plan> {
        let Planning { reply, working } = plan(set, working_room, word_room);
        let rooms = [working_room, word_room];
        let left = [&working, front(&reply, |p| &p.words)];
        let want = planned_answer(&reply);
        self.makes_words("plan", set, rooms, left, want, canceller_plan);
        reply
    }

    /// Cutting, with a cut list of `room` places.
    pub fn cut(&mut self, set: &[u8], k: u64, room: usize) -> Reply<Cutting> {
        let reply = cut(set, k, room);
        self.cut_is(set, k, room, &reply);
        reply
    }

    /// The library's cutting held to a reply that the test knows in another way, for sets in which the second implementation would
    /// try ends for too long.
    pub fn cut_is(&mut self, set: &[u8], k: u64, room: usize, reply: &Reply<Cutting>) {
        let want = answer(reply, |cutting| CCutting {
            refusal: 0,
            runs: cutting.cuts.len() as u64,
            bits: cutting.bits,
        });
        let list = front(reply, |cutting| &cutting.cuts);
        let lend = [Lend::Bytes(set), Lend::List(room, list)];
        self.compare("cut", &lend, want, |lent| {
            let ((set, set_len), (cuts, cuts_len)) = (lent[0].bytes(), lent[1].list());
            unsafe { canceller_cut(set, set_len, k, cuts, cuts_len) }
        });
    }

    /// The plan writer, with an output of `room` bytes.
    pub fn write_plan(&mut self, plan: &Plan, room: usize) -> Reply<Vec<u8>> {
        let reply = write_plan(plan, room);
        let want = written_answer(&reply);
        let lend = [
            Lend::Words(&plan.words),
            Lend::Output(room, front(&reply, |file| file)),
        ];
        self.compare("write_plan", &lend, want, |lent| {
            let ((words, words_len), (out, out_len)) = (lent[0].words(), lent[1].output());
            unsafe { canceller_write_plan(plan.m, words, words_len, plan.expected, out, out_len) }
        });
        reply
    }

    /// The plan reader, with a list of `room` places.
    pub fn read_plan(&mut self, plan: &[u8], room: usize) -> Reply<Plan> {
        let reply = read_plan_into(plan, room);
        let list = front(&reply, |p| &p.words);
        let lend = [Lend::Bytes(plan), Lend::List(room, list)];
        self.compare("read_plan", &lend, planned_answer(&reply), |lent| {
            let ((plan, plan_len), (words, words_len)) = (lent[0].bytes(), lent[1].list());
            unsafe { canceller_read_plan(plan, plan_len, words, words_len) }
        });
        reply
    }

    /// Judging.
    pub fn judge(&mut self, plan: &[u8], signature: u64) -> Reply<Judged> {
        let reply = judge(plan, signature);
        let want = answer(&reply, |j| CJudged {
            refusal: 0,
            cancelled: j.cancelled,
            failed: u64::from(j.fails_at.is_some()),
            index: j.fails_at.unwrap_or(0),
        });
        self.compare("judge", &[Lend::Bytes(plan)], want, |lent| {
            let (plan, plan_len) = lent[0].bytes();
            unsafe { canceller_judge(plan, plan_len, signature) }
        });
        reply
    }
}
