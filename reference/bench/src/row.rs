//! A row of the table: a call on some inputs, by all sides. What they answer is compared before anything is timed.

use crate::timing::{ratio, times, Times};
use std::hint::black_box;

/// What a call gives, as numbers, or the refusal's number.
pub type Answer = Result<Vec<u64>, u64>;

/// A call on input i. What it answers is put into words only where the second argument asks for it; None compares nothing.
pub type Call = Box<dyn FnMut(usize, bool) -> Option<Answer>>;

#[derive(Clone, Debug, PartialEq)]
pub enum Side {
    Ours,
    Same,
    /// The fastest that we know in Rust.
    Best,
    Plain,
    Other(&'static str),
    /// Other calls of ours that do what the call does, or the better part of it.
    Parts(&'static str),
}

pub struct Row {
    pub call: &'static str,
    pub size: String,
    pub inputs: usize,
    pub sides: Vec<(Side, Call)>,
}

/// The numbers where they are asked for.
pub fn put(ask: bool, refusal: u64, numbers: impl FnOnce() -> Vec<u64>) -> Option<Answer> {
    ask.then(|| match refusal {
        0 => Ok(numbers()),
        n => Err(n),
    })
}

impl Row {
    pub fn new(call: &'static str, size: String, inputs: usize) -> Row {
        Row {
            call,
            size,
            inputs,
            sides: Vec::new(),
        }
    }

    pub fn side<F>(mut self, side: Side, call: F) -> Row
    where
        F: FnMut(usize, bool) -> Option<Answer> + 'static,
    {
        self.sides.push((side, Box::new(call)));
        self
    }

    /// Compares what all sides answer to each input, and gives what it is: an answer, or one refusal.
    pub fn compared(&mut self) -> String {
        let mut gives: Option<String> = None;
        for i in 0..self.inputs {
            let (_, ours) = &mut self.sides[0];
            let want = ours(i, true);
            for (side, call) in &mut self.sides[1..] {
                let got = call(i, true);
                assert!(
                    got.is_none() || got == want,
                    "{} of {}, input {i}: {side:?} gives {got:?}, ours {want:?}",
                    self.call,
                    self.size
                );
            }
            let this = match want.expect("ours answers") {
                Ok(_) => "an answer".to_string(),
                Err(n) => format!("refusal {n}"),
            };
            assert!(gives.is_none() || gives.as_ref() == Some(&this));
            gives = Some(this);
        }
        gives.expect("an input")
    }

    /// The times of all sides, in their order.
    pub fn times(&mut self) -> Vec<(Side, Times)> {
        let names: Vec<Side> = self.sides.iter().map(|(side, _)| side.clone()).collect();
        let inputs = self.inputs;
        let mut calls: Vec<_> = self
            .sides
            .iter_mut()
            .map(|(_, call)| |i: usize| drop(black_box(call(i, false))))
            .collect();
        let mut calls: Vec<&mut dyn FnMut(usize)> = calls
            .iter_mut()
            .map(|c| c as &mut dyn FnMut(usize))
            .collect();
        names.into_iter().zip(times(&mut calls, inputs)).collect()
    }

    /// Compares, times, and prints the row.
    pub fn print(&mut self) {
        let gives = self.compared();
        let times = self.times();
        let (_, ours) = &times[0];
        let by = |wanted: Side| times.iter().find(|(side, _)| *side == wanted);
        let in_rust = |side: Side| {
            by(side).map_or("–".to_string(), |(_, t)| {
                format!("{} ({})", t.shown(), ratio(&ours.over(t)))
            })
        };
        let (same, best) = (in_rust(Side::Same), in_rust(Side::Best));
        let theirs = |t: &Times| format!("{} ({} ×)", t.shown(), ratio(&t.over(ours)));
        let plain = by(Side::Plain).map_or("–".to_string(), |(_, t)| theirs(t));
        let others = times.iter().filter_map(|(side, t)| match side {
            Side::Other(name) => Some(format!("{name} {}", theirs(t))),
            Side::Parts(name) => {
                let of_it = ratio(&ours.over(t));
                Some(format!("{name} {} (ours {of_it} of it)", t.shown()))
            }
            _ => None,
        });
        let others = others.collect::<Vec<String>>().join(", ");
        println!(
            "| {} | {} | {gives} | {} | {same} | {best} | {plain} | {others} |",
            self.call,
            self.size,
            ours.shown()
        );
    }
}
