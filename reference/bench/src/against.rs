//! This library beside another one, each in a bench of its own, since both export the same names: `bench --against OTHER`, where
//! OTHER is the program `bench` of another folder, which makes its sets by the layout of that folder. The two are timed in turn, so that
//! what disturbs the machine disturbs both alike.

use crate::row::{Row, Side};
use crate::timing::{ratio, Batches, Times};
use std::hint::black_box;
use std::io::{BufRead, BufReader, Write};
use std::process::{Child, Command, Stdio};

const ROUNDS: usize = 41;

/// Times a batch of our side's calls for each line of standard input, and prints what one of them takes, in microseconds.
pub fn serve(row: Row) {
    let inputs = row.inputs;
    let ours = row.sides.into_iter().find(|(side, _)| *side == Side::Ours);
    let (_, mut ours) = ours.expect("a row has our side");
    let mut call = |i: usize| drop(black_box(ours(i, false)));
    let batches = Batches::of(&mut call, inputs);
    for line in std::io::stdin().lines() {
        line.expect("a line");
        println!("{}", batches.time(&mut call, inputs));
    }
}

/// A bench that serves one call.
struct Served {
    child: Child,
    said: BufReader<std::process::ChildStdout>,
}

impl Served {
    fn start(bench: &str, call: &str) -> Served {
        let mut child = Command::new(bench)
            .args(["--serve", call])
            .stdin(Stdio::piped())
            .stdout(Stdio::piped())
            .spawn()
            .unwrap_or_else(|e| panic!("{bench}: {e}"));
        let said = BufReader::new(child.stdout.take().expect("its output"));
        Served { child, said }
    }

    fn time(&mut self) -> f64 {
        let mut asked = self.child.stdin.as_ref().expect("its input");
        asked.write_all(b"\n").expect("it reads");
        let mut line = String::new();
        self.said.read_line(&mut line).expect("it answers");
        line.trim()
            .parse()
            .expect("a bench that can serve answers with a time")
    }

    fn end(mut self) {
        drop(self.child.stdin.take());
        let status = self.child.wait().expect("it ends");
        assert!(status.success(), "a bench ended with {status}");
    }
}

/// The times of a call in some benches, asked in turn; who is first changes with each round.
fn timed(benches: &[&str], call: &str) -> Vec<Times> {
    let started = benches.iter().map(|bench| Served::start(bench, call));
    let mut sides: Vec<Served> = started.collect();
    let mut times = vec![Vec::new(); sides.len()];
    for round in 0..=ROUNDS {
        for k in 0..sides.len() {
            let k = (k + round) % sides.len();
            let time = sides[k].time();
            // the first round is for getting warm
            if round > 0 {
                times[k].push(time);
            }
        }
    }
    sides.into_iter().for_each(Served::end);
    times.into_iter().map(Times::of).collect()
}

/// Prints a line for each call; one that the other bench doesn't have is timed alone.
pub fn print_all(other: &str, calls: &[&str]) {
    let listed = Command::new(other)
        .arg("--count")
        .output()
        .unwrap_or_else(|e| panic!("{other}: {e}"));
    let listed = String::from_utf8(listed.stdout).expect("names");
    let own = std::env::current_exe().expect("the path of this program");
    let own = own.to_str().expect("a path of letters");
    println!("| Call | Before | Now | Now ÷ before |");
    println!("|---|---|---|---|");
    for call in calls {
        if !listed.lines().any(|name| name == *call) {
            let now = &timed(&[own], call)[0];
            println!("| `{call}` | – | {} | – |", now.shown());
            continue;
        }
        let times = timed(&[other, own], call);
        let (before, now) = (&times[0], &times[1]);
        println!(
            "| `{call}` | {} | {} | {} |",
            before.shown(),
            now.shown(),
            ratio(&now.over(before))
        );
    }
}
