//! How many rows a second `canceller judge --csv` judges, and what of the time is the library's: `make bench-csv`.
//!
//! A file of random signatures is judged by a plan of 63 words, m 64, to /dev/null and to a file; then the same signatures are judged
//! by the library's call alone, in this program. Each is done some times over and the best is printed, with the processor time
//! beside the time by the clock, since neighbours on a machine disturb the second more.
//!
//!     bench_csv COMMAND FOLDER [ROWS] [TIMES]

#[path = "../../examples/canceller.rs"]
mod canceller;

use canceller::Plan;
use std::fs::File;
use std::hint::black_box;
use std::io::{BufWriter, Write};
use std::path::Path;
use std::process::{Command, Stdio};
use std::time::{Duration, Instant};

/// xorshift64*
struct Random(u64);

impl Random {
    fn word(&mut self) -> u64 {
        self.0 ^= self.0 >> 12;
        self.0 ^= self.0 << 25;
        self.0 ^= self.0 >> 27;
        self.0.wrapping_mul(0x2545_F491_4F6C_DD1D)
    }
}

/// A plan of 63 words: bit 0 alone is left out, and every other bit is XORed with it or not.
fn plan() -> Vec<u8> {
    let mut r = Random(7);
    let words = (1..64).map(|bit| 1 << bit | r.word() & 1).collect();
    let expected = r.word() >> 1;
    let plan = Plan {
        m: 64,
        words,
        expected,
    };
    canceller::write_plan(&plan).expect("a reduced list")
}

/// Writes rows of a lot, a place and a signature, and hands the signatures back. One in four passes, so that fails at every
/// word and passes are among them.
fn write_rows(path: &Path, rows: usize, plan: &[u8]) -> std::io::Result<Vec<u64>> {
    let mut r = Random(11);
    let good = passing(plan);
    let mut out = BufWriter::new(File::create(path)?);
    writeln!(out, "lot,x,y,signature")?;
    let mut all = Vec::with_capacity(rows);
    for i in 0..rows {
        let mixed = r.word();
        // a random bit changed in three of four
        let signature = match mixed & 3 {
            0 => good,
            _ => good ^ 1 << (1 + (mixed >> 8) % 63),
        };
        let (x, y) = ((mixed >> 20) as i64 % 50, (mixed >> 40) as i64 % 50);
        writeln!(out, "L{},{x},{y},{signature}", i % 100)?;
        all.push(signature);
    }
    out.flush()?;
    Ok(all)
}

/// A signature that the plan passes: bit by bit, where the expected bit is 1.
fn passing(plan: &[u8]) -> u64 {
    let read = canceller::read_plan(plan).expect("a plan");
    let top = |i: usize| 63 - read.words[i].leading_zeros();
    let wanted = (0..read.words.len()).filter(|i| read.expected >> i & 1 == 1);
    wanted.fold(0, |signature, i| signature | 1 << top(i))
}

/// The processor time of this process, or of its children, so far.
fn processor_time(children: bool) -> Duration {
    let stat = std::fs::read_to_string("/proc/self/stat").expect("/proc/self/stat");
    let (_, fields) = stat.rsplit_once(") ").expect("a name in brackets");
    let ticks = |i: usize| -> u64 { fields.split(' ').nth(i).unwrap().parse().unwrap() };
    let first = if children { 13 } else { 11 };
    Duration::from_millis(10 * (ticks(first) + ticks(first + 1)))
}

/// The best of some times: by the clock and by processor time.
fn best(times: usize, children: bool, mut run: impl FnMut()) -> (Duration, Duration) {
    let mut all = (Duration::MAX, Duration::MAX);
    for _ in 0..times {
        let (clock, processor) = (Instant::now(), processor_time(children));
        run();
        all.0 = all.0.min(clock.elapsed());
        all.1 = all.1.min(processor_time(children) - processor);
    }
    all
}

fn main() {
    let words: Vec<String> = std::env::args().skip(1).collect();
    let number =
        |i: usize, usual: usize| words.get(i).map_or(usual, |w| w.parse().expect("a number"));
    let (rows, times) = (number(2, 10_000_000), number(3, 3));
    let folder = Path::new(&words[1]);
    let (plan_path, rows_path, out_path) = (
        folder.join("bench.plan"),
        folder.join("bench.csv"),
        folder.join("judged.csv"),
    );
    let plan = plan();
    std::fs::write(&plan_path, &plan).expect("the plan is written");
    let signatures = write_rows(&rows_path, rows, &plan).expect("the rows are written");

    println!(
        "| {rows} rows, best of {times} | Rows a second | Of processor time | Nanoseconds a row |"
    );
    println!("|---|---|---|---|");
    let print = |what: &str, (clock, processor): (Duration, Duration)| {
        let a_second = |d: Duration| format!("{:.2} million", rows as f64 / d.as_secs_f64() / 1e6);
        println!(
            "| {what} | {} | {} | {:.0} |",
            a_second(clock),
            a_second(processor),
            processor.as_nanos() as f64 / rows as f64
        );
    };
    for (what, out) in [
        ("to /dev/null", Path::new("/dev/null")),
        ("to a file", &out_path),
    ] {
        let taken = best(times, true, || {
            let status = Command::new(&words[0])
                .arg("judge")
                .arg(&plan_path)
                .arg("--csv")
                .arg(&rows_path)
                .arg("-o")
                .arg(out)
                .stderr(Stdio::null())
                .status()
                .expect("the command starts");
            assert_eq!(status.code(), Some(1), "some of the rows fail");
        });
        print(what, taken);
    }
    let library = best(times, false, || {
        for &signature in &signatures {
            black_box(canceller::judge(&plan, black_box(signature)).is_ok());
        }
    });
    print("the library's call alone", library);
    for path in [&plan_path, &rows_path, &out_path] {
        std::fs::remove_file(path).ok();
    }
}
