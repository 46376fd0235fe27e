//! The plan printer over standard input: the stored samples, random and damaged sets, small pieces through a pipe, a standard
//! output that nobody reads, and an input that can't be read.

use reference::random::*;
use reference::repository::{repository, sample};
use reference::second::planning::printed;
use reference::second::set::Content;
use std::fs::File;
use std::io::Write;
use std::path::PathBuf;
use std::process::{Child, Command, Output, Stdio};
use std::time::{Duration, Instant};

fn printer() -> PathBuf {
    let path = repository().join("target/bin/plan_printer");
    assert!(
        path.exists(),
        "{} is missing: run `make run` first",
        path.display()
    );
    path
}

fn started(mut command: Command) -> Child {
    command
        .stdin(Stdio::piped())
        .stdout(Stdio::piped())
        .stderr(Stdio::piped())
        .spawn()
        .expect("the printer starts")
}

/// The printer as a shell command starts it: `$0` is its path.
fn shell(line: &str) -> Child {
    let mut command = Command::new("sh");
    command.arg("-c").arg(line).arg(printer());
    started(command)
}

/// Waits for the end, which must come.
fn ended(mut child: Child) -> Output {
    let end = Instant::now() + Duration::from_secs(20);
    while child
        .try_wait()
        .expect("the printer can be waited for")
        .is_none()
    {
        if Instant::now() > end {
            child.kill().ok();
            panic!("the printer does not end");
        }
        std::thread::sleep(Duration::from_millis(1));
    }
    child.wait_with_output().expect("the printer's output")
}

/// What the printer writes for this input, handed over in pieces of `piece` bytes.
fn prints(input: &[u8], piece: usize) -> String {
    let mut child = started(Command::new(printer()));
    let mut stdin = child.stdin.take().unwrap();
    for part in input.chunks(piece) {
        // the printer stops reading where an input is longer than any set
        if stdin.write_all(part).is_err() {
            break;
        }
        if piece < 100 {
            stdin.flush().ok();
            std::thread::sleep(Duration::from_micros(200));
        }
    }
    drop(stdin);
    let output = ended(child);
    assert!(
        output.stderr.is_empty(),
        "{}",
        String::from_utf8_lossy(&output.stderr)
    );
    String::from_utf8(output.stdout).expect("text")
}

#[test]
fn the_stored_samples() {
    let mut count = 0;
    for entry in std::fs::read_dir(repository().join("samples")).unwrap() {
        let text = entry.unwrap().path();
        let Some(name) = text.to_str().and_then(|n| n.strip_suffix(".plan.txt")) else {
            continue;
        };
        let set =
            std::fs::read(format!("{name}.set")).unwrap_or_else(|e| panic!("{name}.set: {e}"));
        let stored = std::fs::read_to_string(&text).unwrap();
        assert_eq!(printed(&set), stored, "{name}: the second implementation");
        assert_eq!(prints(&set, 1 << 20), stored, "{name}: the printer");
        count += 1;
    }
    assert!(count >= 36, "{count} stored samples are too few");
}

#[test]
fn the_sample_writes_document_01s_four_lines() {
    let set = sample("sample.set");
    assert_eq!(
        prints(&set, 1 << 20),
        "set 3 2 2 1\nword 0 3 0\nword 1 4 0\nend 2\n"
    );
}

#[test]
fn more_unknown_cells_than_the_printer_lends_places() {
    // every column is 7, as in the elimination of 512 columns that document 01 works on paper
    assert_eq!(
        prints(&sample("unknowns-4097.set"), 1 << 20),
        "set 3 256 17 4097\nword 0 3 0\nword 1 5 0\nend 2\n"
    );
    let mut r = Random::new(7);
    let set = file_of(&content_of_rank(&mut r, (64, 256, 512), 63, 131_072));
    let text = prints(&set, 1 << 20);
    assert!(
        text.starts_with("set 64 256 512 131072\n") && text.ends_with("end 1\n"),
        "{text}"
    );
    assert_eq!(text, printed(&set));
}

#[test]
fn random_sets() {
    for seed in 200_000..200_150 {
        let mut r = Random::new(seed);
        let c = small_content(&mut r, 64, 40, 30);
        assert_eq!(
            prints(&file_of(&c), 1 << 20),
            printed(&file_of(&c)),
            "seed {seed}"
        );
    }
}

#[test]
fn damaged_sets() {
    for seed in 210_000..210_150 {
        let mut r = Random::new(seed);
        let mut file = file_of(&small_content(&mut r, 64, 12, 5));
        for _ in 0..1 + r.below(3) {
            let at = r.below(file.len());
            match r.below(3) {
                0 => file[at] ^= 1 << r.below(8),
                1 => file.truncate(at + 1),
                _ => file.insert(at, r.word() as u8),
            }
        }
        assert_eq!(prints(&file, 1 << 20), printed(&file), "seed {seed}");
    }
}

#[test]
fn inputs_around_the_longest_set() {
    let mut r = Random::new(5);
    let free = content(&mut r, 64, 256, 512, 1, 400);
    let ties = some_ties(&mut r, &free, 256, &[3, 9, 65_535], &[0, 1]);
    let longest = file_of(&Content { ties, ..free });
    assert_eq!(longest.len(), 36_632);
    for length in [
        34_840, 36_630, 36_631, 36_632, 36_633, 36_634, 36_639, 100_000,
    ] {
        let mut input = longest.clone();
        input.resize(length, 0);
        assert_eq!(prints(&input, 1 << 20), printed(&input), "{length} bytes");
        // an earlier number still comes first
        input[0] = 65;
        assert_eq!(
            prints(&input, 1 << 20),
            "refused 2\n",
            "{length} bytes with m 65"
        );
    }
}

#[test]
fn small_pieces_through_a_pipe() {
    let mut r = Random::new(6);
    let small = file_of(&content(&mut r, 20, 9, 7, 1, 9));
    assert_eq!(prints(&small, 1), printed(&small));
    let large = file_of(&content(&mut r, 64, 256, 512, 1, 2000));
    assert_eq!(prints(&large, 97), printed(&large));
    assert_eq!(prints(&large, 4096), printed(&large));
}

/// A standard output that can't be written: the printer says so and ends by itself.
fn tells_of_its_output(output: &Output) {
    let message = String::from_utf8_lossy(&output.stderr);
    assert_eq!(
        message, "plan_printer: writing standard output failed\n",
        "{:?}",
        output.status
    );
    assert!(output.status.code().is_some(), "{:?}", output.status);
}

#[test]
fn a_pipe_that_nobody_reads() {
    let set = sample("sample.set");
    // the write fails where the signal is ignored
    let mut child = shell("trap '' PIPE; exec \"$0\"");
    drop(child.stdout.take());
    child.stdin.take().unwrap().write_all(&set).unwrap();
    tells_of_its_output(&ended(child));
    // and where it is not: the printer's own runtime ignores it
    let mut child = started(Command::new(printer()));
    drop(child.stdout.take());
    child.stdin.take().unwrap().write_all(&set).unwrap();
    tells_of_its_output(&ended(child));
}

#[test]
fn a_standard_output_closed_from_the_start() {
    let mut child = shell("exec \"$0\" >&-");
    let set = sample("sample.set");
    child.stdin.take().unwrap().write_all(&set).unwrap();
    tells_of_its_output(&ended(child));
}

#[test]
fn an_input_that_cannot_be_read() {
    // a folder can be opened, and reading it fails
    let child = Command::new(printer())
        .stdin(Stdio::from(File::open(repository()).unwrap()))
        .stdout(Stdio::piped())
        .stderr(Stdio::piped())
        .spawn()
        .unwrap();
    let output = ended(child);
    assert!(output.stdout.is_empty(), "no plan is written");
    assert!(output.status.code().is_some(), "{:?}", output.status);
    assert_eq!(
        String::from_utf8_lossy(&output.stderr),
        "plan_printer: reading standard input failed\n"
    );
}
