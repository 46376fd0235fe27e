//! Cutting a response into runs: the lines, the bill, and each run held against a set of its slices alone.

mod common;

use common::{sample, second_plan, with_inversion, Folder};
use reference::random::{content, file_of, revised, small_content, Random};
use reference::second::elimination::rank;
use reference::second::set::{read_set, Content};

/// A line of a run, as numbers.
#[derive(Clone, Copy, Debug, PartialEq)]
struct Run {
    first: usize,
    last: usize,
    words: u64,
    bits: u64,
}

/// The number behind this word of a line.
fn behind<T: std::str::FromStr>(line: &str, word: &str) -> T {
    let (_, rest) = line.split_once(&format!("{word} ")).expect(word);
    let number = rest.split(' ').next().unwrap();
    number.parse().ok().unwrap_or_else(|| panic!("{line}"))
}

/// What is printed: the runs, numbered from 0 on, and the last line.
fn read(text: &str) -> (Vec<Run>, String) {
    let mut lines: Vec<&str> = text.lines().collect();
    let bill = lines.pop().expect("a bill").to_string();
    let run = |(i, line): (usize, &&str)| {
        let run = Run {
            first: behind(line, "slices"),
            last: behind(line, "to"),
            words: behind(line, "words"),
            bits: behind(line, "bits"),
        };
        let Run {
            first,
            last,
            words,
            bits,
        } = run;
        let whole = format!("run {i} slices {first} to {last} words {words} bits {bits}");
        assert_eq!(*line, whole);
        run
    };
    (lines.iter().enumerate().map(run).collect(), bill)
}

/// The set of these slices alone, every unknown cell free, by the second implementation's writer.
fn alone(content: &Content, first: usize, last: usize) -> Vec<u8> {
    let row = content.spread.len().div_ceil(8);
    let rows = row * first..row * (last + 1);
    file_of(&Content {
        values: content.values[rows.clone()].to_vec(),
        marks: content.marks[rows].to_vec(),
        s: (last + 1 - first) as u64,
        ties: vec![],
        ..content.clone()
    })
}

/// The words that these slices alone leave: m less the rank of their columns.
fn left(content: &Content, first: usize, last: usize) -> u64 {
    let set = read_set(&alone(content, first, last)).unwrap();
    content.m - rank(&set.columns())
}

/// The lines for a content as document 02 has it: each run the longest from its start, or nothing where some slice alone leaves too few.
fn expected(content: &Content, k: u64) -> Option<String> {
    let (m, s) = (content.m, content.s as usize);
    if (0..s).any(|slice| left(content, slice, slice) < k) {
        return None;
    }
    let (mut text, mut first, mut runs) = (String::new(), 0, 0);
    while first < s {
        let enough = |last: &usize| left(content, first, *last) >= k;
        let last = (first..s).rev().find(enough).unwrap();
        let words = left(content, first, last);
        text += &format!(
            "run {runs} slices {first} to {last} words {words} bits {}\n",
            m * k
        );
        (first, runs) = (last + 1, runs + 1);
    }
    let many = |n: u64, what: &str| format!("{n} {what}{}", if n == 1 { "" } else { "s" });
    let (runs_of, bits, words) = (many(runs, "run"), many(m, "bit"), many(k, "word"));
    let sum = many(runs * m * k, "control bit");
    Some(text + &format!("bill {runs_of} x {bits} x {words} = {sum}\n"))
}

const RUNS_FOR_2: &str = "\
run 0 slices 0 to 3 words 2 bits 8
run 1 slices 4 to 6 words 2 bits 8
run 2 slices 7 to 7 words 3 bits 8
bill 3 runs x 4 bits x 2 words = 24 control bits
";

#[test]
fn the_sample_with_several_runs() {
    let folder = Folder::new("several_runs");
    folder.put("runs.txt", sample("runs.txt"));
    folder.done(&["pack", "runs.txt", "-o", "runs.set"]);
    assert_eq!(folder.get("runs.set"), sample("runs.set"));
    for k in ["2", "0x2", "02"] {
        assert_eq!(folder.done(&["cut", "runs.set", k]), RUNS_FOR_2);
    }
    // worked on paper: five runs, each with three words left
    let (runs, bill) = read(&folder.done(&["cut", "runs.set", "3"]));
    let firsts: Vec<usize> = runs.iter().map(|run| run.first).collect();
    assert_eq!(firsts, [0, 1, 4, 5, 7]);
    assert!(runs.iter().all(|run| (run.words, run.bits) == (3, 12)));
    assert_eq!(bill, "bill 5 runs x 4 bits x 3 words = 60 control bits");
    assert_eq!(
        folder.done(&["cut", "runs.set", "1"]),
        "run 0 slices 0 to 4 words 1 bits 4\nrun 1 slices 5 to 7 words 2 bits 4\n\
         bill 2 runs x 4 bits x 1 word = 8 control bits\n"
    );
}

/// Each run cut out of the text by hand, and planned.
#[test]
fn planned_alone_each_run_has_the_words_counted() {
    let folder = Folder::new("runs_alone");
    folder.put("runs.set", sample("runs.set"));
    let text = folder.done(&["show", "runs.set"]);
    let (head, cells) = text.split_once("slices 8\n").unwrap();
    let cells: Vec<&str> = cells.lines().collect();
    let mut planned = 0;
    for k in ["1", "2", "3"] {
        let (runs, _) = read(&folder.done(&["cut", "runs.set", k]));
        for Run {
            first, last, words, ..
        } in runs
        {
            let (rows, many) = (cells[first..=last].join("\n"), last + 1 - first);
            folder.put("run.txt", format!("{head}slices {many}\n{rows}\n"));
            folder.done(&["pack", "run.txt", "-o", "run.set"]);
            let plan = folder.done(&["plan", "run.set", "-o", "run.plan"]);
            let end = format!("\nend {words}\n");
            assert!(plan.ends_with(&end), "k {k}, from {first}: {plan}");
            let table = folder.done(&["words", "run.plan"]);
            assert!(table.starts_with(&format!("m 4, q {words}; ")), "{table}");
            planned += 1;
        }
    }
    assert_eq!(planned, 10);
}

#[test]
fn standard_input_and_an_output_file() {
    let folder = Folder::new("cut_files");
    folder.put("runs.set", sample("runs.set"));
    let ran = folder.run_with(&["cut", "-", "2"], &sample("runs.set"));
    assert_eq!((ran.status, ran.text()), (0, RUNS_FOR_2));
    assert_eq!(
        folder.done(&["cut", "runs.set", "2", "-o", "-"]),
        RUNS_FOR_2
    );
    for words in [
        &["cut", "runs.set", "2", "-o", "bill.txt"][..],
        &["cut", "-o=bill.txt", "runs.set", "2"],
    ] {
        folder.put("bill.txt", "old");
        assert_eq!(folder.done(words), "");
        assert_eq!(folder.text("bill.txt"), RUNS_FOR_2);
    }
}

#[test]
fn a_set_without_slices_has_no_runs() {
    let folder = Folder::new("no_runs");
    for (name, k, bill) in [
        (
            "slices-0",
            "3",
            "bill 0 runs x 3 bits x 3 words = 0 control bits\n",
        ),
        (
            "width-1",
            "1",
            "bill 0 runs x 1 bit x 1 word = 0 control bits\n",
        ),
        (
            "width-64",
            "64",
            "bill 0 runs x 64 bits x 64 words = 0 control bits\n",
        ),
    ] {
        folder.put("a.set", sample(&format!("{name}.set")));
        assert_eq!(folder.done(&["cut", "a.set", k]), bill, "{name}");
    }
}

#[test]
fn one_bit_of_one_word_of_one_run() {
    let folder = Folder::new("one_bit");
    folder.put(
        "a.txt",
        "width 1\ntaps 1\nchains 1\nspread 0 1\nslices 1\n1\n",
    );
    folder.done(&["pack", "a.txt", "-o", "a.set"]);
    assert_eq!(
        folder.done(&["cut", "a.set", "1"]),
        "run 0 slices 0 to 0 words 1 bits 1\nbill 1 run x 1 bit x 1 word = 1 control bit\n"
    );
}

/// The rank decides and not how many cells are unknown: all of 131,072 are, and one run takes them.
#[test]
fn as_many_unknown_cells_as_there_can_be_in_one_run() {
    let folder = Folder::new("one_run");
    folder.put("a.set", sample("unknowns-131072.set"));
    assert_eq!(
        folder.done(&["cut", "a.set", "2"]),
        "run 0 slices 0 to 511 words 2 bits 6\nbill 1 run x 3 bits x 2 words = 6 control bits\n"
    );
}

/// 512 slices, each of them a run.
#[test]
fn as_many_runs_as_there_can_be() {
    let folder = Folder::new("most_runs");
    let text = "width 64\ntaps 27\nchains 1\nspread 0 1\nslices 512\n";
    folder.put("a.txt", format!("{text}{}", "X\n".repeat(512)));
    folder.done(&["pack", "a.txt", "-o", "a.set"]);
    let (runs, bill) = read(&folder.done(&["cut", "a.set", "63"]));
    assert_eq!(runs.len(), 512);
    for (i, run) in runs.iter().enumerate() {
        assert_eq!((run.first, run.last, run.words), (i, i, 63));
    }
    assert_eq!(
        bill,
        "bill 512 runs x 64 bits x 63 words = 2064384 control bits"
    );
}

/// The refusal for this k: nothing is printed, and an output file stays as it was.
fn refused(folder: &Folder, k: &str, number: u64, why: &str) {
    folder.put("bill.txt", "old");
    for words in [
        &["cut", "a.set", k][..],
        &["cut", "a.set", k, "-o", "bill.txt"],
        &["draw", "a.set", "--cut", k, "-o", "bill.txt"],
    ] {
        let ran = folder.run(words);
        let said = format!(
            "canceller: a.set: refused {number}: {why}\ncanceller: for what to do: canceller explain {number}\n"
        );
        assert_eq!((ran.status, ran.err), (2, said), "{words:?}");
        assert_eq!(ran.out, b"", "{words:?}");
        assert_eq!(folder.text("bill.txt"), "old", "{words:?}");
    }
}

#[test]
fn a_k_that_is_not_1_to_m() {
    let folder = Folder::new("bad_k");
    // without slices too, and before 27
    for (name, above) in [("slices-0", "4"), ("no-words", "2"), ("runs", "5")] {
        folder.put("a.set", sample(&format!("{name}.set")));
        for k in ["0", "0x0", above, "18446744073709551615"] {
            refused(&folder, k, 26, "k isn't 1 to m");
        }
    }
}

#[test]
fn a_slice_that_alone_leaves_fewer() {
    let folder = Folder::new("slice_leaves_fewer");
    let why = "a slice alone leaves fewer than k words";
    folder.put("a.set", sample("runs.set"));
    refused(&folder, "4", 27, why);
    folder.put("a.set", sample("no-words.set"));
    refused(&folder, "1", 27, why);
    // the first slice, one in the middle and the last one
    let text = "width 3\ntaps 3\nchains 2\nspread 0 1\nspread 1 4\nslices 3\n";
    for rows in ["XX\n00\n00\n", "00\nXX\n00\n", "00\n00\nXX\n"] {
        folder.put("a.txt", format!("{text}{rows}"));
        folder.done(&["pack", "a.txt", "-o", "a.set"]);
        refused(&folder, "2", 27, why);
        let (runs, _) = read(&folder.done(&["cut", "a.set", "1"]));
        assert_eq!(runs.len(), 1, "{rows}");
    }
}

#[test]
fn runs_of_random_sets_by_the_second_implementation() {
    let folder = Folder::new("random_runs");
    let (mut cut, mut several, mut fewer) = (0, 0, 0);
    for seed in 0..60 {
        let mut r = Random::new(seed);
        let content = match seed % 3 {
            0 => small_content(&mut r, 64, 12, 6),
            1 => content(&mut r, 5, 4, 14, 1, 6),
            _ => content(&mut r, 9, 20, 16, 1, 16),
        };
        folder.put("a.set", file_of(&content));
        for k in [1, 1 + r.below(content.m as usize) as u64] {
            let ran = folder.run(&["cut", "a.set", &k.to_string()]);
            let Some(lines) = expected(&content, k) else {
                assert_eq!((ran.status, ran.text()), (2, ""), "seed {seed}, k {k}");
                assert!(ran.err.contains(": refused 27: "), "{}", ran.err);
                fewer += 1;
                continue;
            };
            assert_eq!((ran.status, ran.err.as_str()), (0, ""), "seed {seed}");
            assert_eq!(ran.text(), lines, "seed {seed}, k {k}");
            let (runs, bill) = read(ran.text());
            let sum: u64 = runs.iter().map(|run| run.bits).sum();
            assert_eq!(behind::<u64>(&bill, "="), sum, "seed {seed}");
            // the runs are the slices, each in one of them
            let slices: Vec<usize> = runs.iter().flat_map(|run| run.first..=run.last).collect();
            assert!(slices.into_iter().eq(0..content.s as usize));
            for run in &runs {
                let planned = second_plan(&alone(&content, run.first, run.last)).unwrap();
                assert_eq!(planned.words.len() as u64, run.words, "seed {seed}");
                assert!(run.words >= k, "seed {seed}");
            }
            cut += 1;
            several += usize::from(runs.len() > 1);
        }
    }
    assert!(
        cut >= 60 && several >= 20 && fewer >= 10,
        "too few: {cut} cut, {several} of them into several runs, {fewer} with a slice that leaves fewer"
    );
}

#[test]
fn values_and_the_inversion_word_change_no_run() {
    let folder = Folder::new("values_of_runs");
    let mut changed = 0;
    for seed in 0..20 {
        let mut r = Random::new(seed);
        let before = content(&mut r, 6, 5, 12, 1, 8);
        let file = file_of(&before);
        let other = with_inversion(&file_of(&revised(&mut r, &before)), r.some_within(6));
        changed += usize::from(other != file);
        folder.put("a.set", file);
        folder.put("b.set", other);
        for k in ["1", "3", "5"] {
            let (a, b) = (
                folder.run(&["cut", "a.set", k]),
                folder.run(&["cut", "b.set", k]),
            );
            assert_eq!((a.status, a.text()), (b.status, b.text()), "seed {seed}");
        }
    }
    assert!(changed >= 15, "{changed} sets with other values");
}
