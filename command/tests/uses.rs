//! Every use on the sample against what is stored, the plans of all samples, every refusal number, and what is wrong usage.

mod common;

use common::{sample, second_plan, stored, with_inversion, Folder};
use reference::random::{content_of_rank, file_of, tie, unknown_cells, Random};
use reference::repository::{repository, text};
use reference::second::plan::{judge, write_plan};
use reference::second::planning::printed;
use reference::second::set::{Content, Set};
use std::process::Command;

/// A folder with the sample: its text, its set, its plan and its records.
fn with_sample(name: &str) -> Folder {
    let folder = Folder::new(name);
    folder.put("sample.txt", sample("sample.txt"));
    for unknown in ["0", "1"] {
        let record = format!("sample-unknown-{unknown}.record");
        folder.put(&record, sample(&record));
    }
    folder.done(&["pack", "sample.txt", "-o", "sample.set"]);
    folder.done(&["plan", "sample.set", "-o", "sample.plan"]);
    folder
}

#[test]
fn every_use_on_the_sample() {
    let folder = with_sample("every_use");
    assert_eq!(folder.get("sample.set"), sample("sample.set"));
    let second = second_plan(&sample("sample.set")).unwrap();
    assert_eq!(folder.get("sample.plan"), write_plan(&second, 526).unwrap());
    let prints: [(&[&str], &str); 24] = [
        (&["show", "sample.set"], "show.txt"),
        (&["plan", "sample.set"], "plan.txt"),
        (&["words", "sample.plan"], "words.txt"),
        (&["cut", "sample.set", "2"], "cut.txt"),
        (&["columns", "sample.set"], "columns.txt"),
        (&["draw", "sample.set"], "draw.svg"),
        (&["explain", "17"], "explain-17.txt"),
        (&["explain", "25"], "explain-25.txt"),
        (&["explain", "27"], "explain-27.txt"),
        (&["explain", "29"], "explain-29.txt"),
        (&["help", "columns"], "help-columns.txt"),
        (&["help", "explain"], "help-explain.txt"),
        (&["--help"], "help.txt"),
        (&["help"], "help.txt"),
        (&["-h"], "help.txt"),
        (&["help", "judge"], "help-judge.txt"),
        (&["judge", "--help"], "help-judge.txt"),
        (&["help", "pack"], "help-pack.txt"),
        (&["help", "expect"], "help-expect.txt"),
        (&["expect", "-h"], "help-expect.txt"),
        (&["help", "cut"], "help-cut.txt"),
        (&["cut", "--help"], "help-cut.txt"),
        (&["help", "draw"], "help-draw.txt"),
        (&["draw", "-h"], "help-draw.txt"),
    ];
    for (words, name) in prints {
        assert_eq!(folder.done(words), stored(name), "{words:?}");
    }
    for (record, signature) in [
        ("sample-unknown-0.record", "3\n"),
        ("sample-unknown-1.record", "0\n"),
    ] {
        assert_eq!(folder.done(&["sign", "sample.set", record]), signature);
    }
    let judged = folder.run(&["judge", "sample.plan", "3", "0x0", "1", "7"]);
    assert_eq!(judged.text(), stored("judge.txt"));
    assert_eq!((judged.status, judged.err.as_str()), (1, ""));
    assert_eq!(folder.run(&["judge", "sample.plan", "3", "0"]).status, 0);
}

#[test]
fn standard_input_and_output() {
    let folder = with_sample("standard");
    let set = folder.run_with(&["pack", "-", "-o", "-"], &sample("sample.txt"));
    assert_eq!(set.out, sample("sample.set"));
    let plan = folder.run_with(&["plan", "-", "-o", "-"], &set.out);
    assert_eq!(plan.out, folder.get("sample.plan"));
    let words = folder.run_with(&["words", "-"], &plan.out);
    assert_eq!(words.text(), stored("words.txt"));
    let judged = folder.run_with(&["judge", "-", "7"], &plan.out);
    assert_eq!(
        (judged.status, judged.text()),
        (1, "7: fails at word 1, cancelled bits 01\n")
    );
    let record = sample("sample-unknown-1.record");
    let signed = folder.run_with(&["sign", "sample.set", "-"], &record);
    assert_eq!(signed.text(), "0\n");
}

#[test]
fn the_plans_of_all_samples() {
    let folder = Folder::new("all_plans");
    let mut count = 0;
    for entry in std::fs::read_dir(repository().join("samples")).unwrap() {
        let file = entry.unwrap().file_name().into_string().unwrap();
        let Some(name) = file.strip_suffix(".plan.txt") else {
            continue;
        };
        let set = sample(&format!("{name}.set"));
        folder.put("a.set", &set);
        let ran = folder.run(&["plan", "a.set", "-o", "a.plan"]);
        assert_eq!(ran.text(), text(&format!("samples/{file}")), "{name}");
        match second_plan(&set) {
            Ok(second) => {
                assert_eq!((ran.status, ran.err.as_str()), (0, ""), "{name}");
                assert_eq!(folder.get("a.plan"), write_plan(&second, 526).unwrap());
                std::fs::remove_file(folder.0.join("a.plan")).unwrap();
            }
            Err(number) => {
                assert_eq!(ran.status, 2, "{name}");
                let message = format!("canceller: a.set: refused {number}: ");
                assert!(ran.err.starts_with(&message), "{}", ran.err);
                assert_eq!(folder.names(), ["a.set"], "{name}: no plan is written");
            }
        }
        count += 1;
    }
    assert_eq!(count, 38, "stored samples");
}

/// The command lends planning 320 working places and the plan printer lends 4,096: that changes nothing, however many cells are unknown.
#[test]
fn the_command_and_the_plan_printer_print_the_same() {
    let folder = Folder::new("printer");
    let printer = repository().join("target/bin/plan_printer");
    let of_printer = |set: &str| {
        let input = std::fs::File::open(folder.0.join(set)).unwrap();
        let ran = Command::new(&printer).stdin(input).output();
        let ran = ran.unwrap_or_else(|e| panic!("{}: {e}", printer.display()));
        String::from_utf8(ran.stdout).unwrap()
    };
    for (name, end) in [
        ("sample", "end 2\n"),
        ("unknowns-4096", "end 2\n"),
        ("unknowns-4097", "end 2\n"),
        ("unknowns-131072", "end 2\n"),
        ("largest", "end 24\n"),
        ("ties", "end 2\n"),
        ("ties-256", "end 24\n"),
        ("ties-equal", "refused 30\n"),
        ("no-words", "refused 17\n"),
        ("valued-unknown", "refused 10\n"),
    ] {
        folder.put("a.set", sample(&format!("{name}.set")));
        let ran = folder.run(&["plan", "a.set"]);
        assert_eq!(ran.text(), of_printer("a.set"), "{name}");
        assert!(ran.text().ends_with(end), "{name}: {}", ran.text());
    }
}

/// All of the 131,072 cells are unknown: where their columns have rank 63 there is one word, and where they have rank 64 none.
#[test]
fn as_many_unknown_cells_as_there_can_be() {
    let folder = Folder::new("most_unknowns");
    let mut r = Random::new(131_072);
    let all_unknown =
        |r: &mut Random, rank: usize| file_of(&content_of_rank(r, (64, 256, 512), rank, 131_072));
    folder.put("a.set", all_unknown(&mut r, 63));
    let lines = folder.done(&["plan", "a.set", "-o", "a.plan"]);
    let second = second_plan(&folder.get("a.set")).unwrap();
    let (word, expected) = (second.words[0], second.expected);
    assert_eq!(
        lines,
        format!("set 64 256 512 131072\nword 0 {word} {expected}\nend 1\n")
    );
    assert_eq!(folder.get("a.plan"), write_plan(&second, 526).unwrap());
    assert_eq!(
        folder.done(&["expect", "a.plan", "a.set"]),
        "changed 0 of 1\n"
    );
    folder.put("none.set", all_unknown(&mut r, 64));
    let ran = folder.run(&["plan", "none.set"]);
    assert_eq!((ran.status, ran.text()), (2, "refused 17\n"));
    let ran = folder.run(&["expect", "a.plan", "none.set"]);
    assert_eq!((ran.status, ran.text()), (2, ""));
    assert!(ran.err.contains("none.set: refused 17: "), "{}", ran.err);
}

/// The sample with these bytes from this place on.
fn changed_sample(at: usize, bytes: &[u8]) -> Vec<u8> {
    let mut set = sample("sample.set");
    set[at..at + bytes.len()].copy_from_slice(bytes);
    set
}

/// The numbers 1 to 10, 12, 13, 17, 19 to 23, 25 to 27 and 29 to 31, each by a use that meets it, and those of a set by every use that reads one.
/// The command lends room enough that 14, 18, 24 and 28 can't come up, asks for no slice that isn't there (11), and hands no columns
/// over (15).
#[test]
fn every_refusal_number() {
    let folder = with_sample("refusals");
    let good_set = sample("sample.set");
    let named = |name: &str| sample(&format!("{name}.set"));
    let bad_sets = [
        (named("empty"), 1),
        (good_set[..17].to_vec(), 1),
        (named("width-0"), 2),
        (named("width-65"), 2),
        (named("taps-9"), 3),
        (with_inversion(&good_set, 8), 25),
        (with_inversion(&good_set, 1 << 63), 25),
        (named("chains-257"), 4),
        (good_set[..18].to_vec(), 4),
        (named("spread-short"), 5),
        (named("spread-0"), 6),
        (named("slices-513"), 7),
        (named("rows-short"), 8),
        (named("too-long"), 8),
        (named("ties-absent"), 8),
        (named("ties-257"), 8),
        (named("too-long-width-0"), 2),
        (named("spare-bit"), 9),
        (named("valued-unknown"), 10),
        (named("tie-known"), 29),
        (named("tie-absent"), 29),
        (named("ties-equal"), 30),
        (named("tie-byte-2"), 31),
    ];
    let mut met = Vec::new();
    let mut refused = |words: &[&str], about: &str, number: u64| {
        let ran = folder.run(words);
        let why = row_of_readme(number).0;
        let message = format!(
            "canceller: {about}: refused {number}: {why}\ncanceller: for what to do: canceller explain {number}\n"
        );
        assert_eq!((ran.status, ran.err), (2, message), "{words:?}");
        let line = format!("refused {number}\n");
        let printed = match words[0] {
            "plan" => line,
            "judge" if number == 23 => format!("{}: {line}", words[2]),
            _ => String::new(),
        };
        assert_eq!(String::from_utf8(ran.out).unwrap(), printed, "{words:?}");
        met.push(number);
    };
    for (set, number) in bad_sets {
        folder.put("bad.set", set);
        refused(&["plan", "bad.set"], "bad.set", number);
        refused(&["expect", "sample.plan", "bad.set"], "bad.set", number);
        refused(
            &["sign", "bad.set", "sample-unknown-0.record"],
            "bad.set",
            number,
        );
        refused(&["show", "bad.set"], "bad.set", number);
        refused(&["columns", "bad.set"], "bad.set", number);
        refused(&["draw", "bad.set"], "bad.set", number);
        // the set's numbers come before 26
        refused(&["draw", "bad.set", "--cut", "0"], "bad.set", number);
        refused(&["cut", "bad.set", "0"], "bad.set", number);
    }
    for (k, number) in [("0", 26), ("4", 26), ("3", 27)] {
        refused(&["cut", "sample.set", k], "sample.set", number);
        refused(&["draw", "sample.set", "--cut", k], "sample.set", number);
    }
    for (record, number) in [(&[1u8][..], 12), (&[1, 1, 1], 12), (&[4, 0], 13)] {
        folder.put("bad.record", record);
        refused(&["sign", "sample.set", "bad.record"], "bad.record", number);
    }
    refused(&["sign", "sample.set", "/dev/zero"], "/dev/zero", 12);
    folder.put("bad.set", sample("no-words.set"));
    refused(&["plan", "bad.set"], "bad.set", 17);
    let good = folder.get("sample.plan");
    let changed = |at: usize, byte: u8| {
        let mut plan = good.clone();
        plan[at] = byte;
        plan
    };
    let bad_plans = [
        (vec![3], 19),
        (changed(0, 65), 19),
        (changed(2, 4), 20),
        (good[..19].to_vec(), 20),
        (changed(4, 4), 21),
        (changed(20, 3), 22),
        (changed(22, 4), 22),
        ([&good[..], &[0]].concat(), 22),
    ];
    for (plan, number) in bad_plans {
        assert_eq!(judge(&plan, 0), Err(number));
        folder.put("bad.plan", plan);
        refused(&["judge", "bad.plan", "0"], "bad.plan", number);
        refused(
            &["judge", "bad.plan", "--csv", "none.csv"],
            "bad.plan",
            number,
        );
        refused(&["words", "bad.plan"], "bad.plan", number);
        refused(&["expect", "bad.plan", "none.set"], "bad.plan", number);
    }
    refused(&["judge", "sample.plan", "8"], "signature 8", 23);
    met.sort_unstable();
    met.dedup();
    let of_sets = (1..=10).chain([12, 13, 17]);
    let met_by_a_use = of_sets.chain(19..=23).chain(25..=27).chain(29..=31);
    assert_eq!(met, met_by_a_use.collect::<Vec<u64>>());
}

#[test]
fn a_bad_inversion_word_comes_after_the_taps_and_before_the_chains() {
    let folder = with_sample("order_of_25");
    let bad = with_inversion(&sample("sample.set"), 8);
    let beside = |at: usize, bytes: &[u8]| {
        let mut set = bad.clone();
        set[at..at + bytes.len()].copy_from_slice(bytes);
        set
    };
    for (set, number) in [
        (bad[..17].to_vec(), 1),
        (beside(0, &[65, 0]), 2),
        (beside(2, &[2]), 3),
        (bad.clone(), 25),
        (bad[..18].to_vec(), 25),
        (beside(18, &[0, 0]), 25),
        (beside(18, &[1, 1]), 25),
        (beside(20, &[0]), 25),
        ([&bad[..], &[0]].concat(), 25),
        (changed_sample(18, &[0, 0]), 4),
    ] {
        folder.put("a.set", &set);
        let ran = folder.run(&["plan", "a.set"]);
        let line = format!("refused {number}\n");
        assert_eq!((ran.status, ran.text()), (2, line.as_str()), "{set:?}");
    }
    // a register of 64 bits has every bit of the word
    folder.put("a.set", with_inversion(&sample("width-64.set"), u64::MAX));
    assert_eq!(
        folder.done(&["plan", "a.set"]),
        text("samples/width-64.plan.txt"),
        "no slice, no clock: the signature is 0"
    );
}

/// Files of version 1 had no inversion word: n stood there, and the spread words.
#[test]
fn a_set_of_version_1_is_refused_and_explain_says_what_to_do() {
    let folder = Folder::new("version_1");
    let set = sample("sample.set");
    folder.put("old.set", [&set[..10], &set[18..]].concat());
    let ran = folder.run(&["plan", "old.set"]);
    assert_eq!((ran.status, ran.text()), (2, "refused 25\n"));
    let told = folder.done(&["explain", "25"]);
    assert!(told.contains("version 1"), "{told}");
}

/// Files of versions 2 and 3 had no count of ties.
#[test]
fn a_set_of_version_3_is_refused_and_explain_says_what_to_do() {
    let folder = Folder::new("version_3");
    let set = sample("sample.set");
    folder.put("old.set", &set[..set.len() - 2]);
    let ran = folder.run(&["plan", "old.set"]);
    assert_eq!((ran.status, ran.text()), (2, "refused 8\n"));
    let told = folder.done(&["explain", "8"]);
    assert!(told.contains("version 2 or 3"), "{told}");
}

#[test]
fn an_inversion_word_changes_signatures_expected_bits_and_verdicts_and_no_word_or_column() {
    let folder = with_sample("inversion");
    let columns = folder.done(&["columns", "sample.set"]);
    // worked on paper: 5 becomes 1 by a clock of its own, and 1 ⊕ 5 = 4 is in every signature
    folder.put("sample.set", with_inversion(&sample("sample.set"), 5));
    assert_eq!(
        folder.done(&["plan", "sample.set", "-o", "sample.plan"]),
        "set 3 2 2 1\nword 0 3 0\nword 1 4 1\nend 2\n"
    );
    assert_eq!(folder.done(&["columns", "sample.set"]), columns);
    for (record, signature) in [
        ("sample-unknown-0.record", "7\n"),
        ("sample-unknown-1.record", "4\n"),
    ] {
        assert_eq!(folder.done(&["sign", "sample.set", record]), signature);
    }
    let judged = folder.run(&["judge", "sample.plan", "7", "4", "3", "0"]);
    assert_eq!(
        (judged.status, judged.text()),
        (
            1,
            "7: passes, cancelled bits 01\n4: passes, cancelled bits 01\n\
             3: fails at word 1, cancelled bits 00\n0: fails at word 1, cancelled bits 00\n"
        )
    );
}

#[test]
fn plans_and_signatures_of_random_sets_with_an_inversion_word_by_the_second_implementation() {
    let folder = Folder::new("random_inversions");
    let (mut plans, mut other_bits) = (0, 0);
    for seed in 0..60 {
        let mut r = Random::new(seed);
        let content = reference::random::small_content(&mut r, 64, 12, 6);
        let (n, s) = (content.spread.len(), content.s as usize);
        let without = with_inversion(&file_of(&content), 0);
        let set = with_inversion(&without, r.some_within(content.m as usize));
        folder.put("without.set", &without);
        folder.put("a.set", &set);
        let record = reference::random::record(&mut r, n, s);
        folder.put("a.record", &record);
        let signature = reference::second::set::sign(&set, &record).unwrap();
        assert_eq!(
            folder.done(&["sign", "a.set", "a.record"]),
            format!("{signature}\n"),
            "seed {seed}"
        );
        let (before, after) = (
            folder.run(&["plan", "without.set"]),
            folder.run(&["plan", "a.set"]),
        );
        assert_eq!(after.text(), printed(&set), "seed {seed}");
        // all but the expected bit of each line is as without the inversion word
        let words = |plan: &str| -> Vec<String> {
            let word = |line: &str| line.rsplit_once(' ').unwrap().0.to_string();
            let lines = plan.lines().filter(|line| line.starts_with("word "));
            lines.map(word).collect()
        };
        assert_eq!(words(after.text()), words(before.text()), "seed {seed}");
        assert_eq!(after.status, before.status, "seed {seed}");
        plans += usize::from(after.status == 0);
        other_bits += usize::from(after.text() != before.text());
    }
    assert!(plans >= 20, "{plans} plans are too few");
    assert!(other_bits >= 10, "{other_bits} with other expected bits");
}

/// Why, and what to do, in README.md's table of the numbers; nothing where it has no row for the number.
fn told_in_readme(number: u64) -> Option<(String, String)> {
    let readme = text("README.md");
    let (_, table) = readme.split_once("## Refusal numbers").unwrap();
    let start = format!("| {number} | ");
    let row = table.lines().find_map(|line| line.strip_prefix(&start))?;
    let (why, advice) = row.trim_end_matches(" |").split_once(" | ").unwrap();
    Some((why.to_string(), advice.to_string()))
}

fn row_of_readme(number: u64) -> (String, String) {
    told_in_readme(number).unwrap_or_else(|| panic!("no row {number}"))
}

/// The numbers that the header lists: each at the start of an entry of its two columns.
fn numbers_of_the_header() -> Vec<u64> {
    const COLUMNS: [usize; 2] = [5, 61];
    let header = text("include/canceller.h");
    let (_, list) = header.split_once("then 26 to 28, after 10:\n").unwrap();
    let (list, _) = list.split_once(" * There is no 16: ").unwrap();
    let entry = |line: &str, at: usize| line[at..at + 2].trim().to_string();
    let column = |at| list.lines().map(move |line| entry(line, at));
    let entries = COLUMNS.into_iter().flat_map(column);
    let numbers = entries.filter(|entry| !entry.is_empty());
    numbers
        .map(|entry| entry.parse().expect("an entry's number"))
        .collect()
}

/// The numbers of the refusals: 16 is a gap, and nothing is renumbered to fill it.
#[test]
fn explain_says_what_the_readme_and_the_header_list() {
    let folder = Folder::new("explain");
    let numbers: Vec<u64> = (1..=31).filter(|&n| n != 16).collect();
    for &number in &numbers {
        let (why, advice) = row_of_readme(number);
        let told = folder.done(&["explain", &number.to_string()]);
        assert_eq!(
            told,
            format!("refused {number}: {why}\nwhat to do: {advice}\n")
        );
    }
    let first = row_of_readme(17).0;
    assert_eq!(first, "no X-free combination but the empty one exists");
    assert_eq!(row_of_readme(15).0, "a column has a bit at or above m");
    for bad in ["0", "32", "x", "18446744073709551615"] {
        let ran = folder.run(&["explain", bad]);
        let message =
            format!("canceller: explain: expected a number from 1 to 31 but 16, found '{bad}'\n");
        assert_eq!((ran.status, ran.err), (3, message));
    }
    let gap = folder.run(&["explain", "16"]);
    let message =
        "canceller: explain: no call gives 16: more than m independent columns can't come up\n";
    assert_eq!((gap.status, gap.err.as_str()), (3, message));
    assert_eq!((told_in_readme(16), told_in_readme(32)), (None, None));
    assert!(text("README.md")
        .contains("\nThere is no 16. It stood for more than m independent columns"));
    assert_eq!(numbers_of_the_header(), numbers);
}

#[test]
fn the_version_is_the_headers_and_the_kits() {
    let folder = Folder::new("version");
    let kit = Command::new("rt").arg("version").output();
    let kit = String::from_utf8(kit.expect("rt is on the path").stdout).unwrap();
    let header = text("include/canceller.h");
    let (_, rest) = header.split_once("#define CANCELLER_VERSION \"").unwrap();
    let (version, _) = rest.split_once('"').unwrap();
    let expected = format!("canceller {version} ({})\n", kit.trim());
    for word in ["--version", "-V", "version"] {
        assert_eq!(folder.done(&[word]), expected);
    }
    let manual = text("command/canceller.1");
    assert!(
        manual.contains(&format!("\"canceller {version}\"")),
        "the manual's version"
    );
}

/// Every form and option of the help stands in the manual page.
#[test]
fn the_manual_page_has_every_use() {
    let folder = Folder::new("manual");
    let manual = text("command/canceller.1")
        .replace("\\fB", "")
        .replace("\\fI", "");
    let manual = manual.replace("\\fR", "").replace('\\', "");
    let manual = manual.split_whitespace().collect::<Vec<&str>>().join(" ");
    let mut count = 0;
    for name in [
        "pack", "show", "plan", "expect", "words", "cut", "sign", "judge", "draw", "columns",
        "explain", "help", "version",
    ] {
        let help = folder.done(&["help", name]);
        for form in help.lines().filter_map(|line| line.strip_prefix("usage: ")) {
            assert!(manual.contains(form), "{form} in the manual page");
            count += 1;
        }
    }
    assert_eq!(count, 15, "forms");
}

#[test]
fn the_help_fits_a_screen() {
    let folder = Folder::new("screen");
    let help = folder.done(&["--help"]);
    assert!(help.lines().count() <= 24, "{help}");
    for line in help.lines() {
        assert!(line.chars().count() <= 100, "{line}");
    }
}

#[test]
fn wrong_usage() {
    let folder = with_sample("usage");
    let cases: [(&[&str], &str); 30] = [
        (&["jugde"], "no use 'jugde': did you mean 'canceller judge'?"),
        (&["colums", "x"], "no use 'colums': did you mean 'canceller columns'?"),
        (&["frobnicate"], "no use 'frobnicate': 'canceller --help' lists the uses"),
        (&["help", "plna"], "no use 'plna': did you mean 'canceller plan'?"),
        (&["plan"], "plan: something is missing"),
        (&["plan", "a", "b"], "plan: 'b' is one too many"),
        (&["plan", "a", "-o"], "plan: -o needs a value"),
        (&["plan", "a", "-o", "b", "-o", "c"], "plan: -o is given twice"),
        (&["plan", "a", "--csv", "b"], "plan: no option --csv"),
        (&["expcet", "a", "b"], "no use 'expcet': did you mean 'canceller expect'?"),
        (&["expect", "sample.plan"], "expect: something is missing"),
        (&["expect", "sample.plan", "sample.set", "c"], "expect: 'c' is one too many"),
        (&["expect", "-", "-"], "expect: standard input can't be both the plan and the set"),
        (&["ctu", "a", "2"], "no use 'ctu': did you mean 'canceller cut'?"),
        (&["cut"], "cut: something is missing"),
        (&["cut", "sample.set"], "cut: something is missing"),
        (&["cut", "sample.set", "2", "3"], "cut: '3' is one too many"),
        (&["cut", "sample.set", "two"], "cut: expected K, a number from 0 to 2^64 - 1, decimal or 0x.., found 'two'"),
        (&["cut", "none.set", "18446744073709551616"], "cut: expected K, a number from 0 to 2^64 - 1, decimal or 0x.., found '18446744073709551616'"),
        (&["cut", "sample.set", "-1"], "cut: no option -1"),
        (&["draw", "sample.set", "--cut"], "draw: --cut needs a value"),
        (&["draw", "sample.set", "--cut", "-1"], "draw: expected K, a number from 0 to 2^64 - 1, decimal or 0x.., found '-1'"),
        (&["sign", "-", "-"], "sign: standard input can't be both the set and the record"),
        (&["judge", "sample.plan"], "judge: no signature is given"),
        (&["judge", "sample.plan", "1", "--csv", "a"], "judge: signatures and --csv don't go together"),
        (&["judge", "sample.plan", "1", "--map", "a"], "judge: --map goes with --csv"),
        (&["judge", "-", "--csv", "-"], "judge: standard input can't be both the plan and the rows"),
        (&["judge", "sample.plan", "--csv", "a", "--map", "-"], "judge: standard output can't be both the rows and the map: -o FILE"),
        (&["judge", "sample.plan", "-5"], "judge: no option -5"),
        (&["judge", "sample.plan", "3", "3.5"], "judge: expected a signature, a number from 0 to 2^64 - 1, decimal or 0x.., found '3.5'"),
    ];
    for (words, message) in cases {
        let ran = folder.run(words);
        let first = ran.err.lines().next().unwrap_or_default();
        assert_eq!(first, format!("canceller: {message}"), "{words:?}");
        assert_eq!((ran.status, ran.out.len()), (3, 0), "{words:?}");
    }
    let ran = folder.run(&[]);
    assert_eq!((ran.status, ran.out.len()), (3, 0));
    assert!(ran.err.contains(stored("help.txt").trim()), "{}", ran.err);
    // an option with its value in one word, and names that look like options
    folder.done(&["show", "sample.set", "-o=a.txt"]);
    folder.done(&["pack", "-o", "--odd.set", "--", "a.txt"]);
    assert_eq!(folder.get("--odd.set"), sample("sample.set"));
    assert_eq!(
        folder.done(&["plan", "--", "--odd.set"]),
        printed(&sample("sample.set"))
    );
}

#[test]
fn columns_by_the_second_implementation() {
    let folder = Folder::new("columns");
    let mut tied = 0;
    for seed in 0..40 {
        let mut r = Random::new(seed);
        let set = file_of(&reference::random::small_content(&mut r, 64, 30, 20));
        let read = reference::second::set::read_set(&set).unwrap();
        folder.put("a.set", &set);
        let mut expected = String::new();
        for (cells, column) in read.symbols().iter().zip(read.columns()) {
            let bits = (0..64).filter(|i| column >> i & 1 == 1);
            let names: Vec<String> = bits.map(|i| format!("M{}", i + 1)).collect();
            let (owner, names) = (owner(&read, cells), names.join(" "));
            expected += &format!("{owner} column {column} bits {names}\n");
            tied += usize::from(cells.len() > 1);
        }
        assert_eq!(folder.done(&["columns", "a.set"]), expected, "seed {seed}");
    }
    assert!(tied > 20, "{tied} symbols of several cells are too few");
}

/// How `columns` names a symbol: a free cell, or the number and all cells.
fn owner(set: &Set, cells: &[(usize, usize)]) -> String {
    let tie_of = |cell: &(usize, usize)| set.ties.iter().find(|tie| tie.cell == *cell);
    let named = |cell: &(usize, usize)| {
        let opposite = tie_of(cell).is_some_and(|tie| tie.side == 1);
        let behind = if opposite { " opposite" } else { "" };
        format!("slice {} chain {}{behind}", cell.0, cell.1)
    };
    let cells_named: Vec<String> = cells.iter().map(named).collect();
    let symbol = tie_of(&cells[0]).map(|tie| format!("symbol {} ", tie.symbol));
    symbol.unwrap_or_default() + &cells_named.join(", ")
}

#[test]
fn the_columns_of_the_sample_with_ties() {
    let folder = Folder::new("tied_columns");
    folder.put("ties.set", sample("ties.set"));
    assert_eq!(
        folder.done(&["columns", "ties.set"]),
        "symbol 7 slice 0 chain 1, slice 1 chain 1 opposite, slice 2 chain 1 column 1 bits M1\n\
         symbol 9 slice 1 chain 2 column 10 bits M2 M4\n\
         slice 3 chain 2 column 16 bits M5\n"
    );
}

/// A set of 256 ties with 256 symbols, and one of as many unknown cells as there can be: the command lends places enough.
#[test]
fn as_many_named_symbols_as_there_can_be() {
    let folder = Folder::new("most_symbols");
    let mut r = Random::new(256);
    let free = content_of_rank(&mut r, (64, 256, 512), 40, 131_072);
    let cells = unknown_cells(&free);
    let entries = (0..256).map(|i| tie(cells[500 * i], i as u16, (i % 2) as u8));
    let content = Content {
        ties: entries.flatten().collect(),
        ..free
    };
    let set = file_of(&content);
    folder.put("a.set", &set);
    let lines = folder.done(&["plan", "a.set", "-o", "a.plan"]);
    assert!(lines.starts_with("set 64 256 512 131072\n"), "{lines}");
    let second = second_plan(&set).unwrap();
    assert_eq!(folder.get("a.plan"), write_plan(&second, 526).unwrap());
    let changed = format!("changed 0 of {}\n", second.words.len());
    assert_eq!(folder.done(&["expect", "a.plan", "a.set"]), changed);
}

#[test]
fn words_and_verdicts_by_the_second_implementation() {
    let folder = Folder::new("verdicts");
    let mut plans = 0;
    for seed in 0..60 {
        let mut r = Random::new(seed);
        let set = file_of(&reference::random::small_content(&mut r, 64, 12, 6));
        folder.put("a.set", &set);
        if folder.run(&["plan", "a.set", "-o", "a.plan"]).status != 0 {
            continue;
        }
        plans += 1;
        let file = folder.get("a.plan");
        let plan = reference::second::plan::read_plan(&file).unwrap();
        let table = folder.done(&["words", "a.plan"]);
        let rows: Vec<Vec<&str>> = table
            .lines()
            .skip(2)
            .map(|l| l.split_whitespace().collect())
            .collect();
        assert_eq!(rows.len(), plan.words.len());
        for (i, row) in rows.iter().enumerate() {
            let word = plan.words[i];
            let bits: String = (0..plan.m)
                .map(|b| if word >> b & 1 == 1 { '1' } else { '0' })
                .collect();
            let set = (0..64).filter(|b| word >> b & 1 == 1);
            let xor: Vec<String> = set.map(|b| format!("M{}", b + 1)).collect();
            let expected = (plan.expected >> i & 1).to_string();
            assert_eq!(
                *row,
                [
                    &i.to_string(),
                    &word.to_string(),
                    &bits,
                    &expected,
                    &xor.join("⊕")
                ]
            );
        }
        let signatures: Vec<u64> = (0..20).map(|_| r.within(plan.m as usize)).collect();
        let words: Vec<String> = signatures.iter().map(|s| s.to_string()).collect();
        let mut asked = vec!["judge", "a.plan"];
        asked.extend(words.iter().map(String::as_str));
        let ran = folder.run(&asked);
        let mut worst = 0;
        for (line, signature) in ran.text().lines().zip(&signatures) {
            let judged = judge(&file, *signature).unwrap();
            let verdict = match judged.fails_at {
                None => "passes".to_string(),
                Some(word) => {
                    worst = 1;
                    format!("fails at word {word}")
                }
            };
            let q = plan.words.len();
            let bits: String = (0..q)
                .map(|b| {
                    if judged.cancelled >> b & 1 == 1 {
                        '1'
                    } else {
                        '0'
                    }
                })
                .collect();
            assert_eq!(
                line,
                format!("{signature}: {verdict}, cancelled bits {bits}"),
                "seed {seed}"
            );
        }
        assert_eq!((ran.status, ran.text().lines().count()), (worst, 20));
    }
    assert!(plans >= 20, "{plans} plans are too few");
}
