//! New expected bits for a plan: from a set whose values were revised, and never from one whose words are others.

mod common;

use common::{sample, second_plan, with_planned_sample, Folder};
use reference::random::{file_of, record, reduced_words, small_content, Random};
use reference::second::plan::{read_plan, write_plan, Plan};
use reference::second::set::Content;

/// The sample's text with these changes, each at the one place where it can be made.
fn text_with(changes: &[(&str, &str)]) -> String {
    let mut text = String::from_utf8(sample("sample.txt")).unwrap();
    for (old, new) in changes {
        assert_eq!(text.matches(old).count(), 1, "{old:?} in the sample");
        text = text.replace(old, new);
    }
    text
}

/// The cell of chain 1 in slice 1 becomes 1.
const REVISED: (&str, &str) = ("\n10 ", "\n11 ");

/// The set of a text, made by the command.
fn put_set(folder: &Folder, name: &str, text: &str) -> Vec<u8> {
    folder.put("a.txt", text);
    folder.done(&["pack", "a.txt", "-o", name]);
    folder.get(name)
}

/// Runs `expect` for a plan and a set that can't go together: it says why in these lines, prints nothing and writes nothing.
fn refused(folder: &Folder, words: [&str; 2], lines: &[&str]) {
    folder.put("out.plan", "old");
    let (names, before) = (folder.names(), folder.get(words[0]));
    let said: String = lines.iter().map(|l| format!("canceller: {l}\n")).collect();
    // a file that is there, one that isn't, standard output, no file, and the plan itself
    for output in ["out.plan", "none.plan", "-", "", words[0]] {
        let mut asked = vec!["expect", words[0], words[1]];
        if !output.is_empty() {
            asked.extend(["-o", output]);
        }
        let ran = folder.run(&asked);
        assert_eq!((ran.status, &ran.err), (2, &said), "{asked:?}");
        assert_eq!(ran.text(), "", "{asked:?}");
        assert_eq!(folder.names(), names, "{asked:?}: no file more or less");
        assert_eq!(folder.text("out.plan"), "old", "{asked:?}");
        assert_eq!(folder.get(words[0]), before, "{asked:?}");
    }
}

const PLAN_ANEW: &str =
    "more than values has changed, and nothing is written; for a new plan: canceller plan FILE.set -o FILE.plan";

#[test]
fn revised_values_change_expected_bits_and_no_word() {
    let folder = with_planned_sample("revised");
    let old = folder.get("sample.plan");
    let set = put_set(&folder, "revised.set", &text_with(&[REVISED]));
    let names = folder.names();
    // worked on paper: 4 is in every signature now, as it is in word 1 and not in word 0
    let lines = "word 1 4 expected 1 was 0\nchanged 1 of 2\n";
    assert_eq!(
        folder.done(&["expect", "sample.plan", "revised.set"]),
        lines
    );
    assert_eq!(folder.names(), names, "without -o nothing is written");
    let asked = ["expect", "sample.plan", "revised.set", "-o", "new.plan"];
    assert_eq!(folder.done(&asked), lines);
    assert_eq!(folder.get("sample.plan"), old);
    folder.done(&["plan", "revised.set", "-o", "planned.plan"]);
    let new = folder.get("new.plan");
    assert_eq!(new, folder.get("planned.plan"));
    assert_eq!(new, write_plan(&second_plan(&set).unwrap(), 526).unwrap());
    // the good signatures of the revised set, and those of the set before
    for (file, passing, failing) in [
        ("new.plan", ["7", "4"], ["3", "0"]),
        ("sample.plan", ["3", "0"], ["7", "4"]),
    ] {
        assert_eq!(
            folder.run(&["judge", file, passing[0], passing[1]]).status,
            0
        );
        for signature in failing {
            let ran = folder.run(&["judge", file, signature]);
            assert!(ran.text().contains("fails at word 1"), "{}", ran.text());
        }
    }
}

#[test]
fn the_new_plan_takes_the_place_of_the_old_one() {
    let folder = with_planned_sample("in_place");
    put_set(&folder, "revised.set", &text_with(&[REVISED]));
    folder.done(&["plan", "revised.set", "-o", "planned.plan"]);
    let names = folder.names();
    let asked = ["expect", "sample.plan", "revised.set", "-o", "sample.plan"];
    assert_eq!(
        folder.done(&asked),
        "word 1 4 expected 1 was 0\nchanged 1 of 2\n"
    );
    assert_eq!(folder.get("sample.plan"), folder.get("planned.plan"));
    assert_eq!(folder.done(&asked), "changed 0 of 2\n");
    assert_eq!(folder.get("sample.plan"), folder.get("planned.plan"));
    assert_eq!(folder.names(), names, "nothing is left behind");
}

#[test]
fn standard_input_and_output() {
    let folder = with_planned_sample("expect_standard");
    let set = put_set(&folder, "revised.set", &text_with(&[REVISED]));
    let planned = write_plan(&second_plan(&set).unwrap(), 526).unwrap();
    let old = folder.get("sample.plan");
    for (words, input) in [
        (["-", "revised.set"], &old),
        (["sample.plan", "-"], &set),
        (["sample.plan", "revised.set"], &Vec::new()),
    ] {
        let ran = folder.run_with(&["expect", words[0], words[1], "-o", "-"], input);
        assert_eq!((ran.status, ran.err.as_str()), (0, ""), "{words:?}");
        assert_eq!(
            ran.out, planned,
            "{words:?}: the plan file and nothing more"
        );
    }
    let set = put_set(&folder, "marked.set", &text_with(&[("\n10 ", "\n1X ")]));
    let ran = folder.run_with(&["expect", "sample.plan", "-", "-o", "-"], &set);
    let first = "canceller: standard input: the words of sample.plan aren't this set's own: ";
    assert!(ran.err.starts_with(first), "{}", ran.err);
    assert_eq!((ran.status, ran.out.len()), (2, 0));
}

#[test]
fn words_that_are_not_the_sets_own() {
    let folder = with_planned_sample("other_words");
    let of_plan = read_plan(&folder.get("sample.plan")).unwrap();
    for (what, changes) in [
        ("one more unknown cell", &[("\n10 ", "\n1X ")][..]),
        ("no unknown cell", &[("\n1X ", "\n11 ")]),
        (
            "another one",
            &[
                ("1X                 # slice 0", "10 # slice 0"),
                ("10                 # slice 1", "1X # slice 1"),
            ],
        ),
        ("another tap word", &[("taps 3", "taps 5")]),
        (
            "another spread word",
            &[("spread 1 bits 2", "spread 1 bits 1")],
        ),
        (
            "one more slice",
            &[("slices 2", "slices 3"), ("\n10 ", "\n00\n10 ")],
        ),
    ] {
        let set = put_set(&folder, "new.set", &text_with(changes));
        assert_ne!(second_plan(&set).unwrap().words, of_plan.words, "{what}");
        refused(
            &folder,
            ["sample.plan", "new.set"],
            &[
                "new.set: the words of sample.plan aren't this set's own: \
                 the plan would let an unknown cell through, or leave words out",
                PLAN_ANEW,
            ],
        );
    }
}

/// What counts is the words: a mark more whose column is an XOR of the others leaves them as they are.
#[test]
fn another_mark_that_leaves_the_words_as_they_are() {
    let folder = Folder::new("same_words");
    let text = "width 3\ntaps 3\nchains 3\nspread 0 1\nspread 1 4\nspread 2 3\nslices 2\n";
    put_set(&folder, "a.set", &format!("{text}1X0\n100\n"));
    folder.done(&["plan", "a.set", "-o", "a.plan"]);
    let set = put_set(&folder, "b.set", &format!("{text}1X1\n10X\n"));
    assert_eq!(
        folder.done(&["expect", "a.plan", "b.set", "-o", "b.plan"]),
        "word 0 3 expected 1 was 0\nword 1 4 expected 1 was 0\nchanged 2 of 2\n"
    );
    let planned = write_plan(&second_plan(&set).unwrap(), 526).unwrap();
    assert_eq!(folder.get("b.plan"), planned);
}

#[test]
fn a_register_of_another_width() {
    let folder = with_planned_sample("other_width");
    let of_plan = read_plan(&folder.get("sample.plan")).unwrap();
    let wider = "width 4\ntaps 1\nchains 2\nspread 0 3\nspread 1 8\nslices 1\nXX\n";
    let set = put_set(&folder, "wider.set", wider);
    assert_eq!(
        second_plan(&set).unwrap().words,
        of_plan.words,
        "the same words"
    );
    let narrower = "width 2\ntaps 1\nchains 1\nspread 0 1\nslices 1\n1\n";
    put_set(&folder, "narrower.set", narrower);
    folder.put("none.set", sample("no-words.set"));
    for (name, m) in [("wider.set", 4), ("narrower.set", 2), ("none.set", 1)] {
        let line = format!(
            "{name}: the words of sample.plan aren't this set's own: the plan is for a register of 3 bits, the set has one of {m}"
        );
        refused(&folder, ["sample.plan", name], &[&line, PLAN_ANEW]);
    }
}

#[test]
fn a_set_without_words() {
    let folder = Folder::new("without_words");
    let known = "width 1\ntaps 1\nchains 1\nspread 0 1\nslices 1\n1\n";
    put_set(&folder, "known.set", known);
    folder.done(&["plan", "known.set", "-o", "known.plan"]);
    folder.put("none.set", sample("no-words.set"));
    refused(
        &folder,
        ["known.plan", "none.set"],
        &[
            "none.set: the words of known.plan aren't this set's own: it has none, and each of them would let an unknown cell through",
            "none.set: refused 17: no X-free combination but the empty one exists",
            "for what to do: canceller explain 17",
        ],
    );
}

/// The lines for a plan whose expected bits become these.
fn lines(old: &Plan, expected: u64) -> String {
    let mut text = String::new();
    let mut count = 0;
    for (i, word) in old.words.iter().enumerate() {
        let (was, now) = (old.expected >> i & 1, expected >> i & 1);
        if was != now {
            text += &format!("word {i} {word} expected {now} was {was}\n");
            count += 1;
        }
    }
    text + &format!("changed {count} of {}\n", old.words.len())
}

#[test]
fn random_revisions_by_the_second_implementation() {
    let folder = Folder::new("random_revisions");
    let (mut revised, mut changed, mut others, mut none) = (0, 0, 0, 0);
    for seed in 0..80 {
        let mut r = Random::new(seed);
        let widest = r.pick(&[8, 64]);
        let before = small_content(&mut r, widest, 12, 6);
        let (n, s) = (before.spread.len(), before.s as usize);
        let cells = record(&mut r, n, s).into_iter().zip(&before.marks);
        let after = Content {
            values: cells.map(|(cell, mark)| cell & !mark).collect(),
            ..before.clone()
        };
        let set = file_of(&after);
        folder.put("after.set", &set);
        let (old, new) = (second_plan(&file_of(&before)), second_plan(&set));
        // a plan of some other words for the same register
        let other = Plan {
            m: after.m,
            words: reduced_words(&mut r, after.m as usize),
            expected: 0,
        };
        let own = new.as_ref().is_ok_and(|new| new.words == other.words);
        for plan in old.iter().chain((!own).then_some(&other)) {
            folder.put("old.plan", write_plan(plan, 526).unwrap());
            let asked = ["expect", "old.plan", "after.set", "-o", "new.plan"];
            let ran = folder.run(&asked);
            match &new {
                Ok(new) if new.words == plan.words => {
                    assert_eq!((ran.status, ran.err.as_str()), (0, ""), "seed {seed}");
                    assert_eq!(ran.text(), lines(plan, new.expected), "seed {seed}");
                    let file = folder.get("new.plan");
                    assert_eq!(file, write_plan(new, 526).unwrap(), "seed {seed}");
                    std::fs::remove_file(folder.0.join("new.plan")).unwrap();
                    revised += 1;
                    changed += usize::from(new.expected != plan.expected);
                }
                other => {
                    assert_eq!((ran.status, ran.text()), (2, ""), "seed {seed}");
                    let has_17 = ran.err.contains(": refused 17: ");
                    assert_eq!(has_17, other.is_err(), "seed {seed}: {}", ran.err);
                    assert_eq!(folder.names(), ["after.set", "old.plan"], "seed {seed}");
                    others += 1;
                    none += usize::from(has_17);
                }
            }
        }
    }
    assert!(
        revised >= 30 && changed >= 20 && others >= 50 && none >= 6,
        "too few: {revised} revised, {changed} with other bits, {others} of other words, {none} without words"
    );
}

/// A tie's last byte is no part of what words are made of: the words stay, and an expected bit moves. Without the ties there are none.
#[test]
fn a_tie_that_becomes_as_is_moves_expected_bits_and_no_tie_leaves_no_words() {
    let folder = Folder::new("revised_ties");
    folder.put("ties.set", sample("ties.set"));
    folder.done(&["plan", "ties.set", "-o", "ties.plan"]);
    let text = String::from_utf8(sample("ties.txt")).unwrap();
    put_set(&folder, "revised.set", &text.replace(" opposite", ""));
    let asked = ["expect", "ties.plan", "revised.set", "-o", "revised.plan"];
    assert_eq!(
        folder.done(&asked),
        "word 1 10 expected 0 was 1\nchanged 1 of 2\n"
    );
    folder.done(&["plan", "revised.set", "-o", "anew.plan"]);
    assert_eq!(folder.get("revised.plan"), folder.get("anew.plan"));
    let untied = text.lines().filter(|line| !line.starts_with("tie"));
    let untied: Vec<&str> = untied.collect();
    put_set(&folder, "untied.set", &untied.join("\n"));
    let ran = folder.run(&["expect", "ties.plan", "untied.set", "-o", "none.plan"]);
    assert_eq!((ran.status, ran.text()), (2, ""), "{}", ran.err);
    assert!(ran.err.contains("untied.set: refused 17: "), "{}", ran.err);
    assert!(!folder.0.join("none.plan").exists(), "nothing is written");
}
