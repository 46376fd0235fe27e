//! The text form: round trips on random sets, the forms that people write, and where it says that a text is broken.

mod common;

use common::{inversion_of, sample, stored, with_inversion, Folder};
use reference::random::{file_of, small_content, Random};
use reference::second::set::{read_set, Set};

/// A word in one of the forms that it has; 0 is no list of bits.
fn word_text(value: u64, r: &mut Random) -> String {
    match r.below(if value == 0 { 2 } else { 3 }) {
        0 => format!("{value}"),
        1 => format!("0x{value:X}"),
        _ => {
            let set = (0..64).filter(|i| value >> i & 1 == 1);
            let bits: Vec<String> = set.map(|i| i.to_string()).collect();
            format!("bits {}", bits.join("  "))
        }
    }
}

/// A text of a set, written by this test: with blanks, comments and words in every form.
fn text_of(set: &Set, inversion: u64, r: &mut Random) -> String {
    let number = |bits: &[bool]| reference::second::word_of(bits);
    let circuit = &set.circuit;
    let mut text = format!("# a set\n\nwidth  {}\r\n", circuit.m);
    let taps = word_text(number(&circuit.taps), r);
    text += &format!("\ttaps {taps} # the taps\n");
    if inversion != 0 || r.one_in(2) {
        let word = word_text(inversion, r);
        text += &format!("inversion\t{word}  # the inputs that are inverted\r\n");
    }
    text += &format!("chains {}\n", set.n());
    for (chain, bits) in circuit.spread.iter().enumerate() {
        let word = word_text(number(bits), r);
        text += &format!("spread {chain} {word}\n");
    }
    text += &format!("slices {}\n", set.s());
    for (values, marks) in set.values.iter().zip(&set.marks) {
        for (value, mark) in values.iter().zip(marks) {
            text += match (mark, value) {
                (true, _) => r.pick(&["X", "x", " X", "X\t"]),
                (_, true) => r.pick(&["1", "1 "]),
                _ => r.pick(&["0", " 0"]),
            };
        }
        text += r.pick(&["\n", "\r\n", " # cells\n"]);
    }
    for tie in &set.ties {
        let (slice, chain) = tie.cell;
        let symbol = match r.below(2) {
            0 => format!("{}", tie.symbol),
            _ => format!("0x{:x}", tie.symbol),
        };
        let side = if tie.side == 1 { " opposite" } else { "" };
        text += &format!("tie {slice}\t{chain} {symbol}{side}");
        text += r.pick(&["\n", "\r\n", "  # a tie\n\n"]);
    }
    text
}

#[test]
fn random_sets_there_and_back_with_and_without_an_inversion_word() {
    let folder = Folder::new("round_trips");
    let mut tied = 0;
    for seed in 0..150 {
        let mut r = Random::new(seed);
        let content = small_content(&mut r, 64, 40, 20);
        let m = content.m as usize;
        for inversion in [0, r.some_within(m), 1 << (m - 1)] {
            let file = with_inversion(&file_of(&content), inversion);
            folder.put("a.set", &file);
            let shown = folder.done(&["show", "a.set"]);
            folder.put("a.txt", &shown);
            folder.done(&["pack", "a.txt", "-o", "b.set"]);
            assert_eq!(folder.get("b.set"), file, "seed {seed}:\n{shown}");
            // and a text that a person could have written
            let text = text_of(&read_set(&file).unwrap(), inversion, &mut r);
            let packed = folder.run_with(&["pack", "-"], text.as_bytes());
            assert_eq!(packed.out, file, "seed {seed}: {}\n{text}", packed.err);
        }
        tied += usize::from(!content.ties.is_empty());
    }
    assert!(tied > 50, "{tied} sets with ties are too few");
}

/// The lines of ties stand in the text as the entries stand in the set, and what is wrong with them the set writer says.
#[test]
fn ties_in_the_text_and_in_the_set() {
    let folder = Folder::new("ties");
    folder.put("ties.txt", sample("ties.txt"));
    folder.done(&["pack", "ties.txt", "-o", "ties.set"]);
    assert_eq!(folder.get("ties.set"), sample("ties.set"));
    let shown = folder.done(&["show", "ties.set"]);
    let lines: Vec<&str> = shown
        .lines()
        .skip_while(|l| !l.starts_with("tie"))
        .collect();
    assert_eq!(
        lines,
        ["tie 0 1 7", "tie 1 1 7 opposite", "tie 1 2 9", "tie 2 1 7"]
    );
    let tied = |ties: &str| with_line(8, &format!("10\n{ties}"));
    let many = |count: usize| "tie 0 1 0\n".repeat(count);
    for (ties, number) in [
        ("tie 0 0 7".to_string(), 29),
        ("tie 2 1 7".into(), 29),
        ("tie 0 2 7".into(), 29),
        ("tie 65535 65535 65535".into(), 29),
        ("tie 0 1 7\ntie 0 1 7".into(), 30),
        // 29 is looked for in every tie before 30
        ("tie 0 1 7\ntie 0 1 7\ntie 0 0 7".into(), 29),
        (many(256), 30),
        (many(257), 8),
    ] {
        let packed = folder.run_with(&["pack", "-"], tied(&ties).as_bytes());
        let expected = format!("canceller: standard input: refused {number}: ");
        assert!(packed.err.starts_with(&expected), "{}\n{ties}", packed.err);
        assert_eq!((packed.status, packed.out.len()), (2, 0), "{ties}");
    }
    for (ties, entries) in [
        ("tie 0 1 0", [0, 0, 1, 0, 0, 0, 0]),
        ("tie 0x0 1 65535 opposite", [0, 0, 1, 0, 255, 255, 1]),
        (" tie  0 1 0x102 # the bus", [0, 0, 1, 0, 2, 1, 0]),
    ] {
        let packed = folder.run_with(&["pack", "-"], tied(ties).as_bytes());
        assert_eq!((packed.status, packed.err.as_str()), (0, ""), "{ties}");
        assert_eq!(packed.out[42..], [&[1, 0], &entries[..]].concat(), "{ties}");
    }
}

#[test]
fn every_sample_that_is_a_set_there_and_back() {
    let folder = Folder::new("samples_there_and_back");
    let mut count = 0;
    for entry in std::fs::read_dir(reference::repository::repository().join("samples")).unwrap() {
        let path = entry.unwrap().path();
        let name = path.file_name().unwrap().to_str().unwrap();
        if !name.ends_with(".set") || read_set(&sample(name)).is_err() {
            continue;
        }
        folder.put(name, sample(name));
        folder.done(&["show", name, "-o", "a.txt"]);
        folder.done(&["pack", "a.txt", "-o", "b.set"]);
        assert_eq!(folder.get("b.set"), sample(name), "{name}");
        count += 1;
    }
    assert!(count >= 16, "{count} samples are sets");
}

const SAMPLE: &str = "width 3\ntaps 3\nchains 2\nspread 0 1\nspread 1 4\nslices 2\n1X\n10\n";

/// The sample's text with its line replaced, by one or more.
fn with_line(line: usize, text: &str) -> String {
    let mut lines: Vec<&str> = SAMPLE.lines().collect();
    lines[line - 1] = text;
    lines.join("\n") + "\n"
}

#[test]
fn an_inversion_word_in_each_form_of_a_word_makes_the_same_bytes() {
    let folder = Folder::new("inversion_forms");
    let set = sample("sample.set");
    for (line, word) in [
        ("inversion 5", 5),
        ("inversion 0x5", 5),
        ("inversion 0X05", 5),
        ("inversion bits 0 2", 5),
        (" inversion  bits 2 0 # two inverters", 5),
        ("inversion 7", 7),
        ("inversion 0", 0),
        ("inversion 0x0", 0),
        ("# no inverters", 0),
    ] {
        let text = with_line(2, &format!("taps 3\n{line}"));
        let packed = folder.run_with(&["pack", "-"], text.as_bytes());
        assert_eq!((packed.status, packed.err.as_str()), (0, ""), "{line}");
        assert_eq!(packed.out, with_inversion(&set, word), "{line}");
        assert_eq!(inversion_of(&packed.out), word, "{line}");
    }
}

#[test]
fn show_prints_the_inversion_word_only_where_it_is_not_0() {
    let folder = Folder::new("inversion_shown");
    let set = sample("sample.set");
    folder.put("a.set", &set);
    assert_eq!(folder.done(&["show", "a.set"]), stored("show.txt"));
    folder.put("a.set", with_inversion(&set, 5));
    let with_line = stored("show.txt").replace("taps 0x3\n", "taps 0x3\ninversion 0x5\n");
    assert_eq!(folder.done(&["show", "a.set"]), with_line);
    // as many digits as the register's other words have
    folder.put("a.set", with_inversion(&sample("width-64.set"), 5));
    let shown = folder.done(&["show", "a.set"]);
    assert_eq!(shown.lines().nth(2), Some("inversion 0x0000000000000005"));
}

#[test]
fn broken_texts_and_the_place_in_the_message() {
    let folder = Folder::new("broken_texts");
    const NUMBER: &str = "a number from 0 to 2^64 - 1, decimal or 0x..";
    const COUNT: &str = "a number from 0 to 65535, decimal or 0x..";
    let word = format!("{NUMBER}, or 'bits ..'");
    let cases: Vec<(String, String)> = vec![
        (
            with_line(1, "wide 3"),
            "1:1: expected 'width ..', found 'wide'".into(),
        ),
        (
            with_line(1, "width"),
            format!("1:6: expected {NUMBER}, found the end of the line"),
        ),
        (
            with_line(1, "  width  three"),
            format!("1:10: expected {NUMBER}, found 'three'"),
        ),
        (
            with_line(1, "width -3"),
            format!("1:7: expected {NUMBER}, found '-3'"),
        ),
        (
            with_line(1, "width 3 4"),
            "1:9: expected the end of the line, found '4'".into(),
        ),
        (
            with_line(1, "width 18446744073709551616"),
            format!("1:7: expected {NUMBER}, found '18446744073709551616'"),
        ),
        (
            with_line(2, "taps 0x10000000000000000"),
            format!("2:6: expected {word}, found '0x10000000000000000'"),
        ),
        (
            with_line(2, "taps 0x"),
            format!("2:6: expected {word}, found '0x'"),
        ),
        (
            with_line(2, "taps bits"),
            "2:10: expected a bit from 0 to 63, found the end of the line".into(),
        ),
        (
            with_line(2, "taps bits 0 64"),
            "2:13: expected a bit from 0 to 63, found '64'".into(),
        ),
        (
            with_line(2, "taps bits 0 1 0"),
            "2:15: expected each bit once, found '0'".into(),
        ),
        (
            with_line(3, "# no chains"),
            "4:1: expected 'inversion ..' or 'chains ..', found 'spread'".into(),
        ),
        (
            with_line(3, "taps 3"),
            "3:1: expected 'inversion ..' or 'chains ..', found 'taps'".into(),
        ),
        (
            with_line(3, "inversions 5"),
            "3:1: expected 'inversion ..' or 'chains ..', found 'inversions'".into(),
        ),
        (
            "width 3\ntaps 3\n".into(),
            "3:1: expected 'inversion ..' or 'chains ..', found the end of the file".into(),
        ),
        (
            with_line(3, "inversion 5"),
            "4:1: expected 'chains ..', found 'spread'".into(),
        ),
        (
            with_line(3, "inversion 5\ninversion 5"),
            "4:1: expected 'chains ..', found 'inversion'".into(),
        ),
        (
            with_line(2, "inversion 5\ntaps 3"),
            "2:1: expected 'taps ..', found 'inversion'".into(),
        ),
        (
            with_line(3, "chains 2\ninversion 5"),
            "4:1: expected 'spread ..', found 'inversion'".into(),
        ),
        (
            with_line(3, "inversion\nchains 2"),
            format!("3:10: expected {word}, found the end of the line"),
        ),
        (
            with_line(3, "inversion -5\nchains 2"),
            format!("3:11: expected {word}, found '-5'"),
        ),
        (
            with_line(3, "inversion 5 2\nchains 2"),
            "3:13: expected the end of the line, found '2'".into(),
        ),
        (
            with_line(3, "inversion bits\nchains 2"),
            "3:15: expected a bit from 0 to 63, found the end of the line".into(),
        ),
        (
            with_line(3, "inversion bits 0 64\nchains 2"),
            "3:18: expected a bit from 0 to 63, found '64'".into(),
        ),
        (
            with_line(4, "spread 1 1"),
            "4:8: expected chain 0, found '1'".into(),
        ),
        (
            with_line(5, "spread 1 4 2"),
            "5:12: expected the end of the line, found '2'".into(),
        ),
        (
            with_line(5, "spread 1 \u{e9}"),
            format!("5:10: expected {word}, found '\u{e9}'"),
        ),
        (
            with_line(3, "chains 3"),
            "6:1: expected 'spread ..', found 'slices'".into(),
        ),
        (
            with_line(7, "1X0"),
            "7:3: expected the end of the line behind 2 cells, found '0'".into(),
        ),
        (
            with_line(7, "1"),
            "7:2: expected 2 cells, one for each chain, found 1".into(),
        ),
        (
            with_line(7, "1 # X"),
            "7:2: expected 2 cells, one for each chain, found 1".into(),
        ),
        (
            with_line(7, "1 2"),
            "7:3: expected a cell: 0, 1 or X, found '2'".into(),
        ),
        (
            with_line(8, ""),
            "9:1: expected the cells of slice 1, found the end of the file".into(),
        ),
        (
            with_line(6, "slices 1"),
            "8:1: expected 'tie ..' or the end of the file behind 1 slices, found '10'".into(),
        ),
        (
            with_line(6, "slices 3"),
            "9:1: expected the cells of slice 2, found the end of the file".into(),
        ),
        (
            with_line(8, "10\ntie 0 1 7\n1X"),
            "10:1: expected 'tie ..' or the end of the file behind 2 slices, found '1X'".into(),
        ),
        (
            with_line(8, "tie 0 1 7\n10"),
            "8:1: expected a cell: 0, 1 or X, found 'tie 0 1 7'".into(),
        ),
        (
            with_line(8, "10\ntied 0 1 7"),
            "9:1: expected 'tie ..' or the end of the file behind 2 slices, found 'tied'".into(),
        ),
        (
            with_line(8, "10\n  tie"),
            format!("9:6: expected {COUNT}, found the end of the line"),
        ),
        (
            with_line(8, "10\ntie 0 1"),
            format!("9:8: expected {COUNT}, found the end of the line"),
        ),
        (
            with_line(8, "10\ntie 0 -1 7"),
            format!("9:7: expected {COUNT}, found '-1'"),
        ),
        (
            with_line(8, "10\ntie 65536 1 7"),
            format!("9:5: expected {COUNT}, found '65536'"),
        ),
        (
            with_line(8, "10\ntie 0 1 0x10000"),
            format!("9:9: expected {COUNT}, found '0x10000'"),
        ),
        (
            with_line(8, "10\ntie 0 1 7 inverted"),
            "9:11: expected 'opposite' or the end of the line, found 'inverted'".into(),
        ),
        (
            with_line(8, "10\ntie 0 1 7 opposite 1"),
            "9:20: expected the end of the line, found '1'".into(),
        ),
        (
            "".into(),
            "1:1: expected 'width ..', found the end of the file".into(),
        ),
    ];
    for (text, message) in cases {
        folder.put("a.txt", &text);
        let ran = folder.run(&["pack", "a.txt", "-o", "a.set"]);
        assert_eq!(ran.err, format!("canceller: a.txt:{message}\n"), "{text}");
        assert_eq!((ran.status, ran.out.len()), (3, 0), "{text}");
        assert_eq!(folder.names(), ["a.txt"], "nothing is written");
    }
}

#[test]
fn bytes_that_are_no_text() {
    let folder = Folder::new("no_text");
    for bytes in [
        &b"\xff\xfe\x00"[..],
        b"width \x00\xff\n",
        &sample("largest.set"),
    ] {
        folder.put("a.txt", bytes);
        let ran = folder.run(&["pack", "a.txt"]);
        assert_eq!((ran.status, ran.out.len()), (3, 0), "{}", ran.err);
        assert!(ran.err.starts_with("canceller: a.txt:1:"), "{}", ran.err);
    }
    // a byte order mark is no part of the text
    let marked = format!("\u{feff}{SAMPLE}");
    let ran = folder.run_with(&["pack", "-"], marked.as_bytes());
    assert_eq!(ran.out, sample("sample.set"), "{}", ran.err);
}

#[test]
fn a_text_longer_than_any() {
    let folder = Folder::new("long_text");
    let ran = folder.run(&["pack", "/dev/zero"]);
    assert_eq!(ran.status, 3);
    assert_eq!(
        ran.err,
        "canceller: /dev/zero: longer than any text of a set: 16,777,216 bytes\n"
    );
    // many chains are promised and none is there
    folder.put("a.txt", with_line(3, "chains 18446744073709551615"));
    let ran = folder.run(&["pack", "a.txt"]);
    assert_eq!(
        ran.err,
        "canceller: a.txt:6:1: expected 'spread ..', found 'slices'\n"
    );
}

#[test]
fn what_the_set_writer_refuses() {
    let folder = Folder::new("writer_refuses");
    let chains = |n: usize| -> String {
        let spread: String = (0..n).map(|c| format!("spread {c} 1\n")).collect();
        format!("width 3\ntaps 3\nchains {n}\n{spread}slices 0\n")
    };
    let slices = |s: usize| {
        format!("width 3\ntaps 3\nchains 1\nspread 0 1\nslices {s}\n") + &"0\n".repeat(s)
    };
    let inverted = |m: u64, word: &str| {
        format!("width {m}\ntaps 1\ninversion {word}\nchains 1\nspread 0 1\nslices 0\n")
    };
    let cases = [
        (with_line(1, "width 0"), 2),
        (with_line(1, "width 65"), 2),
        (with_line(1, "width 18446744073709551615"), 2),
        (with_line(2, "taps 2"), 3),
        (with_line(2, "taps 9"), 3),
        (inverted(3, "8"), 25),
        (inverted(3, "0x10"), 25),
        (inverted(3, "bits 0 63"), 25),
        (inverted(1, "2"), 25),
        (inverted(63, "bits 63"), 25),
        // the width and the taps are looked at before it, the chains after it
        (inverted(65, "bits 63"), 2),
        (with_line(2, "taps 2\ninversion 8"), 3),
        (chains(0).replace("taps 3\n", "taps 3\ninversion 8\n"), 25),
        (chains(0), 4),
        (chains(257), 4),
        (with_line(4, "spread 0 0"), 6),
        (with_line(4, "spread 0 8"), 6),
        (slices(513), 7),
    ];
    for (text, number) in cases {
        folder.put("a.txt", &text);
        let ran = folder.run(&["pack", "a.txt", "-o", "a.set"]);
        let expected = format!("canceller: a.txt: refused {number}: ");
        assert!(ran.err.starts_with(&expected), "{}\n{text}", ran.err);
        assert_eq!((ran.status, folder.names().len()), (2, 1), "{text}");
    }
    // and what is right by one
    for text in [
        chains(256),
        slices(512),
        slices(0),
        inverted(3, "7"),
        inverted(1, "1"),
        inverted(63, "bits 62"),
        inverted(64, "0xffffffffffffffff"),
    ] {
        folder.put("a.txt", &text);
        folder.done(&["pack", "a.txt", "-o", "a.set"]);
        assert!(read_set(&folder.get("a.set")).is_ok());
    }
}
