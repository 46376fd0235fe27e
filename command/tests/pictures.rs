//! The pictures: parsed as XML, and what they show held against the set or the rows.

mod common;
#[path = "common/xml.rs"]
mod xml;

use common::{inversion_of, sample, second_plan, with_inversion, Folder};
use reference::random::{content, file_of, small_content, Random};
use reference::second::elimination::rank;
use reference::second::plan::judge;
use reference::second::set::{read_set, Set};
use reference::second::word_of;
use std::collections::BTreeMap;
use xml::Element;

/// The cells that a path shows: the corner of each square.
fn squares(path: &Element) -> Vec<(usize, usize)> {
    let corner = |part: &str| {
        let corner = part
            .strip_suffix("h1v1h-1z")
            .expect("a square of the side 1");
        let (slice, chain) = corner.split_once(' ').unwrap();
        (slice.parse().unwrap(), chain.parse().unwrap())
    };
    path.attribute("d").split('M').skip(1).map(corner).collect()
}

/// The words that a picture shows: in decimal, and as rows of boxes.
fn words_shown(picture: &Element) -> Vec<(u64, String)> {
    let all = picture.all().into_iter();
    let rows = all.filter(|e| e.attributes.get("class").is_some_and(|c| c == "word"));
    let boxes = |e: &Element| -> String {
        let letter = |u: &Element| match u.attribute("href") {
            "#in" => '1',
            "#out" => '0',
            other => panic!("{other} in a word"),
        };
        e.children.iter().map(letter).collect()
    };
    rows.map(|e| (e.attribute("data-word").parse().unwrap(), boxes(e)))
        .collect()
}

fn grouped(n: usize) -> String {
    if n < 1000 {
        n.to_string()
    } else {
        format!("{},{:03}", n / 1000, n % 1000)
    }
}

/// Holds what a picture shows of ties against the set's: a square for each tied cell in its symbol's colour, a bar on those that hold
/// the opposite, the numbers where they fit, and the legend. What the heading says of them: nothing where there are none.
fn ties_shown(picture: &Element, set: &Set, name: &str) -> String {
    let texts = picture.texts();
    let legend = |what: &str| texts.iter().any(|text| text.starts_with(what));
    if set.ties.is_empty() {
        let all = picture.all();
        assert!(all
            .iter()
            .all(|e| e.attributes.get("id").is_none_or(|id| id != "ties")));
        assert!(!legend("tied to") && !legend(".. as its"), "{name}");
        return String::new();
    }
    let group = picture.by_id("ties");
    let cells = picture.by_id("cells");
    assert_eq!(group.attribute("transform"), cells.attribute("transform"));
    assert_eq!(group.children.len(), set.ties.len(), "{name}");
    let mut colours: BTreeMap<u64, &str> = BTreeMap::new();
    for (shown, tie) in group.children.iter().zip(&set.ties) {
        let ((slice, chain), symbol) = (tie.cell, tie.symbol);
        let side = ["as is", "opposite"][usize::from(tie.side)];
        let told = format!("slice {slice}, chain {chain}: symbol {symbol}, {side}");
        assert_eq!(shown.children[0].text, told, "{name}");
        let square = format!("M{slice}.1 {chain}.1h.8v.8h-.8z");
        assert_eq!(shown.children[1].attribute("d"), square, "{name}: {told}");
        let bars: Vec<&str> = shown.children[2..]
            .iter()
            .map(|e| e.attribute("d"))
            .collect();
        let bar = format!("M{slice}.2 {chain}.16h.6v.1h-.6z");
        let expected = if tie.side == 1 {
            vec![bar.as_str()]
        } else {
            vec![]
        };
        assert_eq!(bars, expected, "{name}: {told}");
        let colour = shown.children[1].attribute("fill");
        assert_eq!(*colours.entry(symbol).or_insert(colour), colour, "{name}");
    }
    let many = |n: usize, what: &str| format!("{n} {what}{}", if n == 1 { "" } else { "s" });
    let opposite = set.ties.iter().filter(|tie| tie.side == 1).count();
    for line in [
        format!(
            "tied to one of {}: {}",
            many(colours.len(), "symbol"),
            many(set.ties.len() - opposite, "cell")
        ),
        format!(".. as its opposite: {}", many(opposite, "cell")),
    ] {
        assert!(texts.contains(&line), "{name}: {line} in {texts:?}");
        let wide: f64 = picture.attribute("width").parse().unwrap();
        assert!(46.0 + line.len() as f64 * 7.224 <= wide, "{name}: {line}");
    }
    numbers_shown(picture, set, name);
    format!(", {}", many(set.symbols().len(), "symbol"))
}

/// The numbers on tied cells: each that is there stands in the middle of its cell, within it, and where cells are as large as can be all are
/// there.
fn numbers_shown(picture: &Element, set: &Set, name: &str) {
    let placed = figures(picture.by_id("cells").attribute("transform"));
    let [left, top, wide, high] = placed[..] else {
        panic!("{placed:?}");
    };
    let all = picture.all().into_iter();
    let numbers: Vec<&Element> = all
        .filter(|e| e.attributes.contains_key("font-size"))
        .collect();
    // the root element has the size of all other text
    let numbers = &numbers[1..];
    let place = |e: &Element, name: &str| e.attribute(name).parse::<f64>().unwrap();
    for e in numbers {
        let size = place(e, "font-size");
        assert!(e.text.len() as f64 * 0.602 * size <= 0.8 * wide && size <= high / 2.0 + 0.01);
        let slice = ((place(e, "x") - left) / wide).floor() as usize;
        let chain = ((place(e, "y") - top) / high).floor() as usize;
        let tie = set.ties.iter().find(|tie| tie.cell == (slice, chain));
        let symbol = tie.map(|tie| tie.symbol.to_string());
        assert_eq!(
            symbol.as_ref(),
            Some(&e.text),
            "{name}: slice {slice}, chain {chain}"
        );
    }
    if wide >= 28.0 && high >= 28.0 {
        assert_eq!(numbers.len(), set.ties.len(), "{name}");
    }
}

/// Holds the picture of a set against the set, by the second implementation.
fn holds(folder: &Folder, file: &[u8], name: &str) -> String {
    folder.put("a & b <c>.set", file);
    let svg = folder.done(&["draw", "a & b <c>.set"]);
    let picture = xml::parse(&svg);
    let set = read_set(file).unwrap();
    let mut seen = vec![vec!['?'; set.n()]; set.s()];
    let mut counts = Vec::new();
    for (id, letter) in [("zero", '0'), ("one", '1'), ("unknown", 'X')] {
        let path = picture.by_id(id);
        let cells = squares(path);
        assert_eq!(
            path.attribute("data-count"),
            cells.len().to_string(),
            "{name}"
        );
        counts.push(cells.len());
        for (slice, chain) in cells {
            assert_eq!(
                std::mem::replace(&mut seen[slice][chain], letter),
                '?',
                "{name}"
            );
        }
    }
    let letter = |(mark, value): (&bool, &bool)| match (mark, value) {
        (true, _) => 'X',
        (_, true) => '1',
        _ => '0',
    };
    for (t, (marks, values)) in set.marks.iter().zip(&set.values).enumerate() {
        let cells: Vec<char> = marks.iter().zip(values).map(letter).collect();
        assert_eq!(seen[t], cells, "{name}: slice {t}");
    }
    let texts = picture.texts();
    let plural = |n: usize| if n == 1 { "cell" } else { "cells" };
    for (what, count) in ["0", "1", "X, unknown"].into_iter().zip(&counts) {
        let legend = format!("{what}: {} {}", grouped(*count), plural(*count));
        assert!(texts.contains(&legend), "{name}: {legend} in {texts:?}");
    }
    let columns = set.columns();
    let (m, rank, unknown) = (set.circuit.m, rank(&columns), set.unknowns().len());
    let symbols = ties_shown(&picture, &set, name);
    let many = |n: usize, what: &str| format!("{n} {what}{}", if n == 1 { "" } else { "s" });
    let inversion = match inversion_of(file) {
        0 => String::new(),
        word => format!("inversion {word}, "),
    };
    let register = format!(
        "m {m}, taps {}, {inversion}{}, {}",
        word_of(&set.circuit.taps),
        many(set.n(), "chain"),
        many(set.s(), "slice")
    );
    assert!(texts.contains(&register), "{name}: {register} in {texts:?}");
    let head = format!(
        "{unknown} unknown {}{symbols}, rank {rank}, q {}",
        plural(unknown),
        m as u64 - rank
    );
    let Ok(planned) = second_plan(file) else {
        assert!(
            texts.contains(&format!(
                "{head}; no words: every signature is explained (17)"
            )),
            "{texts:?}"
        );
        assert!(words_shown(&picture).is_empty());
        return svg;
    };
    assert!(texts.contains(&head), "{name}: {head} in {texts:?}");
    let row = |w: &u64| {
        (0..m)
            .map(|b| if w >> b & 1 == 1 { '1' } else { '0' })
            .collect()
    };
    let words: Vec<(u64, String)> = planned.words.iter().map(|w| (*w, row(w))).collect();
    assert_eq!(words_shown(&picture), words, "{name}");
    for (i, word) in planned.words.iter().enumerate() {
        let bits = (0..64).filter(|b| word >> b & 1 == 1);
        let xor: Vec<String> = bits.map(|b| format!("M{}", b + 1)).collect();
        let expected = planned.expected >> i & 1;
        let line = format!("= {word} expected {expected} {}", xor.join("⊕"));
        let shown = texts
            .iter()
            .any(|t| t.split_whitespace().collect::<Vec<_>>().join(" ") == line);
        assert!(shown, "{name}: {line}");
    }
    svg
}

#[test]
fn responses_of_random_sets() {
    let folder = Folder::new("pictures");
    let mut tied = 0;
    for seed in 0..60 {
        let mut r = Random::new(seed);
        let content = small_content(&mut r, 64, 40, 30);
        let inversion = match r.below(2) {
            0 => 0,
            _ => r.some_within(content.m as usize),
        };
        let file = with_inversion(&file_of(&content), inversion);
        holds(&folder, &file, &format!("seed {seed}"));
        tied += usize::from(!content.ties.is_empty());
    }
    assert!(tied > 15, "{tied} sets with ties are too few");
}

#[test]
fn a_picture_says_the_inversion_word_beside_the_taps_only_where_it_is_not_0() {
    let folder = Folder::new("inversion_drawn");
    let set = sample("sample.set");
    let plain = holds(&folder, &set, "no inverters");
    assert!(plain.contains(">m 3, taps 3, 2 chains, 2 slices<"));
    let inverted = holds(&folder, &with_inversion(&set, 5), "two inverters");
    assert!(inverted.contains(">m 3, taps 3, inversion 5, 2 chains, 2 slices<"));
    // the longest word has room in the picture
    let largest = with_inversion(&sample("width-64.set"), u64::MAX);
    let picture = xml::parse(&holds(&folder, &largest, "64 inverters"));
    let texts = picture.texts();
    let heading = texts.iter().find(|t| t.contains("inversion")).unwrap();
    let wide: f64 = picture.attribute("width").parse().unwrap();
    assert!(24.0 + heading.chars().count() as f64 * 7.224 <= wide);
}

#[test]
fn responses_at_the_edges() {
    let folder = Folder::new("picture_edges");
    for name in [
        "sample",
        "slices-0",
        "width-1",
        "width-64",
        "chains-256",
        "no-words",
        "figure-2",
        "unknowns-4097",
        "ties",
        "ties-256",
    ] {
        holds(&folder, &sample(&format!("{name}.set")), name);
    }
}

#[test]
fn the_largest_response() {
    let folder = Folder::new("largest_picture");
    let mut r = Random::new(1);
    for (of, name) in [(3000, "few unknown cells"), (40, "many")] {
        let file = file_of(&content(&mut r, 64, 256, 512, 1, of));
        let svg = holds(&folder, &file, name);
        assert!(svg.len() < 4_000_000, "{} bytes", svg.len());
    }
}

/// A run as a picture shows it.
#[derive(Debug, PartialEq)]
struct Run {
    first: u64,
    last: u64,
    words: u64,
}

/// The numbers in a path or a transform, in their order.
fn figures(text: &str) -> Vec<f64> {
    let no_figure = |c: char| !(c.is_ascii_digit() || c == '.' || c == '-');
    let parts = text.split(no_figure).filter(|part| !part.is_empty());
    parts.map(|part| part.parse().expect(text)).collect()
}

/// The runs that a picture shows, held against where they are drawn: a bracket over the slices of each, and between two a line from
/// over the brackets down to the end of the response.
fn runs_shown(picture: &Element) -> Vec<Run> {
    let placed = figures(picture.by_id("cells").attribute("transform"));
    let [left, top, wide, high] = placed[..] else {
        panic!("{placed:?}");
    };
    let frame = |e: &&Element| e.name == "rect" && e.attributes.get("y") == Some(&top.to_string());
    let all = picture.all();
    let frame: Vec<&Element> = all.iter().copied().filter(frame).collect();
    assert_eq!(frame.len(), 1, "one frame");
    let down: f64 = frame[0].attribute("height").parse().unwrap();
    assert!(high <= down, "a chain at least");
    let is_near = |a: f64, b: f64| (a - b).abs() <= 0.05;
    let mut runs: Vec<Run> = Vec::new();
    let mut starts = Vec::new();
    let is_run = |e: &&&Element| e.attributes.get("class").is_some_and(|c| c == "run");
    for (i, e) in all.iter().filter(is_run).enumerate() {
        let number = |name: &str| e.attribute(name).parse::<u64>().unwrap();
        assert_eq!(number("data-run"), i as u64);
        let run = Run {
            first: number("data-first"),
            last: number("data-last"),
            words: number("data-words"),
        };
        let [x, y, up, across, back] = figures(e.attribute("d"))[..] else {
            panic!("{}", e.attribute("d"));
        };
        assert!(y < top && up < 0.0 && back == -up, "over the response");
        let (starts_at, ends_at) = (
            left + run.first as f64 * wide,
            left + (run.last + 1) as f64 * wide,
        );
        let gap = x - starts_at;
        assert!((0.0..=wide / 4.0).contains(&gap), "{run:?}");
        assert!(is_near(x + across + gap, ends_at), "{run:?}");
        if i > 0 {
            starts.push(starts_at);
        }
        runs.push(run);
    }
    let lines = figures(picture.by_id("cuts").attribute("d"));
    assert_eq!(lines.len(), 3 * starts.len(), "a line between two runs");
    for (line, x) in lines.chunks(3).zip(starts) {
        let (over, long) = (top - line[1], line[2]);
        assert!(is_near(line[0], x), "{line:?} at {x}");
        assert!(over > 8.0 && is_near(long - over, down), "{line:?}");
    }
    runs
}

/// Holds the picture of a set that is cut for k against the lines of `cut`, and against the picture without it.
fn holds_cut(folder: &Folder, file: &[u8], k: &str) -> (Element, Vec<Run>) {
    folder.put("a.set", file);
    let svg = folder.done(&["draw", "a.set", "--cut", k]);
    let (cut, plain) = (
        xml::parse(&svg),
        xml::parse(&folder.done(&["draw", "a.set"])),
    );
    let printed = folder.done(&["cut", "a.set", k]);
    let mut runs = Vec::new();
    for line in printed.lines().filter(|line| line.starts_with("run ")) {
        let words: Vec<&str> = line.split(' ').collect();
        let number = |at: usize| words[at].parse().unwrap();
        let (first, last, words) = (number(3), number(5), number(7));
        runs.push(Run { first, last, words });
    }
    assert_eq!(runs_shown(&cut), runs, "k {k}");
    let (_, bits) = printed.split_once(" = ").unwrap();
    let bits = bits.split(' ').next().unwrap();
    let group = cut.by_id("runs");
    assert_eq!(
        (group.attribute("data-k"), group.attribute("data-bits")),
        (k, bits)
    );
    // what else is shown stays: the cells, the words and every text
    for id in ["zero", "one", "unknown"] {
        let path = |picture: &Element| picture.by_id(id).attribute("d").to_string();
        assert_eq!(path(&cut), path(&plain), "{id}");
    }
    assert_eq!(words_shown(&cut), words_shown(&plain));
    let texts = cut.texts();
    assert!(plain.texts().iter().all(|text| texts.contains(text)));
    (cut, runs)
}

#[test]
fn a_cut_response_shows_its_runs() {
    let folder = Folder::new("runs_drawn");
    let (picture, runs) = holds_cut(&folder, &sample("runs.set"), "2");
    let firsts: Vec<u64> = runs.iter().map(|run| run.first).collect();
    assert_eq!(firsts, [0, 4, 7]);
    let texts = picture.texts();
    let heading = "cut for K 2: 3 runs, 24 control bits".to_string();
    assert!(texts.contains(&heading), "{texts:?}");
    // the numbers of the runs, in their row, each over the middle of its run: slices of 28 from 64 on
    let all = picture.all();
    let row = all
        .iter()
        .find(|e| e.text == "run")
        .expect("the row's name")
        .attribute("y");
    let in_row = |e: &&&Element| e.attributes.get("y").is_some_and(|y| y == row);
    let numbers: Vec<(&str, &str)> = all
        .iter()
        .filter(in_row)
        .filter(|e| e.name == "text" && e.text != "run")
        .map(|e| (e.text.as_str(), e.attribute("x")))
        .collect();
    assert_eq!(numbers, [("0", "120"), ("1", "218"), ("2", "274")]);
    let (picture, runs) = holds_cut(&folder, &sample("slices-0.set"), "3");
    assert!(runs.is_empty());
    let heading = "cut for K 3: 0 runs, 0 control bits".to_string();
    assert!(picture.texts().contains(&heading));
}

#[test]
fn without_the_option_no_run_is_drawn() {
    let folder = Folder::new("no_runs_drawn");
    folder.put("a.set", sample("runs.set"));
    let picture = folder.done(&["draw", "a.set"]);
    assert!(!picture.contains("id=\"runs\"") && !picture.contains("cut for"));
    folder.done(&["draw", "a.set", "--cut", "2", "-o", "a.svg"]);
    assert!(folder.text("a.svg").contains("id=\"runs\""));
}

#[test]
fn random_responses_that_are_cut() {
    let folder = Folder::new("random_runs_drawn");
    let mut several = 0;
    for seed in 0..40 {
        let mut r = Random::new(seed);
        let file = file_of(&content(&mut r, 8, 12, 40, 1, 60));
        folder.put("a.set", &file);
        let k = r.pick(&["1", "3", "5", "6"]);
        if folder.run(&["cut", "a.set", k]).status == 0 {
            several += usize::from(holds_cut(&folder, &file, k).1.len() > 1);
        }
    }
    assert!(several >= 15, "{several} with several runs are too few");
}

/// Where the runs are too narrow for their numbers some are left out, and those that are there don't run into each other.
#[test]
fn the_numbers_of_many_runs_stay_apart() {
    let folder = Folder::new("many_runs_drawn");
    let text = "width 64\ntaps 27\nchains 1\nspread 0 1\nslices 512\n";
    folder.put("a.txt", format!("{text}{}", "X\n".repeat(512)));
    folder.done(&["pack", "a.txt", "-o", "b.set"]);
    let (picture, runs) = holds_cut(&folder, &folder.get("b.set"), "63");
    assert_eq!(runs.len(), 512);
    let heading = "cut for K 63: 512 runs, 2,064,384 control bits".to_string();
    assert!(picture.texts().contains(&heading));
    let all = picture.all();
    let row = all.iter().find(|e| e.text == "run").unwrap().attribute("y");
    let mut free = 0.0;
    let mut numbers = 0;
    for e in all.iter().filter(|e| e.name == "text" && e.text != "run") {
        if e.attribute("y") == row {
            let x: f64 = e.attribute("x").parse().unwrap();
            let half = e.text.len() as f64 * 7.224 / 2.0;
            assert!(x - half >= free, "{} at {x}", e.text);
            free = x + half;
            numbers += 1;
        }
    }
    assert!((20..512).contains(&numbers), "{numbers} numbers");
}

/// What a map shows: the kind of each die by its place.
fn dies_shown(map: &Element, left: i32, top: i32) -> BTreeMap<(i32, i32), String> {
    let mut dies = BTreeMap::new();
    for die in &map.by_id("dies").children {
        let place = |name: &str| die.attribute(name).parse::<i32>().unwrap();
        let kind = die.attribute("href").trim_start_matches('#').to_string();
        let before = dies.insert((place("x") + left, place("y") + top), kind);
        assert_eq!(before, None, "a die twice");
    }
    dies
}

#[test]
fn wafer_maps_of_random_dies() {
    let folder = Folder::new("maps");
    folder.put("sample.set", sample("sample.set"));
    folder.done(&["plan", "sample.set", "-o", "sample.plan"]);
    let plan = folder.get("sample.plan");
    for seed in 0..20 {
        let mut r = Random::new(seed);
        let wide = 1 + r.below(40);
        let mut rows = "y,signature,x\n".to_string();
        let mut dies = BTreeMap::new();
        let mut retests = 0;
        for _ in 0..1 + r.below(500) {
            let (x, y) = (r.below(wide) as i32 - 7, 5 - r.below(wide) as i32);
            let signature = r.pick(&["0", "3", "0x3", "1", "7", "6", "8", "12", "no", ""]);
            rows += &format!("{y},{signature},{x}\n");
            let number = match signature.strip_prefix("0x") {
                Some(digits) => u64::from_str_radix(digits, 16).ok(),
                None => signature.parse::<u64>().ok(),
            };
            let kind = match number.map(|s| judge(&plan, s)) {
                None => "unreadable".to_string(),
                Some(Err(number)) => format!("refused{number}"),
                Some(Ok(judged)) => match judged.fails_at {
                    None => "pass".to_string(),
                    Some(word) => format!("w{word}"),
                },
            };
            if dies.insert((x, y), kind).is_some() {
                retests += 1;
            }
        }
        folder.put("a.csv", &rows);
        let words = [
            "judge",
            "sample.plan",
            "--csv",
            "a.csv",
            "-o",
            "/dev/null",
            "--map",
            "m.svg",
        ];
        let ran = folder.run(&words);
        let map = xml::parse(&folder.text("m.svg"));
        let left = dies.keys().map(|d| d.0).min().unwrap();
        let top = dies.keys().map(|d| d.1).min().unwrap();
        assert_eq!(
            dies_shown(&map, left, top),
            dies,
            "seed {seed}: {}",
            ran.err
        );
        // the legend's counts, in the order of the kinds
        let texts = map.texts();
        let names = [
            ("pass", "passes"),
            ("w0", "fails at word 0"),
            ("w1", "fails at word 1"),
            ("refused23", "refused 23"),
            ("unreadable", "unreadable"),
        ];
        for (kind, name) in names {
            let count = dies.values().filter(|k| *k == kind).count();
            let line = format!("{name}: {count}");
            let there = texts.contains(&line);
            assert!(
                there || count == 0 && kind != "pass",
                "seed {seed}: {line} in {texts:?}"
            );
        }
        assert!(texts.contains(&format!("{} dies; x to the right, y down", dies.len())));
        let said = format!(
            "canceller: a.csv: retests: {retests}; of the rows for one place the last one counts"
        );
        assert_eq!(
            ran.err.lines().any(|l| l == said),
            retests > 0,
            "{}",
            ran.err
        );
    }
}

#[test]
fn places_that_a_map_has_no_room_for() {
    let folder = Folder::new("no_room");
    folder.put("sample.set", sample("sample.set"));
    folder.done(&["plan", "sample.set", "-o", "sample.plan"]);
    let words = [
        "judge",
        "sample.plan",
        "--csv",
        "-",
        "-o",
        "out.csv",
        "--map",
        "m.svg",
    ];
    let ran = folder.run_with(&words, b"x,y,signature\n0,0,3\n10000,0,3\n");
    assert_eq!(
        ran.err,
        "canceller: the places reach from x 0 to 10000 and from y 0 to 0: a map has room for 10,000 each way\n"
    );
    assert_eq!(
        (ran.status, folder.names()),
        (3, vec!["sample.plan".into(), "sample.set".into()])
    );
    // rows without a place are judged, and counted
    let ran = folder.run_with(
        &words,
        b"x,y,signature\n0,0,3\n1.5,0,1\n0,2147483648,3\n0\n",
    );
    assert_eq!(ran.status, 3);
    let line = "without a place on the map: 3; the first: standard input:3:1: expected a whole number, found '1.5'";
    assert!(ran.err.contains(line), "{}", ran.err);
    assert_eq!(
        folder.text("out.csv"),
        "x,y,signature,verdict,index\n0,0,3,pass,\n1.5,0,1,fail,0\n0,2147483648,3,pass,\n0,unreadable,\n"
    );
    let map = xml::parse(&folder.text("m.svg"));
    assert_eq!(map.by_id("dies").children.len(), 1);
    // .. and are status 3 by themselves
    let ran = folder.run_with(&words, b"x,y,signature\n0,0,3\n,0,3\n");
    assert_eq!(ran.status, 3, "{}", ran.err);
    // no rows at all
    let ran = folder.run_with(&words, b"x,y,signature\n");
    assert_eq!(ran.status, 0);
    let map = xml::parse(&folder.text("m.svg"));
    assert_eq!(map.by_id("dies").children.len(), 0);
}
