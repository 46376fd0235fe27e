//! Judging a CSV file: what is passed through, what is appended, what is counted, and how much memory it takes.

mod common;

use common::{ended, sample, stored, Folder, Ran};
use reference::random::{reduced_words, Random};
use reference::second::plan::{judge, write_plan, Plan};
use std::io::{Read, Write};
use std::process::{Command, Stdio};
use std::time::Duration;

/// A folder with the sample's plan.
fn with_plan(name: &str) -> Folder {
    let folder = Folder::new(name);
    folder.put("sample.set", sample("sample.set"));
    folder.done(&["plan", "sample.set", "-o", "sample.plan"]);
    folder
}

#[test]
fn the_dies_of_the_sample() {
    let folder = with_plan("dies");
    folder.put("dies.csv", sample("dies.csv"));
    let words = [
        "judge",
        "sample.plan",
        "--csv",
        "dies.csv",
        "-o",
        "judged.csv",
        "--map",
        "map.svg",
    ];
    let ran = folder.run(&words);
    assert_eq!(ran.err, stored("dies.summary.txt"));
    assert_eq!(folder.text("judged.csv"), stored("dies.judged.csv"));
    assert_eq!(folder.text("map.svg"), stored("dies.map.svg"));
    assert_eq!((ran.status, ran.out.len()), (3, 0));
    // from standard input to standard output, without the map
    let ran = folder.run_with(&["judge", "sample.plan", "--csv", "-"], &sample("dies.csv"));
    assert_eq!(ran.text(), stored("dies.judged.csv"));
}

/// What comes out for these rows, by the sample's plan.
fn judged(folder: &Folder, rows: &str) -> Ran {
    folder.run_with(&["judge", "sample.plan", "--csv", "-"], rows.as_bytes())
}

#[test]
fn rows_pass_through_byte_for_byte() {
    let folder = with_plan("byte_for_byte");
    let cases = [
        // line ends of both kinds, and none behind the last row
        ("signature\r\n3\r\n1\r\n", "signature,verdict,index\r\n3,pass,\r\n1,fail,0\r\n"),
        ("signature\n3\r\n7", "signature,verdict,index\n3,pass,\r\n7,fail,1"),
        ("signature", "signature,verdict,index"),
        ("signature\n", "signature,verdict,index\n"),
        // blank lines are no rows
        ("signature\n\n3\n\r\n\n", "signature,verdict,index\n\n3,pass,\n\r\n\n"),
        // quotes: commas, quotes and line ends in a field
        ("\"a,b\",signature\n\"x\ny\"\"z,\",0\n", "\"a,b\",signature,verdict,index\n\"x\ny\"\"z,\",0,pass,\n"),
        ("a,\" signature \"\n,\" 0x7 \"\n", "a,\" signature \",verdict,index\n,\" 0x7 \",fail,1\n"),
        ("a,signature\n5\" disk,3\n", "a,signature,verdict,index\n5\" disk,3,pass,\n"),
        // numbers
        ("signature\n0X3\n0x0000000000000000000000007\n", "signature,verdict,index\n0X3,pass,\n0x0000000000000000000000007,fail,1\n"),
        ("signature\n000000000000000000000000000000\n", "signature,verdict,index\n000000000000000000000000000000,pass,\n"),
        ("signature\n8\n18446744073709551615\n", "signature,verdict,index\n8,refused,23\n18446744073709551615,refused,23\n"),
        ("signature\n18446744073709551616\n0x10000000000000000\n", "signature,verdict,index\n18446744073709551616,unreadable,\n0x10000000000000000,unreadable,\n"),
        ("signature\n3.0\n1e3\n0x\n+3\n-0\n3 3\n", "signature,verdict,index\n3.0,unreadable,\n1e3,unreadable,\n0x,unreadable,\n+3,unreadable,\n-0,unreadable,\n3 3,unreadable,\n"),
        // rows without the field, with an empty one, and with more fields than the header
        ("a,signature\n1\n1,\n1,3,extra\n", "a,signature,verdict,index\n1,unreadable,\n1,,unreadable,\n1,3,extra,pass,\n"),
        // a byte order mark, and letters of any kind
        ("\u{feff}signature,n\n3,\u{e9}\u{1f600}\n", "\u{feff}signature,n,verdict,index\n3,\u{e9}\u{1f600},pass,\n"),
        ("\u{feff}\"signature\",n\n3,\n", "\u{feff}\"signature\",n,verdict,index\n3,,pass,\n"),
    ];
    for (rows, expected) in cases {
        let ran = judged(&folder, rows);
        assert_eq!(ran.text(), expected, "{rows:?}: {}", ran.err);
    }
    let bytes = b"signature,n\n3,\xff\xfe\x00\n";
    let ran = folder.run_with(&["judge", "sample.plan", "--csv", "-"], bytes);
    assert_eq!(
        ran.out,
        b"signature,n,verdict,index\n3,\xff\xfe\x00,pass,\n"
    );
}

#[test]
fn the_exit_status_is_the_worst_of_the_rows() {
    let folder = with_plan("worst");
    let cases = [
        ("signature\n", 0),
        ("signature\n3\n0\n", 0),
        ("signature\n3\n1\n", 1),
        ("signature\n1\n8\n3\n", 2),
        ("signature\n1\n8\nx\n3\n", 3),
    ];
    for (rows, status) in cases {
        assert_eq!(judged(&folder, rows).status, status, "{rows:?}");
    }
}

#[test]
fn the_first_unreadable_row_and_its_place() {
    let folder = with_plan("first_unreadable");
    let cases = [
        (
            "a,signature\n1,3\n\u{e9},abc\nb,def\n",
            "3:3: expected a number from 0 to 2^64 - 1, decimal or 0x.., found 'abc'",
        ),
        (
            "a,signature\n1,3\n4\n",
            "3:2: expected a number from 0 to 2^64 - 1, decimal or 0x.., found the end of the row",
        ),
        (
            "a,signature\n\"1\n2\n3\",3\n\"\n\",x\n",
            "6:3: expected a number from 0 to 2^64 - 1, decimal or 0x.., found 'x'",
        ),
    ];
    for (rows, place) in cases {
        let ran = judged(&folder, rows);
        let line = ran.err.lines().last().unwrap();
        let expected = format!(
            "canceller: standard input: the first that is unreadable: standard input:{place}"
        );
        assert_eq!(line, expected);
        assert_eq!(ran.status, 3);
    }
}

#[test]
fn files_that_are_no_csv_file_of_dies() {
    let folder = with_plan("no_csv");
    let long = format!("signature,n\n3,\n3,{}\n", "x".repeat(1 << 20));
    let quoted = format!("signature,n\n3,\n3,\"{}\n", "x\n".repeat(1 << 20));
    let cases = [
        ("", "1:1: expected a header, found the end of the file"),
        (
            "x,y\n1,2\n",
            "1:1: expected a column 'signature' in the header, found 'x,y'",
        ),
        (
            "signature,signature\n1,2\n",
            "1:1: expected one column 'signature', found two",
        ),
        (
            "signature,n\n3,\n3,\"open\n3,\n",
            "3:3: expected a quoted field that is closed, found the end of the file",
        ),
        (
            &long,
            "3:1: expected a row of at most 1,048,576 bytes, found a longer one",
        ),
        (
            &quoted,
            "3:1: expected a row of at most 1,048,576 bytes, found a longer one",
        ),
    ];
    for (rows, message) in cases {
        folder.put("a.csv", rows);
        let ran = folder.run(&["judge", "sample.plan", "--csv", "a.csv", "-o", "out.csv"]);
        assert_eq!(ran.err, format!("canceller: a.csv:{message}\n"));
        assert_eq!((ran.status, ran.out.len()), (3, 0));
        assert_eq!(folder.names(), ["a.csv", "sample.plan", "sample.set"]);
    }
    // a row that is as long as it may be
    let row = format!("3,{}", "x".repeat((1 << 20) - 2));
    let ran = judged(&folder, &format!("signature,n\n{row}\n1,\n"));
    assert_eq!(
        ran.text(),
        format!("signature,n,verdict,index\n{row},pass,\n1,,fail,0\n")
    );
}

#[test]
fn a_column_of_another_name() {
    let folder = with_plan("column");
    let words = [
        "judge",
        "sample.plan",
        "--csv",
        "-",
        "--column",
        "sig \"B\", read",
    ];
    let ran = folder.run_with(&words, b"signature,\"sig \"\"B\"\", read\"\n0,1\n");
    assert_eq!(
        ran.text(),
        "signature,\"sig \"\"B\"\", read\",verdict,index\n0,1,fail,0\n"
    );
    let ran = folder.run_with(
        &["judge", "sample.plan", "--csv", "-", "--map", "m.svg"],
        b"x,signature\n0,1\n",
    );
    assert_eq!(
        ran.err,
        "canceller: standard input:1:1: expected a column 'y' in the header, found 'x,signature'\n"
    );
}

#[test]
fn a_file_judged_into_itself() {
    let folder = with_plan("itself");
    folder.put("a.csv", "signature\n3\n1\n");
    let ran = folder.run(&["judge", "sample.plan", "--csv", "a.csv", "-o", "a.csv"]);
    assert_eq!(ran.status, 1);
    assert_eq!(
        folder.text("a.csv"),
        "signature,verdict,index\n3,pass,\n1,fail,0\n"
    );
}

/// A plan of 10 bits, and what the second implementation gives each signature below 2,048.
fn ten_bits() -> (Vec<u8>, Vec<String>) {
    let mut r = Random::new(77);
    let words = reduced_words(&mut r, 10);
    let expected = r.within(words.len());
    let plan = Plan {
        m: 10,
        words,
        expected,
    };
    let file = write_plan(&plan, 526).unwrap();
    let said = |signature| match judge(&file, signature) {
        Ok(judged) => match judged.fails_at {
            None => "pass,".to_string(),
            Some(word) => format!("fail,{word}"),
        },
        Err(number) => format!("refused,{number}"),
    };
    let all = (0..2048).map(said).collect();
    (file, all)
}

/// A row, and the row that should come out.
fn row(r: &mut Random, i: usize, said: &[String]) -> (String, String) {
    let signature = r.below(2048);
    let (field, verdict) = match r.below(50) {
        0 => (
            r.pick(&["", "n/a", "12a", "0xg", "99999999999999999999"])
                .to_string(),
            "unreadable,",
        ),
        1 => (format!("\"{signature}\""), said[signature].as_str()),
        2..10 => (format!("0x{signature:x}"), said[signature].as_str()),
        _ => (signature.to_string(), said[signature].as_str()),
    };
    let note = r.pick(&[
        "",
        "plain",
        "\"with, comma\"",
        "\"two\nlines\"",
        "\"\"\"quoted\"\"\"",
    ]);
    let end = r.pick(&["\n", "\r\n"]);
    let row = format!("L{},{note},{field}", i % 7);
    (format!("{row}{end}"), format!("{row},{verdict}{end}"))
}

/// Feeds so many rows through a pipe, holds what comes out to what should, and gives the most memory that the command had, in KiB.
fn fed(folder: &Folder, rows: usize, said: &[String]) -> u64 {
    let mut child = folder
        .command(&["judge", "ten.plan", "--csv", "-"])
        .stdin(Stdio::piped())
        .stdout(Stdio::piped())
        .stderr(Stdio::piped())
        .spawn()
        .unwrap();
    let (mut stdin, mut stdout) = (child.stdin.take().unwrap(), child.stdout.take().unwrap());
    let id = child.id();
    let (mut sent, mut wanted) = (String::new(), String::new());
    let (mut r, mut most) = (Random::new(78), 0);
    std::thread::scope(|scope| {
        let comes = scope.spawn(move || {
            let mut all = String::new();
            stdout.read_to_string(&mut all).unwrap();
            all
        });
        sent += "lot,note,signature\n";
        wanted += "lot,note,signature,verdict,index\n";
        for i in 0..rows {
            let (row, judged) = row(&mut r, i, said);
            sent += &row;
            wanted += &judged;
            if sent.len() > 60_000 || i + 1 == rows {
                stdin.write_all(sent.as_bytes()).unwrap();
                sent.clear();
            }
        }
        // blank lines, more than a pipe holds: when they are written, the rows are read
        let blank = "\n".repeat(1 << 18);
        stdin.write_all(blank.as_bytes()).unwrap();
        wanted += &blank;
        let status = std::fs::read_to_string(format!("/proc/{id}/status")).unwrap();
        let peak = status.lines().find_map(|l| l.strip_prefix("VmHWM:"));
        most = peak
            .unwrap()
            .trim()
            .trim_end_matches(" kB")
            .parse()
            .unwrap();
        drop(stdin);
        assert!(comes.join().unwrap() == wanted, "{rows} rows");
    });
    let ran = ended(child);
    let first = ran.err.lines().next().unwrap();
    let count = reference_count(rows);
    assert!(
        first.starts_with(&format!("canceller: standard input: {count} rows: ")),
        "{first}"
    );
    assert_eq!(ran.status, 3);
    most
}

fn reference_count(rows: usize) -> &'static str {
    match rows {
        1_000 => "1,000",
        1_000_000 => "1,000,000",
        other => panic!("{other}"),
    }
}

#[test]
fn a_million_rows_with_bad_ones_among_them_in_flat_memory() {
    let folder = Folder::new("million");
    let (plan, said) = ten_bits();
    for kind in ["pass,", "fail,0", "fail,1", "refused,23"] {
        assert!(said.iter().any(|s| s == kind), "{kind} comes up");
    }
    folder.put("ten.plan", plan);
    let few = fed(&folder, 1_000, &said);
    let many = fed(&folder, 1_000_000, &said);
    assert!(
        many <= few + 1024,
        "{many} KiB for a million rows, {few} KiB for a thousand"
    );
}

/// The progress line comes on a terminal, and is cleared; `script` gives the command a terminal.
#[test]
fn progress_on_a_terminal() {
    let folder = with_plan("progress");
    let made = Command::new("mkfifo").arg(folder.0.join("rows")).status();
    assert!(made.expect("mkfifo starts").success());
    let line = format!(
        "\"{}\" judge sample.plan --csv rows -o out.csv",
        env!("CARGO_BIN_EXE_canceller")
    );
    let child = Command::new("script")
        .args(["-qec", &line, "/dev/null"])
        .current_dir(&folder.0)
        .stdin(Stdio::null())
        .stdout(Stdio::piped())
        .stderr(Stdio::piped())
        .spawn()
        .expect("script, of Debian's bsdutils, starts");
    let mut rows = std::fs::OpenOptions::new()
        .write(true)
        .open(folder.0.join("rows"))
        .unwrap();
    let many = "3\n".repeat(1 << 16);
    rows.write_all(b"signature\n").unwrap();
    rows.write_all(many.as_bytes()).unwrap();
    std::thread::sleep(Duration::from_millis(400));
    rows.write_all(many.as_bytes()).unwrap();
    drop(rows);
    let ran = ended(child);
    let shown = ran.text();
    assert!(shown.contains("\r131,072 rows"), "{shown:?}");
    assert!(
        shown.contains("\r          "),
        "the line is cleared: {shown:?}"
    );
    assert!(
        shown.contains("131,072 rows: 131,072 pass, 0 fail"),
        "{shown:?}"
    );
    assert_eq!(ran.status, 0);
}
