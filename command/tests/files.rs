//! Files that can't be read or written, that are longer than anything, and what is left behind.

mod common;

use common::{ended, sample, stored, with_planned_sample, Folder};
use std::fs::File;
use std::os::unix::fs::{symlink, PermissionsExt};
use std::process::{Command, Stdio};

fn with_sample(name: &str) -> Folder {
    let folder = with_planned_sample(name);
    folder.put("sample.txt", sample("sample.txt"));
    folder.put("dies.csv", sample("dies.csv"));
    folder
}

/// Every use that prints.
const PRINTS: [&[&str]; 11] = [
    &["pack", "sample.txt"],
    &["show", "sample.set"],
    &["plan", "sample.set"],
    &["expect", "sample.plan", "sample.set"],
    &["words", "sample.plan"],
    &["columns", "sample.set"],
    &["draw", "sample.set"],
    &["judge", "sample.plan", "3"],
    &["judge", "sample.plan", "--csv", "dies.csv"],
    &["explain", "3"],
    &["--help"],
];

#[test]
fn a_pipe_that_nobody_reads() {
    let folder = with_sample("closed_pipe");
    for words in PRINTS {
        let (reader, writer) = std::io::pipe().unwrap();
        drop(reader);
        let child = folder
            .command(words)
            .stdin(Stdio::null())
            .stdout(writer)
            .stderr(Stdio::piped())
            .spawn()
            .unwrap();
        let ran = ended(child);
        assert_eq!((ran.status, ran.err.as_str()), (3, ""), "{words:?}");
    }
}

#[test]
fn a_pipe_whose_reader_leaves() {
    let folder = Folder::new("reader_leaves");
    folder.put("a.set", sample("unknowns-4097.set"));
    let line = format!(
        "'{}' draw a.set | head -c 10; echo; echo $0",
        env!("CARGO_BIN_EXE_canceller")
    );
    let shell = Command::new("sh")
        .args(["-c", &line])
        .current_dir(&folder.0)
        .output()
        .unwrap();
    assert_eq!(String::from_utf8_lossy(&shell.stdout), "<svg xmlns\nsh\n");
    assert_eq!(String::from_utf8_lossy(&shell.stderr), "");
}

#[test]
fn a_full_disk() {
    let folder = with_sample("full_disk");
    for words in PRINTS {
        let full = File::options().write(true).open("/dev/full").unwrap();
        let ran = folder.run_to(words, full);
        assert_eq!(
            (ran.status, ran.err.as_str()),
            (3, "canceller: standard output: can't be written: No space left on device (os error 28)\n"),
            "{words:?}"
        );
    }
    let ran = folder.run(&["pack", "sample.txt", "-o", "/dev/full"]);
    assert_eq!(
        (ran.status, ran.err.as_str()),
        (
            3,
            "canceller: /dev/full: can't be written: No space left on device (os error 28)\n"
        )
    );
}

/// A disk that fills up in the middle of a file: a limit of 100 blocks stands in for it.
#[test]
fn a_disk_that_fills_up() {
    let folder = with_sample("fills_up");
    folder.put("out.csv", "old");
    folder.put(
        "rows.csv",
        "signature\n".to_string() + &"3\n".repeat(200_000),
    );
    let names = folder.names();
    let line = format!(
        "trap '' XFSZ; ulimit -f 100; exec '{}' judge sample.plan --csv rows.csv -o out.csv",
        env!("CARGO_BIN_EXE_canceller")
    );
    let shell = Command::new("sh")
        .args(["-c", &line])
        .current_dir(&folder.0)
        .output()
        .unwrap();
    let message = String::from_utf8_lossy(&shell.stderr);
    assert_eq!(
        message,
        "canceller: out.csv: can't be written: File too large (os error 27)\n"
    );
    assert_eq!(shell.status.code(), Some(3));
    assert_eq!(folder.text("out.csv"), "old");
    assert_eq!(folder.names(), names, "nothing is left behind");
}

#[test]
fn inputs_that_cannot_be_read() {
    let folder = with_sample("unreadable");
    std::fs::create_dir(folder.0.join("folder")).unwrap();
    let missing = "can't be read: No such file or directory (os error 2)";
    let is_folder = "can't be read: Is a directory (os error 21)";
    for (name, why) in [("none", missing), ("folder", is_folder)] {
        let cases: [&[&str]; 11] = [
            &["pack", name],
            &["show", name],
            &["plan", name],
            &["expect", name, "sample.set"],
            &["expect", "sample.plan", name],
            &["words", name],
            &["sign", name, "sample.set"],
            &["sign", "sample.set", name],
            &["judge", name, "3"],
            &["judge", "sample.plan", "--csv", name],
            &["draw", name],
        ];
        for words in cases {
            let ran = folder.run(words);
            assert_eq!(ran.err, format!("canceller: {name}: {why}\n"), "{words:?}");
            assert_eq!((ran.status, ran.out.len()), (3, 0), "{words:?}");
        }
    }
    let ran = folder
        .command(&["plan", "-"])
        .stdin(File::open(&folder.0).unwrap())
        .output()
        .unwrap();
    let message = String::from_utf8_lossy(&ran.stderr);
    assert_eq!(message, format!("canceller: standard input: {is_folder}\n"));
    assert_eq!(ran.status.code(), Some(3));
}

#[test]
fn outputs_that_cannot_be_written() {
    let folder = with_sample("unwritable");
    std::fs::create_dir(folder.0.join("folder")).unwrap();
    let names = folder.names();
    for (name, why) in [
        ("none/a", "No such file or directory (os error 2)"),
        ("folder", "Is a directory (os error 21)"),
        ("sample.set/a", "Not a directory (os error 20)"),
    ] {
        for words in [
            &["pack", "sample.txt", "-o", name][..],
            &["draw", "sample.set", "-o", name],
            &["plan", "sample.set", "-o", name],
            &["expect", "sample.plan", "sample.set", "-o", name],
            &["judge", "sample.plan", "--csv", "dies.csv", "-o", name],
            &[
                "judge",
                "sample.plan",
                "--csv",
                "dies.csv",
                "-o",
                "o.csv",
                "--map",
                name,
            ],
        ] {
            let ran = folder.run(words);
            assert_eq!(
                ran.err,
                format!("canceller: {name}: can't be written: {why}\n"),
                "{words:?}"
            );
            assert_eq!((ran.status, ran.out.len()), (3, 0), "{words:?}");
            assert_eq!(folder.names(), names, "{words:?}: nothing is left behind");
        }
    }
}

#[test]
fn an_output_stays_as_it_was_unless_the_new_one_is_whole() {
    let folder = with_sample("stays");
    folder.put("out", "old");
    folder.put("broken.txt", "width 3\n");
    folder.put("no.set", sample("no-words.set"));
    folder.put("broken.csv", "signature\n3\n\"3\n");
    let names = folder.names();
    for (words, status) in [
        (&["pack", "broken.txt", "-o", "out"][..], 3),
        (&["plan", "no.set", "-o", "out"], 2),
        (
            &["judge", "sample.plan", "--csv", "broken.csv", "-o", "out"],
            3,
        ),
        (
            &["judge", "sample.plan", "--csv", "sample.txt", "-o", "out"],
            3,
        ),
    ] {
        assert_eq!(folder.run(words).status, status, "{words:?}");
        assert_eq!(folder.text("out"), "old", "{words:?}");
        assert_eq!(folder.names(), names, "{words:?}: nothing is left behind");
    }
}

#[test]
fn links_and_modes_of_an_output_are_kept() {
    let folder = with_sample("links");
    let place = folder.0.join("real.set");
    std::fs::write(&place, "old").unwrap();
    std::fs::set_permissions(&place, PermissionsExt::from_mode(0o640)).unwrap();
    symlink("real.set", folder.0.join("link.set")).unwrap();
    folder.done(&["pack", "sample.txt", "-o", "link.set"]);
    assert_eq!(folder.get("real.set"), sample("sample.set"));
    let link = std::fs::symlink_metadata(folder.0.join("link.set")).unwrap();
    assert!(link.file_type().is_symlink());
    let mode = std::fs::metadata(&place).unwrap().permissions().mode();
    assert_eq!(mode & 0o777, 0o640);
}

/// Files far longer than anything that is taken: sparse ones, and one without an end.
#[test]
fn files_of_any_size() {
    let folder = with_sample("any_size");
    let long = |name: &str, front: &[u8]| {
        folder.put(name, front);
        let file = File::options()
            .write(true)
            .open(folder.0.join(name))
            .unwrap();
        file.set_len(1 << 40).unwrap();
    };
    long("long.set", &sample("sample.set"));
    long("long.plan", &folder.get("sample.plan"));
    long("long.record", &[1, 1]);
    for (words, number) in [
        (&["plan", "long.set"][..], 8),
        (&["show", "long.set"], 8),
        (&["expect", "sample.plan", "long.set"], 8),
        (&["expect", "long.plan", "sample.set"], 22),
        (&["draw", "long.set"], 8),
        (&["words", "long.plan"], 22),
        (&["judge", "long.plan", "3"], 22),
        (&["sign", "sample.set", "long.record"], 12),
        (&["sign", "long.set", "long.record"], 8),
        (&["plan", "/dev/zero"], 2),
        (&["judge", "/dev/zero", "3"], 19),
    ] {
        let ran = folder.run(words);
        assert_eq!(ran.status, 2, "{words:?}: {}", ran.err);
        assert!(
            ran.err.contains(&format!(": refused {number}: ")),
            "{words:?}: {}",
            ran.err
        );
    }
    for words in [
        &["pack", "/dev/zero"][..],
        &["judge", "sample.plan", "--csv", "/dev/zero"],
    ] {
        assert_eq!(folder.run(words).status, 3, "{words:?}");
    }
}

#[test]
fn names_that_are_no_utf_8() {
    use std::os::unix::ffi::OsStrExt;
    let folder = with_sample("odd_names");
    let name = std::ffi::OsStr::from_bytes(b"odd \xff name.set");
    let made = folder
        .command(&["pack", "sample.txt", "-o"])
        .arg(name)
        .status()
        .unwrap();
    assert!(made.success());
    assert_eq!(
        std::fs::read(folder.0.join(name)).unwrap(),
        sample("sample.set")
    );
    let shown = folder.command(&["show"]).arg(name).output().unwrap();
    assert_eq!(String::from_utf8(shown.stdout).unwrap(), stored("show.txt"));
}
