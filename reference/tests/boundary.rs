//! The C header: compiled as C and as C++ and called on the sample, and held to the Rust declarations and to what the static
//! library exports. And the Rust wrapper's functions for planning's two calls, for cutting and for ties.

use reference::library::canceller::{
    cut, expect, plan, plan_words, read_set, ties, write_set, Refusal, Tie, SET_MAX, WORKING_PLACES,
};
use reference::repository::{repository, sample, text};
use std::collections::BTreeMap;
use std::path::Path;
use std::process::Command;

/// Compiles boundary.c, strictly, and runs it.
fn run(compiler: &str, language: [&str; 2], name: &str) -> String {
    let out = Path::new(env!("CARGO_TARGET_TMPDIR")).join(name);
    let built = Command::new(compiler)
        .args(["-Wall", "-Wextra", "-pedantic", "-Werror", "-O1"])
        .args(language)
        .arg("-I")
        .arg(repository().join("include"))
        .arg(repository().join("reference/tests/boundary.c"))
        .args(["-x", "none"])
        .arg(repository().join("target/staticlib/libcanceller.a"))
        .arg("-o")
        .arg(&out)
        .output()
        .unwrap_or_else(|e| panic!("{compiler} could not be started: {e}"));
    let messages = String::from_utf8_lossy(&built.stderr);
    assert!(built.status.success(), "{messages}");
    let ran = Command::new(&out).output().expect("the program starts");
    let text = String::from_utf8(ran.stdout).unwrap();
    assert!(ran.status.success(), "{text}");
    text
}

const LINES: &str = "set written: 44 bytes\nset read\nrows found\nclocked\nsigned: 3 and 0\ncolumn: 3\neliminated\n\
                     words: 3 4, expected 0, revised 1\nplanned: words 3 4, expected 0\n\
                     plan written and read: 23 bytes\njudged\ncut: 1 run, 6 bits; 2 runs, 12 bits\ninverted: signed 5, expected 3\n\
                     tied: column 2, words 1 4, expected 1\n";

#[test]
fn a_c_program_calls_every_function_on_the_sample() {
    assert_eq!(run("cc", ["-std=c11", "-xc"], "boundary_c"), LINES);
}

#[test]
fn a_cpp_program_calls_every_function_on_the_sample() {
    assert_eq!(run("c++", ["-std=c++11", "-xc++"], "boundary_cpp"), LINES);
}

#[test]
fn the_rust_wrapper_gives_the_words_and_the_expected_bits_of_the_sample() {
    let (set, none) = (sample("sample.set"), sample("no-words.set"));
    assert_eq!(plan_words(&set), Ok((3, vec![3, 4])));
    assert_eq!(plan_words(&none), Err(Refusal(17)));
    let lines: [(&[u64], _); 4] = [
        (&[3, 4], Ok(0)),
        (&[1, 2, 4], Ok(3)),
        (&[], Err(Refusal(20))),
        (&[4, 3], Err(Refusal(21))),
    ];
    for (words, expected) in lines {
        assert_eq!(expect(&set, words), expected, "{words:?}");
    }
    assert_eq!(expect(&none, &[1]), Ok(0));
}

#[test]
fn the_rust_wrapper_cuts_the_sample() {
    let (set, none) = (sample("sample.set"), sample("no-words.set"));
    for (k, cutting) in [
        (0, Err(Refusal(26))),
        (1, Ok((vec![0], 3))),
        (2, Ok((vec![0], 6))),
        (3, Err(Refusal(27))),
        (4, Err(Refusal(26))),
    ] {
        assert_eq!(cut(&set, k), cutting, "k {k}");
    }
    assert_eq!(cut(&none, 1), Err(Refusal(27)));
    assert_eq!(cut(&sample("slices-0.set"), 3), Ok((vec![], 0)));
    // slice 1 with an unknown cell too: two runs leave 2 words each, one run leaves 1
    let marked = [&set[..40], &[0, 1, 0, 0]].concat();
    assert_eq!(cut(&marked, 2), Ok((vec![0, 1], 12)));
    assert_eq!(cut(&marked, 1), Ok((vec![0], 3)));
}

#[test]
fn the_rust_wrapper_reads_ties_and_writes_them_again() {
    let set = sample("ties.set");
    let entry = |slice, chain, symbol, opposite| Tie {
        slice,
        chain,
        symbol,
        opposite,
    };
    let all = [
        entry(0, 1, 7, false),
        entry(1, 1, 7, true),
        entry(1, 2, 9, false),
        entry(2, 1, 7, false),
    ];
    let stretch = ties(&set).expect("a good set");
    assert_eq!(Tie::all(stretch), all);
    let bytes: Vec<u8> = all.iter().flat_map(Tie::bytes).collect();
    assert_eq!(bytes, stretch);
    let (values, marks) = ([1, 0, 5, 0], [2, 6, 2, 4]);
    let read = read_set(&set).expect("a good set");
    assert_eq!(write_set(&read, &values, &marks, stretch), Ok(set.clone()));
    assert_eq!(
        write_set(&read, &values, &marks, &stretch[1..]),
        Err(Refusal(8))
    );
    let p = plan(&set).expect("words");
    assert_eq!((p.words, p.expected), (vec![4, 10], 0b11));
    assert_eq!(ties(&sample("sample.set")), Ok(&[][..]));
    assert_eq!(ties(&sample("tie-byte-2.set")), Err(Refusal(31)));
}

#[test]
fn the_rust_wrappers_lists_are_as_long_as_the_header_says() {
    let header = text("include/canceller.h");
    for (name, value) in [
        ("CANCELLER_SET_MAX", SET_MAX),
        ("CANCELLER_WORKING", WORKING_PLACES),
    ] {
        let line = format!("#define {name} {value} ");
        assert!(header.contains(&line), "{line}");
    }
    assert_eq!(sample("ties-256.set").len(), SET_MAX);
    assert!(plan(&sample("ties-256.set")).is_ok(), "room for all");
}

/// A declared thing: the fields of a struct, or a function's parameters with its answer last. Each is a name and a type, written
/// as Rust writes it.
type Declared = BTreeMap<String, Vec<(String, String)>>;

fn without_comments(header: &str) -> String {
    let mut parts = header.split("/*");
    let mut text = parts.next().unwrap_or_default().to_string();
    for part in parts {
        text += part.split_once("*/").expect("a comment that ends").1;
    }
    let lines = text.lines().filter(|l| !l.starts_with('#'));
    lines.collect::<Vec<&str>>().join(" ")
}

/// The Rust name of the header's struct `canceller_name`: CName.
fn struct_name(name: &str) -> String {
    let name = name.trim().strip_prefix("canceller_").expect(name);
    format!("C{}{}", name[..1].to_uppercase(), &name[1..])
}

/// A declaration of C: its name, and its type as Rust writes it.
fn of_c(declaration: &str) -> (String, String) {
    let end = |c: char| c == ' ' || c == '*';
    let (c_type, name) = declaration.trim().rsplit_once(end).expect(declaration);
    let pointer = declaration.contains('*');
    let (mutable, c_type) = match c_type.trim().strip_prefix("const ") {
        Some(rest) => ("*const ", rest),
        None => ("*mut ", c_type),
    };
    let value = match c_type.trim_matches(end) {
        "uint8_t" => "u8",
        "uint64_t" => "u64",
        "size_t" => "usize",
        other => panic!("{other} in {declaration}"),
    };
    match name.split_once('[') {
        Some((name, n)) => (name.into(), format!("[{value}; {n}")),
        None if pointer => (name.into(), format!("{mutable}{value}")),
        None => (name.into(), value.into()),
    }
}

/// The structs and functions of the header.
fn in_header() -> (Declared, Declared) {
    let header = without_comments(&text("include/canceller.h"));
    let (mut structs, mut functions) = (Declared::new(), Declared::new());
    for part in header.split("typedef struct {").skip(1) {
        let (fields, rest) = part.split_once('}').expect("a struct that ends");
        let (c_type, names) = fields.trim().split_once(' ').expect(fields);
        let names = names.trim_end_matches(';').split(',');
        let fields = names.map(|name| of_c(&format!("{c_type} {}", name.trim())));
        let name = rest.split(';').next().unwrap();
        structs.insert(struct_name(name), fields.collect());
    }
    for statement in header.split(';').filter(|s| s.contains('(')) {
        let (head, parameters) = statement.split_once('(').unwrap();
        let (answer, name) = head.trim().rsplit_once(' ').expect(head);
        let answer = answer.rsplit(['{', '}']).next().unwrap();
        let parameters = parameters.trim_end_matches([')', ' ']).split(',');
        let mut all: Vec<(String, String)> = parameters.map(of_c).collect();
        all.push(("answer".into(), struct_name(answer)));
        functions.insert(name.into(), all);
    }
    (structs, functions)
}

/// The names and types of `name: type,` in turn.
fn of_rust(list: &str) -> Vec<(String, String)> {
    let parts = list.split(',').map(|p| p.trim().trim_start_matches("pub "));
    let parts = parts.filter(|p| !p.is_empty());
    let pair = |p: &str| {
        let (name, rust_type) = p.split_once(':').unwrap_or_else(|| panic!("{p}"));
        (name.trim().to_string(), rust_type.trim().to_string())
    };
    parts.map(pair).collect()
}

/// The structs and functions of the Rust declarations.
fn in_rust() -> (Declared, Declared) {
    let source = text("examples/canceller.rs");
    let (_, raw) = source.split_once("pub mod raw {").unwrap();
    let (raw, _) = raw.split_once("\n}\n").unwrap();
    let (mut structs, mut functions) = (Declared::new(), Declared::new());
    for part in raw.split("pub struct ").skip(1) {
        let (name, rest) = part.split_once(" {").unwrap();
        let (fields, _) = rest.split_once('}').unwrap();
        structs.insert(name.into(), of_rust(fields));
    }
    for part in raw.split("pub fn ").skip(1) {
        let (name, rest) = part.split_once('(').unwrap();
        let (parameters, rest) = rest.split_once(')').unwrap();
        let (answer, _) = rest.split_once(';').unwrap();
        let mut all = of_rust(parameters);
        let answer = answer.trim().trim_start_matches("-> ");
        all.push(("answer".into(), answer.into()));
        functions.insert(name.into(), all);
    }
    (structs, functions)
}

#[test]
fn the_header_and_the_rust_declarations_say_the_same() {
    let ((structs, functions), (rust_structs, rust_functions)) = (in_header(), in_rust());
    assert_eq!(structs, rust_structs);
    assert_eq!(functions, rust_functions);
    let parameters: usize = functions.values().map(Vec::len).sum();
    assert!(
        structs.len() >= 12 && functions.len() >= 16 && parameters >= 80,
        "{structs:?} {functions:?}"
    );
}

#[test]
fn the_header_declares_what_the_library_exports() {
    let listed = Command::new("nm")
        .args(["-g", "--defined-only"])
        .arg(repository().join("target/staticlib/libcanceller.a"))
        .output()
        .unwrap_or_else(|e| panic!("nm could not be started: {e}"));
    assert!(listed.status.success(), "{listed:?}");
    let symbols = String::from_utf8(listed.stdout).unwrap();
    let mut exported: Vec<&str> = symbols
        .lines()
        .filter_map(|l| l.split_once(" T ").map(|(_, name)| name))
        .filter(|name| name.starts_with("canceller_"))
        .collect();
    exported.sort();
    let (_, functions) = in_header();
    let declared: Vec<&String> = functions.keys().collect();
    assert_eq!(declared, exported);
}
