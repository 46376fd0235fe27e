//! What the source documents publish in full, through the library beside the second implementation. Bit 0 is the source's first
//! row (M1, Z1, s0). Where a paper contradicts itself, the test says so and pins what the definitions give. No paper inverts an
//! input of its register: every inversion word here is 0.

use reference::both::Both;
use reference::random::{file_of, Random};
use reference::second::layout::row_bytes;
use reference::second::plan::Plan;
use reference::second::planning::WORKING;
use reference::second::set::Content;
use std::collections::BTreeSet;

/// Rows of bits written from the paper, top row first, as columns: bit i of a column is row i.
fn columns_of(rows: &[&str]) -> Vec<u64> {
    let rows: Vec<Vec<u64>> = rows
        .iter()
        .map(|r| {
            r.bytes()
                .filter(|b| *b != b' ')
                .map(|b| u64::from(b - b'0'))
                .collect()
        })
        .collect();
    (0..rows[0].len())
        .map(|j| rows.iter().enumerate().map(|(i, r)| r[j] << i).sum())
        .collect()
}

/// A set of one slice whose chains have these spread words; the cells in `unknown` are unknown, all others 0.
fn one_slice(m: usize, spread: &[u64], unknown: &[usize]) -> Vec<u8> {
    let b = row_bytes(spread.len());
    let mut marks = vec![0u8; b];
    for &c in unknown {
        marks[c / 8] |= 1 << (c % 8);
    }
    file_of(&Content {
        m: m as u64,
        taps: 1,
        inversion: 0,
        spread: spread.to_vec(),
        values: vec![0; b],
        marks,
        s: 1,
        ties: vec![],
    })
}

/// The record of one slice in which these cells are 1.
fn cells(n: usize, ones: &[usize]) -> Vec<u8> {
    let mut row = vec![0u8; row_bytes(n)];
    for &c in ones {
        row[c / 8] ^= 1 << (c % 8);
    }
    row
}

fn planned(both: &mut Both, set: &[u8]) -> (Plan, Vec<u8>) {
    let p = both
        .plan(set, WORKING, 64)
        .expect("the paper's example has X-free words");
    let file = both.write_plan(&p, 600).expect("a plan can be written");
    (p, file)
}

/// Where the plan fails a record of one slice: None where it passes.
fn judged(both: &mut Both, set: &[u8], plan: &[u8], record: &[u8]) -> Option<u64> {
    let y = both.sign(set, record).expect("a record of the set's shape");
    both.judge(plan, y)
        .expect("a signature of the register's width")
        .fails_at
}

/// All subsets of `of` with `count` elements.
fn choices(of: &[usize], count: usize) -> Vec<Vec<usize>> {
    if count == 0 {
        return vec![vec![]];
    }
    let mut all = Vec::new();
    for (i, &x) in of.iter().enumerate() {
        for mut rest in choices(&of[i + 1..], count - 1) {
            rest.insert(0, x);
            all.push(rest);
        }
    }
    all
}

/// All ways to set the cells of `of`.
fn fillings(of: &[usize]) -> Vec<Vec<usize>> {
    (0..1usize << of.len())
        .map(|k| {
            of.iter()
                .enumerate()
                .filter(|(i, _)| k >> i & 1 == 1)
                .map(|(_, &c)| c)
                .collect()
        })
        .collect()
}

// ---- document 000

const FIGURE_2: [&str; 6] = ["1000", "1110", "0010", "1000", "1010", "0011"];

#[test]
fn document_000_figures_2_and_3() {
    let mut both = Both::at("000, figures 2 and 3");
    let columns = columns_of(&FIGURE_2);
    assert_eq!(columns, [27, 2, 54, 32]);
    let (_, words) = both.eliminate(6, &columns, 64).unwrap();
    // M1 + M4 and M1 + M3 + M5
    assert_eq!(words, [0b001001, 0b010101]);
    let set = one_slice(6, &columns, &[0, 1, 2, 3]);
    let (p, plan) = planned(&mut both, &set);
    assert_eq!((p.words, p.expected), (vec![9, 21], 0));
    let explained: BTreeSet<u64> = fillings(&[0, 1, 2, 3])
        .iter()
        .map(|f| both.sign(&set, &cells(4, f)).unwrap())
        .collect();
    assert_eq!(explained.len(), 16, "the paper's 16 signatures");
    for y in 0..64 {
        assert_eq!(
            both.judge(&plan, y).unwrap().fails_at.is_none(),
            explained.contains(&y),
            "signature {y}"
        );
    }
}

#[test]
fn document_000_section_2_m4_stands_for_m6() {
    // "M1 and M4 in Fig. 1 are represented as X1 and X3 + X4": by the figure's own matrix M4 is X1 alone, and M6 is X3 + X4
    let mut both = Both::at("000, section II");
    let set = one_slice(6, &columns_of(&FIGURE_2), &[0, 1, 2, 3]);
    for x in 0..4 {
        let y = both.sign(&set, &cells(4, &[x])).unwrap();
        assert_eq!(y & 1 == 1, x == 0, "X{} in M1", x + 1);
        assert_eq!(y >> 3 & 1 == 1, x == 0, "X{} in M4", x + 1);
        assert_eq!(y >> 5 & 1 == 1, x == 2 || x == 3, "X{} in M6", x + 1);
    }
}

#[test]
fn document_000_section_2_the_share_of_signatures_that_pass() {
    // "The probability of aliasing is 2^k / 2^m": 16 of 64 here, and 1 - 2^-q for q 2 is three quarters
    let mut both = Both::at("000, section II");
    let set = one_slice(6, &columns_of(&FIGURE_2), &[0, 1, 2, 3]);
    let (p, plan) = planned(&mut both, &set);
    let passing = (0..64)
        .filter(|&y| both.judge(&plan, y).unwrap().fails_at.is_none())
        .count();
    assert_eq!(passing * (1 << p.words.len()), 64);
    assert_eq!(passing, 16);
}

/// Table I, the error coverage with q combinations: what a run that leaves q words fails is this share of all signatures. And section
/// III-B before it, with one unknown cell in each slice: "The MISR can tolerate up to m − q Xs", so that "the signature needs to be
/// processed at every (m − q)/(n ∗ x) cycles", which is where the runs begin.
#[test]
fn document_000_table_1() {
    let printed = [
        "50", "75", "87.5", "93.75", "96.88", "98.44", "99.2", "99.6", "99.8", "99.9",
    ];
    let m = 12;
    for (q, printed) in (1..).zip(printed) {
        let mut both = Both::at(&format!("000, Table I, q {q}"));
        let filled = m - q;
        let every_cell_unknown = |s: u64| {
            file_of(&Content {
                m,
                taps: 0b1010011,
                inversion: 0,
                spread: vec![1],
                values: vec![0; s as usize],
                marks: vec![1; s as usize],
                s,
                ties: vec![],
            })
        };
        let cutting = both.cut(&every_cell_unknown(5 * filled), q, 5).unwrap();
        let processed: Vec<u64> = (0..5).map(|run| run * filled).collect();
        assert_eq!((cutting.cuts, cutting.bits), (processed, 5 * m * q));
        let (p, plan) = planned(&mut both, &every_cell_unknown(filled));
        assert_eq!(p.words.len() as u64, q);
        let fails = |y: &u64| both.judge(&plan, *y).unwrap().fails_at.is_some();
        let failed = (0..1 << m).filter(fails).count();
        let coverage = 100.0 * failed as f64 / f64::from(1 << m);
        let decimals = printed.split_once('.').map_or(0, |(_, part)| part.len());
        assert_eq!(format!("{coverage:.decimals$}"), printed, "q {q}");
    }
}

// One slice of 18 chains, a chain to a cell; X1 to X4 stand in cells 1, 4, 7 and 18. The text prints
//   M1 = X1 + O3 + O8 + O13,  M6 = O2 + X3 + X4,  M1 + M3 + M5 = O3 + O5 + O8 + O10 + O12 + O13 + O15 + O17
const IN_M1: [usize; 3] = [3, 8, 13];
const IN_SUM: [usize; 8] = [3, 5, 8, 10, 12, 13, 15, 17];

/// The spread words of figure 1. What the text leaves open (M2 and M4 of the known cells) is chosen so that none is 0.
fn figure_1() -> Vec<u64> {
    let word = |cell: usize| match cell {
        1 => 27,
        4 => 2,
        7 => 54,
        18 => 32,
        _ => {
            let m1 = u64::from(IN_M1.contains(&cell));
            let m6 = u64::from(cell == 2) << 5;
            let m5 = (u64::from(IN_SUM.contains(&cell)) ^ m1) << 4;
            m1 | m6 | m5 | 2
        }
    };
    (1..=18).map(word).collect()
}

#[test]
fn document_000_figure_1_from_the_printed_equations() {
    let spread = figure_1();
    let unknown = [0, 3, 6, 17];
    let set = one_slice(6, &spread, &unknown);
    let mut both = Both::at("000, figure 1");
    let (p, plan) = planned(&mut both, &set);
    assert_eq!(p.words, [9, 21]);
    for cell in 1..=18usize {
        let y = both.sign(&set, &cells(18, &[cell - 1])).unwrap();
        let unknown_cell = unknown.contains(&(cell - 1));
        if !unknown_cell {
            assert_eq!(y & 1 == 1, IN_M1.contains(&cell), "O{cell} in M1");
            assert_eq!(y >> 5 & 1 == 1, cell == 2, "O{cell} in M6");
        }
        let judged = both.judge(&plan, y).unwrap();
        let in_word = !unknown_cell && IN_SUM.contains(&cell);
        assert_eq!(
            judged.cancelled >> 1 & 1 == 1,
            in_word,
            "cell {cell} in M1 + M3 + M5"
        );
    }
}

// ---- document 003

const CHECK_MATRIX: [&str; 4] = ["11101000", "11010100", "10110010", "11111111"];

#[test]
fn document_003_equations_1_to_3() {
    let mut both = Both::at("003, equations 1 to 3");
    let h = columns_of(&CHECK_MATRIX);
    let set = one_slice(4, &h, &[3, 4]);
    let (_, plan) = planned(&mut both, &set);
    // 0000, 0111, 1001 and 1110, written s0 first
    let printed: BTreeSet<u64> = [0b0000, 0b1110, 0b1001, 0b0111].into();
    let explained: BTreeSet<u64> = fillings(&[3, 4])
        .iter()
        .map(|f| both.sign(&set, &cells(8, f)).unwrap())
        .collect();
    assert_eq!(explained, printed);
    for y in 0..16 {
        assert_eq!(
            both.judge(&plan, y).unwrap().fails_at.is_none(),
            printed.contains(&y),
            "output {y}"
        );
    }
}

#[test]
fn document_003_section_3_example_1() {
    let mut both = Both::at("003, section III-A, example 1");
    let set = one_slice(4, &columns_of(&CHECK_MATRIX), &[3, 4]);
    let (p, plan) = planned(&mut both, &set);
    // s2 + s1 and s3 + s0 + s1
    assert_eq!(p.words, [0b0110, 0b1011]);
    let first = [1, 2, 5, 6];
    let second = [0, 1, 6, 7];
    for f in fillings(&[3, 4]) {
        assert_eq!(judged(&mut both, &set, &plan, &cells(8, &f)), None);
        for e in [0, 1, 2, 5, 6, 7] {
            let mut ones = f.clone();
            ones.push(e);
            let at = if first.contains(&e) {
                Some(0)
            } else if second.contains(&e) {
                Some(1)
            } else {
                None
            };
            assert!(
                at.is_some(),
                "any single error in the known bits is detected"
            );
            assert_eq!(
                judged(&mut both, &set, &plan, &cells(8, &ones)),
                at,
                "an error in d{e}"
            );
        }
    }
}

#[test]
fn document_003_section_3_example_2() {
    let mut both = Both::at("003, section III-A, example 2");
    let set = one_slice(4, &columns_of(&CHECK_MATRIX), &[2]);
    let (p, plan) = planned(&mut both, &set);
    // s1, s2 + s0 and s3 + s0
    assert_eq!(p.words, [0b0010, 0b0101, 0b1001]);
    let words: [&[usize]; 3] = [&[0, 1, 3, 5], &[1, 3, 4, 6], &[3, 5, 6, 7]];
    for f in fillings(&[2]) {
        for e in [0, 1, 3, 4, 5, 6, 7] {
            let mut ones = f.clone();
            ones.push(e);
            let at = words.iter().position(|w| w.contains(&e)).map(|i| i as u64);
            assert_eq!(
                judged(&mut both, &set, &plan, &cells(8, &ones)),
                at,
                "an error in d{e}"
            );
        }
        // "the two bits d0 and d1 are in error then this error will be detected in the third bit": word 1 of the list
        let mut ones = f.clone();
        ones.extend([0, 1]);
        assert_eq!(judged(&mut both, &set, &plan, &cells(8, &ones)), Some(1));
        // "the fourth bit shows an error, then we can uniquely attribute it to d7": the only one that fails at word 2
        let mut ones = f.clone();
        ones.push(7);
        assert_eq!(judged(&mut both, &set, &plan, &cells(8, &ones)), Some(2));
    }
}

#[test]
fn document_003_section_4_the_filter_array() {
    let mut both = Both::at("003, section IV");
    let columns = columns_of(&["000", "101", "101", "011", "100", "111"]);
    let (_, words) = both.eliminate(6, &columns, 64).unwrap();
    // row 0 depends on nothing, row 2 is row 1, row 5 is rows 3 and 4
    assert_eq!(words, [0b000001, 0b000110, 0b111000]);
}

#[test]
fn document_003_theorem_2_2_on_the_8_4_4_code() {
    let mut both = Both::at("003, theorem 2.2");
    let h = columns_of(&CHECK_MATRIX);
    let all: Vec<usize> = (0..8).collect();
    for x in 0..4 {
        for unknown in choices(&all, x) {
            let set = one_slice(4, &h, &unknown);
            let (_, plan) = planned(&mut both, &set);
            let known: Vec<usize> = all
                .iter()
                .copied()
                .filter(|c| !unknown.contains(c))
                .collect();
            for e in 1..4 - x {
                for errors in choices(&known, e) {
                    for mut ones in fillings(&unknown) {
                        ones.extend(&errors);
                        let verdict = judged(&mut both, &set, &plan, &cells(8, &ones));
                        assert!(verdict.is_some(), "unknowns {unknown:?}, errors {errors:?}");
                    }
                }
            }
        }
    }
}

/// All words of m bits with `ones` ones, ascending.
fn of_weight(m: usize, ones: u32) -> Vec<u64> {
    (0..1u64 << m).filter(|w| w.count_ones() == ones).collect()
}

fn special_code(m: usize) -> Vec<u64> {
    let mut columns = of_weight(m, m as u32 / 2 - 1);
    columns.extend(of_weight(m, m as u32 / 2));
    columns
}

#[test]
fn document_003_section_5_the_special_code_at_width_4() {
    let printed = columns_of(&["1000111000", "0100100110", "0010010101", "0001001011"]);
    let mut sorted = printed.clone();
    sorted.sort();
    let mut rule = special_code(4);
    rule.sort();
    assert_eq!(sorted, rule, "the printed matrix is the rule's");
    single_errors_beside_one_unknown(4, &printed);
    // one or two errors without unknowns
    let mut both = Both::at("003, section V, width 4");
    let set = one_slice(4, &printed, &[]);
    let (_, plan) = planned(&mut both, &set);
    let all: Vec<usize> = (0..10).collect();
    for count in 1..3 {
        for errors in choices(&all, count) {
            assert!(
                judged(&mut both, &set, &plan, &cells(10, &errors)).is_some(),
                "{errors:?}"
            );
        }
    }
    // "any odd number of errors" does not hold: the columns 3, 5 and 6 XOR to nothing
    let three: Vec<usize> = [3, 5, 6]
        .iter()
        .map(|w| printed.iter().position(|c| c == w).unwrap())
        .collect();
    assert_eq!(judged(&mut both, &set, &plan, &cells(10, &three)), None);
}

#[test]
fn document_003_section_5_the_special_code_at_width_8() {
    let code = special_code(8);
    assert_eq!(code.len(), 126, "Table I's 126 chains");
    single_errors_beside_one_unknown(8, &code);
}

/// "Any one error can be detected in the presence of one unknown."
fn single_errors_beside_one_unknown(m: usize, code: &[u64]) {
    let mut both = Both::at("003, section V");
    for unknown in 0..code.len() {
        let set = one_slice(m, code, &[unknown]);
        let (_, plan) = planned(&mut both, &set);
        for error in (0..code.len()).filter(|&e| e != unknown) {
            for ones in [vec![error], vec![error, unknown]] {
                let verdict = judged(&mut both, &set, &plan, &cells(code.len(), &ones));
                assert!(verdict.is_some(), "unknown {unknown}, error {error}");
            }
        }
    }
}

#[test]
fn document_003_section_5_the_extended_hamming_code_at_width_9() {
    // 2^8 chains, the largest chain count; the last row is the complement of the first
    let code: Vec<u64> = (0..256u64).map(|i| i | (!i & 1) << 8).collect();
    let mut both = Both::at("003, section V, extended Hamming");
    let mut r = Random::new(3);
    for unknown in [0, 1, 2, 100, 254, 255] {
        let set = one_slice(9, &code, &[unknown]);
        let (p, plan) = planned(&mut both, &set);
        assert_eq!(p.words.len(), 8);
        // up to 3 - x errors are detected
        for error in (0..256).filter(|&e| e != unknown) {
            let other = (error + 1 + r.below(254)) % 256;
            for ones in [vec![error], vec![error, unknown]] {
                assert!(
                    judged(&mut both, &set, &plan, &cells(256, &ones)).is_some(),
                    "unknown {unknown}, error {error}"
                );
                if other != unknown && other != error {
                    let mut two = ones.clone();
                    two.push(other);
                    assert!(
                        judged(&mut both, &set, &plan, &cells(256, &two)).is_some(),
                        "unknown {unknown}, errors {error} and {other}"
                    );
                }
            }
        }
    }
}

// ---- document 004

const EQUATIONS: [&[usize]; 12] = [
    &[2, 5],
    &[3],
    &[1, 4],
    &[1, 6],
    &[3, 7],
    &[1, 4],
    &[1, 2, 5, 6],
    &[2, 5, 8],
    &[1, 4, 9],
    &[1, 2, 5, 6],
    &[2, 3, 5, 7, 8],
    &[3, 7, 10],
];

const FIGURE_2_OF_004: [&str; 12] = [
    "0100100000",
    "0010000000",
    "1001000000",
    "1000010000",
    "0010001000",
    "1001000000",
    "1100110000",
    "0100100100",
    "1001000010",
    "1100110000",
    "0110101100",
    "0010001001",
];

#[test]
fn document_004_figure_2_as_an_elimination() {
    let columns = columns_of(&FIGURE_2_OF_004);
    for (k, column) in columns.iter().enumerate() {
        for (z, equation) in EQUATIONS.iter().enumerate() {
            assert_eq!(
                column >> z & 1 == 1,
                equation.contains(&(k + 1)),
                "X{} in Z{}",
                k + 1,
                z + 1
            );
        }
    }
    assert_eq!(columns[1], columns[4], "X2 and X5 reach the same cells");
    let mut both = Both::at("004, figure 2");
    for room in [0, 3] {
        assert_eq!(both.eliminate(12, &columns, room), Err(18));
    }
    let (rank, words) = both.eliminate(12, &columns, 4).unwrap();
    assert_eq!(rank, 8);
    // Z6 is Z3, Z7 and Z10 are Z1 + Z4, and Z11 is Z5 + Z8
    assert_eq!(
        words,
        [
            1 << 5 | 1 << 2,
            1 << 6 | 1 << 3 | 1,
            1 << 9 | 1 << 3 | 1,
            1 << 10 | 1 << 7 | 1 << 4
        ]
    );
}

#[test]
fn document_004_figure_1_clocked() {
    // Z1 to Z4 after one clock are X2 + X5, X3, X1 + X4, X1 + X6: bits Z4, Z3, Z2, Z1 from bit 0 on shift up, the old Z1 comes
    // in at Z4 and Z3, so the tap word is 3; X5, X7, X9 come in at Z1 and X6, X8, X10 at Z4
    let mut both = Both::at("004, figure 1");
    for symbol in 1..=10usize {
        let mut state: u64 = if symbol <= 4 { 1 << (4 - symbol) } else { 0 };
        for slice in 0..3 {
            let row = [u8::from(symbol == 5 + 2 * slice) | u8::from(symbol == 6 + 2 * slice) << 1];
            state = both.clock(4, 3, 0, state, &[8, 1], &row).unwrap();
            for z in 0..4 {
                let there = state >> (3 - z) & 1 == 1;
                assert_eq!(
                    there,
                    EQUATIONS[4 * slice + z].contains(&symbol),
                    "X{symbol} in Z{}",
                    4 * slice + z + 1
                );
            }
        }
    }
}
