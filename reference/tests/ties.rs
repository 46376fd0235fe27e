//! Cells tied to one symbol (document 02, No. 7): what such sets explain, by force; symbols and their columns; every number of the
//! ties and its place among the others; the entries there and back; planning's working places; records that obey the ties and records
//! that don't; and what ties change nothing of.

use reference::both::Both;
use reference::draw::{files_of, good_content, planning};
use reference::force::{explained, filled, obeys, passes_exactly, record_of, refill};
use reference::library::{canceller_plan, canceller_plan_words, made, Answer, MakesWords, FILL};
use reference::random::*;
use reference::repository::sample;
use reference::second::layout::*;
use reference::second::plan::Plan;
use reference::second::planning::{WORKING, WORKING_MOST};
use reference::second::set::{read_set, Content, Set};
use reference::second::ties::Cell;
use reference::second::{word_of, Bits};
use std::collections::{BTreeMap, BTreeSet};

fn number<T>(reply: Result<T, u64>) -> u64 {
    reply.err().unwrap_or(0)
}

/// A content with other ties.
fn with_ties(content: &Content, ties: &[[u8; TIE]]) -> Content {
    Content {
        ties: ties.concat(),
        ..content.clone()
    }
}

fn untied(content: &Content) -> Content {
    with_ties(content, &[])
}

/// A small content of at most so many unknown cells, some of them tied.
fn tied_content(r: &mut Random, largest: (usize, usize, usize), most: usize) -> Content {
    loop {
        let content = small_content(r, largest.0, largest.1, largest.2);
        if !content.ties.is_empty() && unknowns_of(&content) <= most {
            return content;
        }
    }
}

/// Such a content from a seed, with its file and what is read from it; and the generator behind it.
fn drawn(
    both: &mut Both,
    seed: u64,
    largest: (usize, usize, usize),
    most: usize,
) -> (Random, Content, Vec<u8>, Set) {
    let mut r = Random::new(seed);
    both.at = format!("seed {seed}");
    let content = tied_content(&mut r, largest, most);
    let file = file_of(&content);
    let set = read_set(&file).expect("a good set");
    (r, content, file, set)
}

/// Two chains, each with a bit of its own, in a register of m bits that rotates: the column of slice t's cell of chain c is bit
/// (2 c + s - 1 - t) mod m. All cells are unknown.
fn rotating(m: u64, s: usize) -> Content {
    Content {
        m,
        taps: 1,
        inversion: 0,
        spread: vec![1, 1 << (2 % m)],
        values: vec![0; s],
        marks: vec![3; s],
        s: s as u64,
        ties: vec![],
    }
}

/// The fillings of a set are those of all its unknown cells that obey the ties, and of the signatures exactly those that some of them
/// gives pass; 17 where that is every one.
#[test]
fn exactly_the_signatures_of_fillings_that_obey_the_ties_pass() {
    let mut both = Both::new();
    let (mut fewer, mut opposite, mut freed) = (0, 0, 0);
    for seed in 400_000..402_500 {
        let (_, content, file, set) = drawn(&mut both, seed, (8, 5, 3), 11);
        let explained = explained(&set);
        let every = explained.len() == 1 << content.m;
        let planned = planning(&mut both, &file, WORKING_MOST, 64);
        assert_eq!(planned.clone().err(), every.then_some(17), "{}", both.at);
        let free = reference::force::explained(&set.untied());
        assert!(explained.is_subset(&free), "{}", both.at);
        fewer += usize::from(explained.len() < free.len());
        freed += usize::from(free.len() == 1 << content.m && !every);
        let Ok(plan) = planned else {
            continue;
        };
        opposite += usize::from(set.zero_signature() != set.untied().zero_signature());
        passes_exactly(&mut both, &plan, &explained);
    }
    let refused = both.seen("plan", 17);
    assert!(
        fewer > 600 && freed > 200 && opposite > 300 && refused > 50,
        "{fewer} sets explain fewer signatures by their ties, {freed} have words by them alone, {opposite} expect other bits for an \
         opposite cell, {refused} have no words"
    );
}

/// Every list of ties of up to three unknown cells, with up to three symbols and each last byte: exactly the explained signatures pass,
/// and planning gives 17 where these are all.
#[test]
fn every_way_to_tie_three_cells() {
    let mut both = Both::new();
    let ways = |cell: Cell| -> Vec<Vec<[u8; TIE]>> {
        let named = (0..3).flat_map(|symbol| [0, 1].map(|side| vec![tie(cell, symbol, side)]));
        std::iter::once(vec![]).chain(named).collect()
    };
    let mut r = Random::new(403_000);
    let mut tried = 0;
    for (m, taps, spread) in [
        (3, 3, [1, 4]),
        (4, 9, [3, 5]),
        (2, 1, [1, 1]),
        (5, 5, [6, 17]),
    ] {
        let content = Content {
            m,
            taps,
            inversion: r.within(m as usize),
            spread: spread.to_vec(),
            values: vec![1, 0, 2],
            marks: vec![2, 3, 0],
            s: 3,
            ties: vec![],
        };
        let [first, second, third] = [(0, 1), (1, 0), (1, 1)].map(ways);
        for (a, b, c) in first
            .iter()
            .flat_map(|a| second.iter().map(move |b| (a, b)))
            .flat_map(|(a, b)| third.iter().map(move |c| (a, b, c)))
        {
            let content = with_ties(&content, &[&a[..], b, c].concat());
            let file = file_of(&content);
            both.at = format!("m {m}, ties {:?}", content.ties);
            let set = read_set(&file).expect("a good set");
            let explained = explained(&set);
            let planned = both.plan(&file, WORKING_MOST, 64);
            match planned {
                Ok(plan) => passes_exactly(&mut both, &plan, &explained),
                Err(number) => {
                    assert_eq!((number, explained.len()), (17, 1 << m), "{}", both.at)
                }
            }
            tried += 1;
        }
    }
    assert_eq!(tried, 4 * 7 * 7 * 7);
}

/// In a register that rotates the columns are single bits, and the test knows each symbol's column and its place without clocking.
#[test]
fn columns_stand_where_the_first_cell_of_their_symbol_stands() {
    let mut both = Both::at("a register of 4 bits that rotates");
    // slice by slice: chain 0's column, then chain 1's
    let content = rotating(4, 4);
    let free = [8, 2, 4, 1, 2, 8, 1, 4];
    assert_eq!(both.list_columns(&file_of(&content), 8), Ok(free.to_vec()));
    let lines: [(&[[u8; TIE]], &[u64]); 7] = [
        // across slices: the first of the symbol's cells gives the place, and later ones list nothing
        (
            &[tie((0, 1), 9, 0), tie((2, 0), 9, 0), tie((3, 1), 9, 1)],
            &[8, 2 ^ 2 ^ 4, 4, 1, 8, 1],
        ),
        // two symbols that take turns
        (
            &[
                tie((0, 0), 9, 0),
                tie((0, 1), 2, 1),
                tie((1, 0), 2, 0),
                tie((1, 1), 9, 0),
            ],
            &[8 ^ 1, 2 ^ 4, 2, 8, 1, 4],
        ),
        // a symbol of one cell stands where it stood, whichever its number is
        (&[tie((1, 0), 65_535, 1)], &free),
        (&[tie((0, 0), 0, 0), tie((3, 1), 300, 0)], &free),
        // two cells whose columns are the same: the symbol's column is 0, and it is listed
        (
            &[tie((0, 1), 5, 0), tie((2, 0), 5, 0)],
            &[8, 0, 4, 1, 8, 1, 4],
        ),
        // in one slice
        (
            &[tie((3, 0), 5, 0), tie((3, 1), 5, 1)],
            &[8, 2, 4, 1, 2, 8, 5],
        ),
        // all cells of one symbol
        (
            &[0, 1, 2, 3, 4, 5, 6, 7].map(|i| tie((i / 2, i % 2), 1, (i % 2) as u8)),
            &[0],
        ),
    ];
    for (ties, columns) in lines {
        let file = file_of(&with_ties(&content, ties));
        let count = columns.len();
        assert_eq!(both.list_columns(&file, count), Ok(columns.to_vec()));
        assert_eq!(both.list_columns(&file, count - 1), Err(14));
    }
    // the last of them leaves every word; so does planning
    let all = with_ties(&content, lines[6].0);
    let plan = both.plan(&file_of(&all), WORKING + 1, 4);
    assert_eq!(plan.map(|p| p.words), Ok(vec![1, 2, 4, 8]));
}

/// A symbol whose cells' columns cancel changes no signature bit: the words are those without these cells, and of the expected bits
/// those move that the opposite cells reach.
#[test]
fn cells_that_cancel_inside_a_symbol_take_no_word_away() {
    let mut both = Both::new();
    for m in 1..=64u64 {
        // one chain: slices 0 and m have the same column
        let s = m as usize + 1;
        let mut content = Content {
            spread: vec![1],
            marks: vec![0; s],
            ..rotating(m, s)
        };
        content.marks[0] = 1;
        content.marks[s - 1] = 1;
        let free = file_of(&content);
        for sides in [[0, 0], [1, 1], [0, 1], [1, 0]] {
            let ties = [tie((0, 0), 7, sides[0]), tie((s - 1, 0), 7, sides[1])];
            both.at = format!("m {m}, last bytes {sides:?}");
            let file = file_of(&with_ties(&content, &ties));
            assert_eq!(both.list_columns(&file, 1), Ok(vec![0]), "{}", both.at);
            let plan = both.plan(&file, WORKING + 1, 64).expect("no column but 0");
            let bits: Vec<u64> = (0..m).map(|i| 1 << i).collect();
            assert_eq!(plan.words, bits, "{}", both.at);
            // the column of both is 1: where one is 1 for the symbol 0, bit 0 of the signature is
            let expected = u64::from(sides[0] != sides[1]);
            assert_eq!(plan.expected, expected, "{}", both.at);
        }
        let free_words = both.plan_words(&free, WORKING, 64).map(|(_, w)| w.len());
        let left = if m == 1 { Err(17) } else { Ok(m as usize - 1) };
        assert_eq!(free_words, left, "m {m}: the free cells have the column 1");
    }
}

/// Records alike in the known cells that obey the ties get the same bits and the same verdict; one that doesn't obey is signed as
/// recorded, and passes exactly where some other filling explains its signature.
#[test]
fn records_that_obey_are_judged_alike_and_others_are_signed_as_recorded() {
    let mut both = Both::new();
    let (mut pairs, mut disobeying, mut failing) = (0, 0, 0);
    for seed in 404_000..406_000 {
        let (mut r, _, file, set) = drawn(&mut both, seed, (12, 6, 4), 12);
        let Ok(plan) = both.plan(&file, WORKING_MOST, 64) else {
            continue;
        };
        let plan = both.write_plan(&plan, 600).expect("a good plan");
        // the known cells as the set has them, or not
        let any: Vec<Bits> = (0..set.s())
            .map(|_| (0..set.n()).map(|_| r.one_in(2)).collect())
            .collect();
        for mut cells in [set.values.clone(), any] {
            refill(&mut r, &set, &mut cells);
            let signature = both.sign(&file, &record_of(&cells)).expect("a record");
            assert_eq!(signature, clocked(&set, &cells), "{}", both.at);
            let judged = both.judge(&plan, signature).expect("of the width");
            for _ in 0..4 {
                refill(&mut r, &set, &mut cells);
                let other = both.sign(&file, &record_of(&cells)).expect("a record");
                assert_eq!(both.judge(&plan, other), Ok(judged), "{}", both.at);
                pairs += usize::from(other != signature);
            }
        }
        let explained = explained(&set);
        let cells = filled(&set, r.word());
        let signature = both.sign(&file, &record_of(&cells)).expect("not refused");
        assert_eq!(signature, clocked(&set, &cells), "{}", both.at);
        let passes = both.judge(&plan, signature).expect("of the width");
        let passes = passes.fails_at.is_none();
        assert_eq!(passes, explained.contains(&signature), "{}", both.at);
        disobeying += usize::from(!obeys(&set, &cells));
        failing += usize::from(!passes);
        assert!(passes || !obeys(&set, &cells), "{}", both.at);
    }
    assert!(
        pairs > 2_000 && disobeying > 500 && failing > 300,
        "{pairs} pairs with different signatures, {disobeying} records that don't obey, {failing} of them fail"
    );
}

/// A response clocked here, word by word.
fn clocked(set: &Set, cells: &[Bits]) -> u64 {
    let circuit = &set.circuit;
    let spread: Vec<u64> = circuit.spread.iter().map(|w| word_of(w)).collect();
    let (m, taps) = (circuit.m, word_of(&circuit.taps));
    let clock = |state: u64, row: &Bits| {
        let feedback = if state >> (m - 1) & 1 == 1 { taps } else { 0 };
        let driven = row.iter().zip(&spread).filter(|(cell, _)| **cell);
        let driven = driven.fold(0, |sum, (_, word)| sum ^ word);
        (state << 1 & (u64::MAX >> (64 - m))) ^ feedback ^ driven ^ word_of(&circuit.inversion)
    };
    cells.iter().fold(0, clock)
}

/// For words that aren't the set's own the expected bits are still those of all symbols 0: single bits give that signature, in which a
/// cell tied as opposite is 1.
#[test]
fn single_bits_expect_the_signature_with_opposite_cells_1() {
    let mut both = Both::new();
    let mut moved = 0;
    for seed in 406_000..407_000 {
        let (_, content, file, set) = drawn(&mut both, seed, (64, 12, 6), 60);
        let mut cells = set.values.clone();
        for entry in content.ties.chunks(TIE) {
            let (slice, chain) = (usize::from(entry[0]), usize::from(entry[2]));
            cells[slice][chain] = entry[6] == 1;
        }
        let bits: Vec<u64> = (0..content.m).map(|i| 1 << i).collect();
        let signature = clocked(&set, &cells);
        assert_eq!(both.expect(&file, &bits), Ok(signature), "{}", both.at);
        let own = both.plan_words(&file, WORKING_MOST, 64);
        let not_own = own.map(|(_, words)| words) != Ok(bits);
        moved += usize::from(not_own && signature != clocked(&set, &set.values));
    }
    assert!(moved > 300, "{moved} sets expect other bits for their ties");
}

/// A set with no entries, and one in which each symbol has one cell: columns, words and plan are those of all cells free.
#[test]
fn without_entries_or_with_symbols_of_one_cell_every_cell_is_free() {
    let mut both = Both::new();
    for seed in 408_000..408_600 {
        let mut r = Random::new(seed);
        let free = untied(&small_content(&mut r, 24, 10, 5));
        let cells = unknown_cells(&free);
        let alone: Vec<[u8; TIE]> = (0..).zip(cells).map(|(i, cell)| tie(cell, i, 0)).collect();
        let (one, other) = (file_of(&free), file_of(&with_ties(&free, &alone)));
        both.at = format!("seed {seed}");
        let set = read_set(&one).expect("a good set");
        let columns: Vec<u64> = set
            .unknowns()
            .iter()
            .map(|&cell| column(&set, cell))
            .collect();
        let listed = [&one, &other].map(|file| both.list_columns(file, columns.len()));
        assert_eq!(
            listed,
            [Ok(columns.clone()), Ok(columns.clone())],
            "{}",
            both.at
        );
        let named = alone.len();
        let plans = [
            planning(&mut both, &one, WORKING, 64),
            planning(&mut both, &other, WORKING + named, 64),
        ];
        assert_eq!(plans[0], plans[1], "{}", both.at);
        let eliminated = both.eliminate(free.m, &columns, 64).map(|(_, words)| words);
        assert_eq!(plans[0].clone().map(|p| p.words), eliminated, "{}", both.at);
        // each named symbol takes a place, also where it has one cell
        if named > 0 {
            let short = planning(&mut both, &other, WORKING + named - 1, 64);
            assert_eq!(short, Err(14), "{}", both.at);
        }
    }
    let (answers, refused) = (both.seen("plan", 0), both.seen("plan", 17));
    assert!(
        answers > 500 && refused > 100,
        "{answers} plans, {refused} refused"
    );
}

/// A cell's column, clocked here: the difference that the cell makes.
fn column(set: &Set, (t, c): Cell) -> u64 {
    let mut cells = set.values.clone();
    let without = clocked(set, &cells);
    cells[t][c] = true;
    without ^ clocked(set, &cells)
}

/// "The cutter goes on with every cell free": its answer is that of the set without entries, at every k and with every list.
#[test]
fn no_entry_bears_on_the_runs() {
    let mut both = Both::new();
    let (mut several, mut others) = (0, 0);
    for seed in 409_000..409_500 {
        let mut r = Random::new(seed);
        let (m, n, s) = (1 + r.below(8), 1 + r.below(5), 1 + r.below(9));
        let free = content(&mut r, m, n, s, 1, 1 + n / 2);
        let tied = tied(&mut r, &free);
        let (one, other) = (file_of(&free), file_of(&tied));
        for k in 0..=m as u64 + 1 {
            both.at = format!("seed {seed}, k {k}");
            let room = r.pick(&[512, 512, r.clone().below(10)]);
            let runs = both.cut(&one, k, room);
            assert_eq!(both.cut(&other, k, room), runs, "{}", both.at);
            several += usize::from(runs.is_ok_and(|cutting| cutting.cuts.len() > 1));
        }
        let words = [one, other].map(|file| both.plan_words(&file, WORKING_MOST, 64));
        others += usize::from(words[0] != words[1]);
    }
    assert!(
        several > 300 && others > 100,
        "{several} cuttings of several runs, {others} sets whose words the ties change"
    );
}

/// The number that a call of the library alone gives; of its working list exactly the first `zero` places are 0 after it, and all others
/// are as they were.
fn leaves<A: Answer>(call: MakesWords<A>, set: &[u8], rooms: [usize; 2], zero: usize) -> u64 {
    let (answer, [working, _]) = made(call, set, rooms);
    let (front, rest) = working.split_at(zero);
    let left = front.iter().all(|w| *w == 0) && rest.iter().all(|w| *w == FILL);
    assert!(left, "rooms {rooms:?}, {zero} places are to be 0");
    answer.refusal()
}

/// The places that planning needs, of a set with words and of one without: one less gives 14 and touches nothing, as many are zero at the
/// end after an answer, 17 and 18, and the places behind them are as they were.
#[test]
fn the_working_list_has_a_place_for_each_named_symbol() {
    let mut both = Both::new();
    let mut r = Random::new(410_000);
    for (count, many) in [
        (1, 1),
        (2, 1),
        (2, 2),
        (200, 3),
        (255, 255),
        (256, 256),
        (256, 7),
    ] {
        for rank in [20, 24] {
            let free = content_of_rank(&mut r, (24, 70, 9), rank, 300);
            let cells = unknown_cells(&free);
            let mut chosen = some_of(&mut r, cells.len(), count);
            chosen.sort_unstable();
            let entry = |(i, cell): (usize, usize)| tie(cells[cell], (i % many) as u16, 0);
            let ties: Vec<[u8; TIE]> = chosen.into_iter().enumerate().map(entry).collect();
            let file = file_of(&with_ties(&free, &ties));
            both.at = format!("{count} ties of {many} symbols, rank {rank} of free cells");
            let needed = WORKING + many;
            let plan = planning(&mut both, &file, needed, 64);
            let q = plan.as_ref().map_or(0, |p| p.words.len());
            for room in [needed + 1, needed + 64, WORKING_MOST + 1, 4_096] {
                assert_eq!(planning(&mut both, &file, room, 64), plan, "{}", both.at);
                let short = planning(&mut both, &file, room, q.max(1) - 1);
                let number = if q == 0 { 17 } else { 18 };
                assert_eq!(short, Err(number), "{}", both.at);
            }
            for room in [needed - 1, WORKING, WORKING - 1, 0] {
                let short = planning(&mut both, &file, room, 64);
                assert_eq!(short, Err(14), "{}", both.at);
            }
            // of the library alone: the number, and how many places are 0
            let (answer, short) = if q == 0 { (17, 17) } else { (0, 18) };
            for (rooms, first, zero) in [
                ([needed, 64], answer, needed),
                ([needed + 1, 64], answer, needed),
                ([WORKING_MOST, q.max(1) - 1], short, needed),
                ([needed - 1, 64], 14, 0),
            ] {
                let given = [
                    leaves(canceller_plan, &file, rooms, zero),
                    leaves(canceller_plan_words, &file, rooms, zero),
                ];
                assert_eq!(given, [first, first], "{}, {rooms:?}", both.at);
            }
        }
    }
    for number in [0, 14, 17, 18] {
        let seen = both.seen("plan", number);
        assert!(seen >= 15, "{seen} plans gave {number}");
    }
}

/// The numbers of the ties and those around them, in the order in which they are looked for. Each fault changes the content of a set
/// with three unknown cells, all tied, and leaves what the others change.
const FAULTS: [(u64, fn(&mut Content)); 8] = [
    (8, |c| c.ties.push(0)),
    (8, |c| c.values.push(0)),
    (9, |c| c.values[1] |= 0x80),
    (10, |c| c.values[0] |= 2),
    (29, |c| c.ties[2..4].copy_from_slice(&[0, 0])),
    (29, |c| c.ties[16..18].copy_from_slice(&[2, 0])),
    (30, |c| c.ties[9..11].copy_from_slice(&[1, 0])),
    (31, |c| c.ties[13] = 2),
];

fn three_tied() -> Content {
    Content {
        m: 3,
        taps: 3,
        inversion: 5,
        spread: vec![1, 4],
        values: vec![1, 0],
        marks: vec![2, 3],
        s: 2,
        ties: [tie((0, 1), 7, 0), tie((1, 0), 7, 1), tie((1, 1), 8, 0)].concat(),
    }
}

/// The file of a content that the writer may refuse, laid out here.
fn laid_out(content: &Content) -> Vec<u8> {
    let (n, s) = (content.spread.len(), content.s as usize);
    let empty = Content {
        values: vec![0; record_length(n, s)],
        marks: vec![0; record_length(n, s)],
        ties: vec![],
        ..content.clone()
    };
    let mut file = file_of(&empty);
    file.truncate(value_row_at(n, 0));
    let b = row_bytes(n);
    let rows = content.values.chunks(b).zip(content.marks.chunks(b));
    for (values, marks) in rows {
        file.extend([values, marks].concat());
    }
    // a value row too many stands alone
    file.extend(&content.values[content.marks.len()..]);
    file.extend((content.ties.len().div_ceil(TIE) as u16).to_le_bytes());
    file.extend(&content.ties);
    file
}

/// Every call on a set gives this number, whatever else is wrong with what it is handed beside the set.
fn given_by_all(both: &mut Both, file: &[u8], first: u64) {
    let lengths = [[0, 0], [1, 1], [512, 64]];
    for [short, words] in lengths {
        assert_eq!(number(both.list_columns(file, short)), first, "{}", both.at);
        let planned = planning(both, file, short, words);
        assert_eq!(number(planned), first, "{}", both.at);
    }
    for k in [0, 1, 4] {
        assert_eq!(number(both.cut(file, k, 0)), first, "{}", both.at);
    }
    for record in [&[][..], &[0xff; 2]] {
        assert_eq!(number(both.sign(file, record)), first, "{}", both.at);
    }
    for slice in [0, 2] {
        assert_eq!(number(both.rows(file, slice)), first, "{}", both.at);
    }
    for words in [&[][..], &[1], &[2, 1]] {
        assert_eq!(number(both.expect(file, words)), first, "{}", both.at);
    }
    assert_eq!(number(both.read_set(file)), first, "{}", both.at);
    assert_eq!(number(both.ties(file)), first, "{}", both.at);
}

/// Each fault, each pair of faults and each three of them, in sets by every call and in the writer: the first number that applies,
/// before 11, 12, 14, 20, 26 and the writer's 24.
#[test]
fn of_two_numbers_or_three_the_first_is_given() {
    let mut both = Both::new();
    let good = three_tied();
    assert!(both.write_set(&good, 65).is_ok());
    let mut met = BTreeSet::new();
    for a in FAULTS {
        for b in FAULTS {
            for c in FAULTS {
                let mut bad = good.clone();
                for (_, fault) in [a, b, c] {
                    fault(&mut bad);
                }
                // the order of the call is here that of the numbers' size
                let numbers = [a.0, b.0, c.0];
                let first = *numbers.iter().min().expect("three");
                both.at = format!("{numbers:?}: {bad:?}");
                for room in [200, 0] {
                    let written = both.write_set(&bad, room);
                    assert_eq!(number(written), first, "{}", both.at);
                }
                given_by_all(&mut both, &laid_out(&bad), first);
                met.insert(first);
            }
        }
    }
    assert_eq!(
        met.into_iter().collect::<Vec<u64>>(),
        [8, 9, 10, 29, 30, 31]
    );
    // without such a fault the numbers behind them come up
    let file = file_of(&good);
    assert_eq!(number(both.write_set(&good, 64)), 24);
    assert_eq!(number(both.rows(&file, 2)), 11);
    assert_eq!(number(both.sign(&file, &[0])), 12);
    assert_eq!(number(both.list_columns(&file, 1)), 14);
    assert_eq!(number(both.plan(&file, WORKING + 1, 0)), 14);
    assert_eq!(number(both.cut(&file, 0, 0)), 26);
    assert_eq!(number(both.expect(&file, &[])), 20);
}

/// Which cells a tie can have: exactly the unknown ones, and no slice or chain behind the last.
#[test]
fn a_tie_of_each_cell_there_is_and_of_cells_behind_the_last() {
    let mut both = Both::new();
    let mut r = Random::new(411_000);
    let (mut taken, mut refused) = (0, 0);
    for n in [1, 7, 8, 9, 64, 65, 256] {
        let free = content(&mut r, 9, n, 5, 1, 2);
        let unknown: BTreeSet<Cell> = unknown_cells(&free).into_iter().collect();
        for slice in [0, 1, 4, 5, 6, 255, 256, 260, 512, 65_535] {
            for chain in [0, 1, n - 1, n, n + 7, 255, 256, 257, 65_535] {
                let content = with_ties(&free, &[tie((slice, chain), 3, 1)]);
                both.at = format!("n {n}, slice {slice}, chain {chain}");
                let first = if unknown.contains(&(slice, chain)) {
                    0
                } else {
                    29
                };
                let written = both.write_set(&content, 40_000);
                assert_eq!(number(written), first, "{}", both.at);
                let file = laid_out(&content);
                assert_eq!(number(both.read_set(&file)), first, "{}", both.at);
                taken += usize::from(first == 0);
                refused += usize::from(first != 0);
            }
        }
    }
    assert!(
        taken > 30 && refused > 300,
        "{taken} taken, {refused} refused"
    );
}

/// Two entries, of each pair of unknown cells and with each pair of symbols: taken exactly where the first stands before the second by
/// slice and then by chain.
#[test]
fn entries_ascend_by_slice_and_then_by_chain() {
    let mut both = Both::new();
    let cells = [
        (0, 0),
        (0, 255),
        (1, 0),
        (1, 1),
        (1, 255),
        (255, 7),
        (256, 0),
        (256, 1),
    ];
    let mut content = content(&mut Random::new(412_000), 9, 256, 300, 0, 1);
    for (t, c) in cells {
        let at = 32 * t + c / 8;
        content.values[at] &= !(1 << (c % 8));
        content.marks[at] |= 1 << (c % 8);
    }
    for a in cells {
        for b in cells {
            for symbols in [[0, 0], [1, 0], [0, 1]] {
                let ties = [tie(a, symbols[0], 0), tie(b, symbols[1], 0)];
                let tied = with_ties(&content, &ties);
                both.at = format!("{a:?}, then {b:?}");
                let first = if a < b { 0 } else { 30 };
                assert_eq!(number(both.write_set(&tied, 40_000)), first, "{}", both.at);
                assert_eq!(number(both.ties(&laid_out(&tied))), first, "{}", both.at);
            }
        }
    }
    // the last two of many
    let many = |last: [Cell; 2]| -> Vec<[u8; TIE]> {
        let all = cells[..6].iter().chain(&last);
        all.map(|&cell| tie(cell, 1, 1)).collect()
    };
    for (last, first) in [
        ([(256, 0), (256, 1)], 0),
        ([(256, 1), (256, 0)], 30),
        ([(256, 1), (256, 1)], 30),
    ] {
        let tied = with_ties(&content, &many(last));
        assert_eq!(number(both.write_set(&tied, 40_000)), first, "{last:?}");
    }
}

/// Every last byte that isn't 0 or 1 gives 31, in the first entry, in the last and between.
#[test]
fn last_bytes_above_1() {
    let mut both = Both::new();
    let good = three_tied();
    for entry in 0..3 {
        for byte in 0..=255 {
            let mut content = good.clone();
            content.ties[TIE * entry + 6] = byte;
            both.at = format!("entry {entry}, byte {byte}");
            let first = if byte > 1 { 31 } else { 0 };
            assert_eq!(number(both.write_set(&content, 65)), first, "{}", both.at);
            assert_eq!(
                number(both.read_set(&laid_out(&content))),
                first,
                "{}",
                both.at
            );
        }
    }
}

/// Counts and lengths around the entries that are there: none, few, 256, 257 and more.
#[test]
fn the_count_is_exact_and_at_most_256() {
    let mut both = Both::new();
    let mut r = Random::new(413_000);
    let free = content(&mut r, 12, 20, 20, 1, 1);
    for entries in [0, 1, 2, 255, 256, 257, 258, 300] {
        let ties = some_ties(&mut r, &free, entries, &[1, 2, 3], &[0, 1]);
        let content = Content {
            ties,
            ..free.clone()
        };
        both.at = format!("{entries} entries");
        let first = if entries > 256 { 8 } else { 0 };
        assert_eq!(
            number(both.write_set(&content, 40_000)),
            first,
            "{}",
            both.at
        );
        let file = laid_out(&content);
        given_count(&mut both, &file, entries, first);
        // ties that aren't whole
        for length in [1, 6, 8, 13] {
            let mut cut = content.clone();
            cut.ties.resize(length, 0);
            assert_eq!(number(both.write_set(&cut, 40_000)), 8, "{length} bytes");
        }
    }
}

/// The file as it is, and with other counts and with bytes more or less.
fn given_count(both: &mut Both, file: &[u8], entries: usize, first: u64) {
    assert_eq!(number(both.read_set(file)), first, "{}", both.at);
    let at = tie_count_at(20, 20);
    for count in [0, 1, 2, 255, 256, 257, 258, 300, 65_535] {
        let mut other = file.to_vec();
        other[at..at + 2].copy_from_slice(&(count as u16).to_le_bytes());
        let first = if count == entries { first } else { 8 };
        assert_eq!(
            number(both.read_set(&other)),
            first,
            "{}, count {count}",
            both.at
        );
    }
    for length in at..at + 2 {
        assert_eq!(
            number(both.read_set(&file[..length])),
            8,
            "{}, {length} bytes",
            both.at
        );
    }
    for more in [1, 6, 7, 8] {
        let longer = [file, &vec![0; more]].concat();
        assert_eq!(
            number(both.read_set(&longer)),
            8,
            "{}, {more} more",
            both.at
        );
        if file.len() >= at + 2 + more {
            let shorter = &file[..file.len() - more];
            assert_eq!(
                number(both.read_set(shorter)),
                8,
                "{}, {more} less",
                both.at
            );
        }
    }
}

/// What the writer wrote is read back, entries as the file's own stretch, which the writer takes again: one file for each content, and
/// one content for each file.
#[test]
fn entries_there_and_back() {
    let mut both = Both::new();
    let mut files: BTreeMap<Vec<u8>, Content> = BTreeMap::new();
    for seed in 414_000..415_500 {
        let mut r = Random::new(seed);
        both.at = format!("seed {seed}");
        let content = tied_content(&mut r, (20, 12, 6), 72);
        let other = Content {
            ties: ties(&mut r, &content),
            ..content.clone()
        };
        for content in [content, other] {
            let file = both.write_set(&content, 40_000).expect("a good content");
            let (start, length) = both.ties(&file).expect("a written set");
            assert_eq!(start + length, file.len(), "{}", both.at);
            let count = [file[start - 2], file[start - 1]];
            assert_eq!(
                usize::from(u16::from_le_bytes(count)) * TIE,
                length,
                "{}",
                both.at
            );
            let again = Content {
                ties: file[start..].to_vec(),
                ..content.clone()
            };
            assert_eq!(again, content, "{}", both.at);
            let written = both.write_set(&again, file.len());
            assert_eq!(written.as_ref(), Ok(&file), "{}", both.at);
            if let Some(before) = files.insert(file, content.clone()) {
                assert_eq!(before, content, "{}", both.at);
            }
        }
    }
    assert!(files.len() > 2_000, "{} files", files.len());
    // none: where they would begin, of length 0; in a refusal no place
    let set = sample("sample.set");
    assert_eq!(both.ties(&set), Ok((44, 0)));
    assert_eq!(both.ties(&set[..43]), Err(8));
}

/// All calls on sets of the largest shape with 256 entries: few symbols and many, across all slices, and unknown cells around them.
#[test]
fn the_largest_sets_with_256_entries() {
    let mut both = Both::new();
    let (mut answers, mut none) = (0, 0);
    for (i, (rank, unknowns, many)) in [
        (20, 256, 1),
        (20, 256, 256),
        (40, 300, 30),
        (40, 256, 20),
        (63, 700, 100),
        (62, 513, 256),
        (64, 600, 256),
        (64, 256, 12),
    ]
    .into_iter()
    .enumerate()
    {
        let mut r = Random::new(416_000 + i as u64);
        let free = content_of_rank(&mut r, (64, 256, 512), rank, unknowns);
        let symbols: Vec<u16> = (0..many).map(|_| r.word() as u16).collect();
        let ties = some_ties(&mut r, &free, 256, &symbols, &[0, 1]);
        let content = Content { ties, ..free };
        both.at = format!("set {i}: {unknowns} unknown cells, {many} symbols");
        let files = files_of(&mut r, &content);
        assert_eq!(files.set.len(), 36_632, "{}", both.at);
        good_content(&mut both, &mut r, &content);
        let plan = both.plan(&files.set, files.working, 64);
        answers += usize::from(plan.is_ok());
        none += usize::from(plan == Err(17));
    }
    assert!(
        answers >= 5 && none >= 1,
        "{answers} plans, {none} without words"
    );
}

/// Random sets of middle size: all calls, with entries of every shape.
#[test]
fn sets_of_all_sizes() {
    let mut both = Both::new();
    let mut seen = BTreeSet::new();
    for seed in 417_000..417_400 {
        let mut r = Random::new(seed);
        let (m, n, s) = (1 + r.below(64), 1 + r.below(80), 1 + r.below(30));
        let of = r.pick(&[1, 3, 10, 40]);
        let free = content(&mut r, m, n, s, 1, of);
        let content = tied(&mut r, &free);
        both.at = format!("seed {seed}");
        let files = files_of(&mut r, &content);
        reference::draw::every_call(&mut both, &files);
        seen.insert(content.ties.len() / TIE);
    }
    let plans = both.accepted("plan");
    assert!((25..90).contains(&plans), "{plans} % of the plans");
    assert!(
        seen.contains(&0) && seen.contains(&256) && seen.len() > 80,
        "{seen:?}"
    );
}

/// samples/ties.set, worked on paper: without its ties it has no words.
#[test]
fn the_sample_with_ties() {
    let mut both = Both::at("samples/ties.set");
    let set = sample("ties.set");
    // the five unknown cells have the columns 21, 24, 10, 12 and 16, and 21, 24 and 12 are symbol 7's
    assert_eq!(both.list_columns(&set, 3), Ok(vec![21 ^ 24 ^ 12, 10, 16]));
    assert_eq!(both.list_columns(&set, 2), Err(14));
    assert_eq!(both.plan(&set, 65, 64), Err(14));
    // with slice 1's opposite cell as 1: states 1, 4, 25 and 23
    let plan = Plan {
        m: 5,
        words: vec![4, 10],
        expected: 0b11,
    };
    assert_eq!(both.plan(&set, 66, 2), Ok(plan));
    assert_eq!(both.expect(&set, &[1, 2, 4, 8, 16]), Ok(23));
    let (start, _) = both.ties(&set).expect("a good set");
    let free = [&set[..start - 2], &[0, 0]].concat();
    assert_eq!(both.list_columns(&free, 5), Ok(vec![21, 24, 10, 12, 16]));
    assert_eq!(both.plan(&free, 64, 64), Err(17));
    assert_eq!(both.expect(&free, &[1, 2, 4, 8, 16]), Ok(15));
}
