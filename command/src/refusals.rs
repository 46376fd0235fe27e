//! What the refusal numbers mean, and what to do. A test holds this table to README.md's.

/// Each number, why a call declines with it, and what to do.
const ALL: [(u64, &str, &str); 30] = [
    (1, "the set has fewer than 18 bytes", "the file is empty or cut off"),
    (2, "m isn't 1 to 64", "mend the register's width"),
    (3, "the tap word has bit 0 clear or a bit at or above m", "mend the taps: bit 0 is always set"),
    (4, "the chain count is absent or isn't 1 to 256", "mend the chain count"),
    (5, "the set ends before the last spread word", "one spread word of 8 bytes is needed for each chain"),
    (6, "a spread word is zero or has a bit at or above m", "every chain drives at least one input of the register"),
    (7, "the slice count is absent or above 512", "mend the slice count; split a longer response"),
    (8, "a length isn't what the counts give, or the count of ties is absent or above 256", "the file has rows or ties too few or too many, or a list or row handed over has. A set of version 2 or 3 has no count of ties: make it again"),
    (9, "a row of the set has a spare bit set", "bits past the last chain are 0"),
    (10, "an unknown cell has its value bit set", "write 0 as the value of an unknown cell"),
    (11, "the slice number isn't below s", "slices count from 0"),
    (12, "the record's length isn't s × B", "a record is s rows of n ÷ 8 bytes, rounded up"),
    (13, "the record has a spare bit set", "bits past the last chain are 0"),
    (14, "the column list is shorter than the symbols are many, or planning's working list has fewer than 64 places and one for each named symbol", "lend more places: 131,072 for columns and 320 for planning always do"),
    (15, "a column has a bit at or above m", "mend the column or the width"),
    (17, "no X-free combination but the empty one exists", "too many unknown cells reach the register independently: every signature is good. Fewer unknowns, or a wider register"),
    (18, "the word list is shorter than q", "lend more places: 64 always do"),
    (19, "the plan has fewer than 2 bytes, or its m isn't 1 to 64", "not a plan file"),
    (20, "the plan's word count is absent, 0 or above m, or the plan ends before its last word", "the plan is damaged, or no words or more than m were handed over"),
    (21, "the plan's words aren't a reduced list for m", "the plan was changed by hand or is damaged, or the words handed over are of another register"),
    (22, "the second count, the length or a spare bit of the plan is wrong", "the plan is damaged"),
    (23, "a signature has a bit at or above m", "the signature is of another register"),
    (24, "the output is shorter than the file to be written", "lend more bytes: 36,632 for a set, 526 for a plan always do"),
    (25, "the inversion word has a bit at or above m", "mend the inversion word: all its bits are below m. A set of version 1 has no inversion word: make it again"),
    (26, "k isn't 1 to m", "ask for at least one word, and for no more than the register has bits"),
    (27, "a slice alone leaves fewer than k words", "ask for fewer words; or fewer unknown cells in that slice, or a wider register"),
    (28, "the cut list is shorter than the runs are many", "lend more places: 512 always do"),
    (29, "a tie's cell is absent or isn't unknown", "tie unknown cells of the response alone; slices and chains count from 0"),
    (30, "the ties don't ascend strictly by slice and then by chain", "sort the ties by slice and then by chain, with each cell once"),
    (31, "the last byte of a tie is above 1", "write 0 for as is, or 1 for opposite"),
];

/// The number of a set that has no words: every signature is explained.
pub const NO_WORDS: u64 = 17;

/// The sentence of a number that the library gave.
pub fn sentence(number: u64) -> &'static str {
    meaning(number).map_or("a number that this command does not know", |(why, _)| why)
}

/// Why, and what to do.
pub fn meaning(number: u64) -> Option<(&'static str, &'static str)> {
    let row = ALL.iter().find(|(n, _, _)| *n == number)?;
    Some((row.1, row.2))
}

/// The greatest number.
pub const LAST: u64 = ALL[ALL.len() - 1].0;

/// The number that was taken out: more than m independent columns, which can't come up. It is given to nothing else.
pub const TAKEN_OUT: u64 = 16;
