//! Planning by its two calls, the words and the expected bits, and what the plan printer writes.

use super::elimination::reduced_list;
use super::layout::TIES_MOST;
use super::plan::{parities, take_words, Plan};
use super::set::{read_set, Set};
use super::*;

/// "Words are to come from a working list of 64 places" (document 02, No. 3); "planning needs one more working place for each named
/// symbol" (No. 7).
pub const WORKING: usize = 64;

/// .. which are at most as many as entries.
pub const WORKING_MOST: usize = WORKING + TIES_MOST;

/// What a call that makes words answers, and what the front of its working list holds after it: "Past 14, those 64 hold zero when the
/// call ends, accepted or not", and the places of named symbols too, "counted in its 14 and zero at the end also". Before that nothing is
/// written.
pub struct Planning<T> {
    pub reply: Reply<T>,
    pub working: Vec<u64>,
}

/// How many working places a set needs.
pub fn working_places(set: &Set) -> usize {
    WORKING + set.named()
}

/// "Refusal 14 in planning now means fewer than 64 places", and the named symbols'.
fn past_14(bytes: &[u8], room: usize) -> Reply<Set> {
    let set = read_set(bytes)?;
    refuse_if(room < working_places(&set), 14)?;
    Ok(set)
}

fn words_of(m: usize, columns: &[u64], room: usize) -> Reply<Vec<u64>> {
    let words = reduced_list(m, columns);
    refuse_if(words.is_empty(), 17)?;
    refuse_if(room < words.len(), 18)?;
    Ok(words)
}

/// The words of a set: m and the words. They come from a list of all columns, which is this function's own.
pub fn plan_words(
    bytes: &[u8],
    working_room: usize,
    word_room: usize,
) -> Planning<(u64, Vec<u64>)> {
    let set = match past_14(bytes, working_room) {
        Ok(set) => set,
        Err(n) => {
            return Planning {
                reply: Err(n),
                working: vec![],
            }
        }
    };
    let m = set.circuit.m;
    let reply = words_of(m, &set.columns(), word_room).map(|words| (m as u64, words));
    Planning {
        reply,
        working: vec![0; working_places(&set)],
    }
}

/// The expected bits of words for a set, whether or not they are its own: each word's parity with the signature for all symbols 0.
pub fn expect(bytes: &[u8], words: &[u64]) -> Reply<u64> {
    let set = read_set(bytes)?;
    take_words(set.circuit.m as u64, words)?;
    Ok(parities(words, set.zero_signature()))
}

/// Planning: the words, and then the expected bits for them.
pub fn plan(bytes: &[u8], working_room: usize, word_room: usize) -> Planning<Plan> {
    let Planning { reply, working } = plan_words(bytes, working_room, word_room);
    let reply = reply.and_then(|(m, words)| {
        let expected = expect(bytes, &words)?;
        Ok(Plan { m, words, expected })
    });
    Planning { reply, working }
}

/// The plan printer's output. "The printer still lends 4,096 and prints 14 no more", and "still counts unknown cells".
pub fn printed(bytes: &[u8]) -> String {
    match plan(bytes, 4096, 64).reply {
        Err(n) => format!("refused {n}\n"),
        Ok(p) => {
            let set = read_set(bytes).unwrap();
            let unknowns = set.unknowns().len();
            let mut text = format!("set {} {} {} {unknowns}\n", p.m, set.n(), set.s());
            for (i, w) in p.words.iter().enumerate() {
                text += &format!("word {i} {w} {}\n", p.expected >> i & 1);
            }
            text + &format!("end {}\n", p.words.len())
        }
    }
}
