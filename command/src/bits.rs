//! Words as rows of bits and as XORs. The papers' M1 is bit 0. A row is written from bit 0 on, as the text form writes a slice
//! from chain 0 on.

/// The bits 0 to width - 1 of a word, bit 0 first.
pub fn row(word: u64, width: u64) -> String {
    let digit = |bit| if is_set(word, bit) { '1' } else { '0' };
    (0..width).map(digit).collect()
}

pub fn is_set(word: u64, bit: u64) -> bool {
    word >> bit & 1 == 1
}

/// A word as the XOR that it is: M1⊕M3 for 5.
pub fn xor(word: u64) -> String {
    joined(word, "⊕")
}

/// The register bits of a word: M1 M3 for 5.
pub fn listed(word: u64) -> String {
    joined(word, " ")
}

fn joined(word: u64, between: &str) -> String {
    let bits = (0..64).filter(|&bit| is_set(word, bit));
    let names: Vec<String> = bits.map(|bit| format!("M{}", bit + 1)).collect();
    if names.is_empty() {
        "0".to_string()
    } else {
        names.join(between)
    }
}
