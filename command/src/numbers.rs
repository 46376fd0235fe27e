//! Numbers as people write them.

/// What a number of 64 bits may look like, for messages.
pub const WORD: &str = "a number from 0 to 2^64 - 1, decimal or 0x..";

/// .. and one of 16.
pub const COUNT: &str = "a number from 0 to 65535, decimal or 0x..";

/// A number in decimal, or in hexadecimal behind 0x, of 16 bits at most.
pub fn count(text: &[u8]) -> Option<u16> {
    word(text).and_then(|number| u16::try_from(number).ok())
}

/// A number in decimal, or in hexadecimal behind 0x, of 64 bits at most.
pub fn word(text: &[u8]) -> Option<u64> {
    match text {
        [b'0', b'x' | b'X', digits @ ..] => hexadecimal(digits),
        digits => decimal(digits),
    }
}

fn decimal(digits: &[u8]) -> Option<u64> {
    // this many digits always fit
    const FIT: usize = 19;
    let (front, rest) = digits.split_at(digits.len().min(FIT));
    let mut sum = 0;
    for digit in front {
        sum = 10 * sum + u64::from(figure(*digit)?);
    }
    for digit in rest {
        let figure = u64::from(figure(*digit)?);
        sum = u64::checked_mul(sum, 10)?.checked_add(figure)?;
    }
    (!digits.is_empty()).then_some(sum)
}

fn figure(digit: u8) -> Option<u8> {
    let value = digit.wrapping_sub(b'0');
    (value < 10).then_some(value)
}

fn hexadecimal(digits: &[u8]) -> Option<u64> {
    if digits.is_empty() {
        return None;
    }
    digits.iter().try_fold(0u64, |sum, &digit| {
        let value = (digit as char).to_digit(16)?;
        if sum >> 60 != 0 {
            return None;
        }
        Some(sum << 4 | u64::from(value))
    })
}

/// A decimal number with or without a sign.
pub fn signed(text: &[u8]) -> Option<i32> {
    let (minus, digits) = match text {
        [b'-', digits @ ..] => (true, digits),
        [b'+', digits @ ..] => (false, digits),
        digits => (false, digits),
    };
    let size = i64::try_from(decimal(digits)?).ok()?;
    i32::try_from(if minus { -size } else { size }).ok()
}

/// A number with commas between its thousands.
pub fn grouped(number: u64) -> String {
    let digits = number.to_string();
    let mut text = String::new();
    for (i, digit) in digits.chars().enumerate() {
        if i > 0 && (digits.len() - i).is_multiple_of(3) {
            text.push(',');
        }
        text.push(digit);
    }
    text
}

/// So many of something, whose name takes an s where they aren't one.
pub fn many(count: u64, what: &str) -> String {
    let plural = if count == 1 { "" } else { "s" };
    format!("{count} {what}{plural}")
}

/// What was found where something else was expected, short and printable.
pub fn found(text: &[u8]) -> String {
    const MOST: usize = 24;
    let text = String::from_utf8_lossy(text);
    let mut short: String = text.chars().take(MOST).collect();
    if text.chars().nth(MOST).is_some() {
        short.push_str("..");
    }
    format!("'{}'", short.escape_debug())
}
