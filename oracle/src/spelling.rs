//! What the words of a line spell: numbers, samples and bytes.

use crate::tuning::Tuning;

/// "A block takes up to 4,096 samples in and out".
pub const BLOCK_LIMIT: u32 = 4_096;

/// The words of a line: "separated by spaces or tabs; `#` starts a comment (to end of line)".
pub fn words(line: &[u8]) -> Vec<&[u8]> {
    let text = line.split(|byte| *byte == b'#').next().unwrap_or(line);
    text.split(|byte| matches!(byte, b' ' | b'\t')).filter(|word| !word.is_empty()).collect()
}

/// "Numbers are decimal"; leading zeros are allowed, a `+` is not. Nothing from 2^32 on.
pub fn unsigned(word: &[u8]) -> Option<u32> {
    if word.is_empty() || !word.iter().all(u8::is_ascii_digit) {
        return None;
    }
    let add = |value: u32, digit: &u8| value.checked_mul(10)?.checked_add(u32::from(digit - b'0'));
    word.iter().try_fold(0, add)
}

/// "samples may have a `-`", from -2147483648 to 2147483647.
pub fn sample(word: &[u8]) -> Option<i32> {
    let value = match word.strip_prefix(b"-") {
        Some(digits) => -i64::from(unsigned(digits)?),
        None => i64::from(unsigned(word)?),
    };
    i32::try_from(value).ok()
}

/// "bytes are two hex digits each".
fn byte(word: &[u8]) -> Option<u8> {
    let digit = |at: usize| char::from(word[at]).to_digit(16);
    match word.len() {
        2 => u8::try_from(16 * digit(0)? + digit(1)?).ok(),
        _ => None,
    }
}

/// An unsigned number up to a limit, as a number of places.
pub fn places(word: &[u8], limit: u32) -> Option<usize> {
    unsigned(word).filter(|value| *value <= limit).map(|value| value as usize)
}

/// Exactly `COUNT` unsigned numbers: not "a word too many or too few".
pub fn numbers<const COUNT: usize>(words: &[&[u8]]) -> Option<[u32; COUNT]> {
    let values: Vec<u32> = words.iter().map(|word| unsigned(word)).collect::<Option<_>>()?;
    values.try_into().ok()
}

/// `N L D`, what a change names.
pub fn tuning(words: &[&[u8]]) -> Option<Tuning> {
    numbers(words).map(|[order, length, delay]| Tuning { order, length, delay })
}

/// All the words as bytes.
pub fn bytes(words: &[&[u8]]) -> Option<Vec<u8>> {
    words.iter().map(|word| byte(word)).collect()
}

/// All the words as samples, at most 4,096.
pub fn samples(words: &[&[u8]]) -> Option<Vec<i32>> {
    let samples: Vec<i32> = words.iter().map(|word| sample(word)).collect::<Option<_>>()?;
    (samples.len() <= BLOCK_LIMIT as usize).then_some(samples)
}
