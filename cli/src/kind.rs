//! What a file is, by its first bytes: a score in words or in bytes, or something else.

use crate::tuning::ORDERS;

/// Text does not start with a byte below this one, the tab; bytes start with their order.
const FIRST_OF_TEXT: u8 = b'\t';
/// Files that are taken for scores by mistake: how they start, and what to say of them.
const OTHERS: [(&[u8], &str); 6] = [
    (b"RIFF", "this is a WAV file, not a score"),
    (b"MThd", "this is a MIDI file, not a score"),
    (b"fLaC", "this is a FLAC file, not a score"),
    (b"ID3", "this is an MP3 file, not a score"),
    (b"OggS", "this is an Ogg file, not a score"),
    (b"<svg", "this is a picture, not a score"),
];

/// What is no score, in words.
pub fn other(bytes: &[u8]) -> Option<&'static str> {
    OTHERS.iter().find(|(start, _)| bytes.starts_with(start)).map(|(_, words)| *words)
}

pub fn looks_like_text(bytes: &[u8]) -> bool {
    bytes.first().is_none_or(|&first| first >= FIRST_OF_TEXT)
}

/// Text without control characters: no score in bytes that a voice takes is that.
fn is_text(bytes: &[u8]) -> bool {
    let plain = |letter: char| !letter.is_control() || letter.is_whitespace();
    looks_like_text(bytes) && std::str::from_utf8(bytes).is_ok_and(|text| text.chars().all(plain))
}

/// What a file is that has no score in bytes, whether it can be read as one or not.
pub fn no_bytes(bytes: &[u8]) -> Option<&'static str> {
    match bytes.is_empty() {
        true => Some("this is no score: it is empty"),
        false => other(bytes).or(is_text(bytes).then_some("this is text, not bytes")),
    }
}

/// What a damaged file has in place of an order, where it starts with none.
pub fn no_order(bytes: &[u8]) -> Option<String> {
    let first = *bytes.first().filter(|&&first| !ORDERS.contains(&first.into()))?;
    let (low, high) = (ORDERS.start(), ORDERS.end());
    let order = format!("a score starts with its order, {low} to {high}");
    Some(format!("this is no score: its first byte is {first}, and {order}"))
}
