//! Document 02, L8: up to eight bytes in one word.

/// "from a slice and a start it returns the number that the bytes there make, eight at most, the
/// first lowest, missing ones 0".
pub fn gather(bytes: &[u8], start: usize) -> u64 {
    let there = bytes.iter().skip(start).take(8);
    there.enumerate().map(|(place, byte)| u64::from(*byte) << (8 * place)).sum()
}
