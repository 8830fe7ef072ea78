//! Section "Notes and effective length": the octave and the note routine.

use crate::natural::Natural;
use crate::number::{floor_div, nearest};
use crate::refusal::{require, Answer, Refusal};
use crate::thiran::{delay_range, test_order, SAMPLE};
use std::sync::OnceLock;

/// "with t that entry, (2t − 1)^12 < 2^(300 + k) < (2t + 1)^12": the left inequality.
fn not_too_great(t: u64, k: u32) -> bool {
    Natural::new(2 * t - 1).power(12) < Natural::new(2).power(300 + k)
}

/// "with t that entry, (2t − 1)^12 < 2^(300 + k) < (2t + 1)^12": the right inequality.
fn not_too_small(t: u64, k: u32) -> bool {
    Natural::new(2).power(300 + k) < Natural::new(2 * t + 1).power(12)
}

/// "entry k nearest to 2^24 × 2^(k/12)", found by halving the interval from 2^24 to 2^25: the
/// least t for which the right inequality holds. The left one is then verified.
fn octave_entry(k: u32) -> u64 {
    let (mut low, mut high) = (1 << 24, 1 << 25);
    while low < high {
        let middle = (low + high) / 2;
        if not_too_small(middle, k) {
            high = middle;
        } else {
            low = middle + 1;
        }
    }
    assert!(not_too_great(low, k) && not_too_small(low, k), "the twelfth-power rule, entry {k}");
    low
}

/// "The octave is a table of twelve whole numbers".
pub fn octave() -> &'static [u64] {
    static TABLE: OnceLock<Vec<u64>> = OnceLock::new();
    TABLE.get_or_init(|| (0..12).map(octave_entry).collect())
}

/// "For rate fs and note m, m − 69 = 12·o + k with k from 0 to 11. T is fs × 2^36/(440·t·2^o),
/// nearest, half upward." Where o is below 0, the numerator takes 2^(−o).
fn period(rate: u32, m: u32) -> i128 {
    let o = floor_div(i128::from(m) - 69, 12);
    let k = i128::from(m) - 69 - 12 * o;
    let t = i128::from(octave()[k as usize]);
    let numerator = i128::from(rate) << (36 + (-o).max(0));
    let denominator = (440 * t) << o.max(0);
    nearest(numerator, denominator)
}

/// "Then T − 2,048 = 4,096·L + d with d in the order's range". The range holds 4,096 numbers, so
/// L and d are determined; L can be 0 or below 0.
pub fn split(order: u32, period: i128) -> (i128, i128) {
    let rest = period - 2_048;
    let lowest = i128::from(*delay_range(order).start());
    let length = floor_div(rest - lowest, SAMPLE);
    (length, rest - SAMPLE * length)
}

/// The tests and values of the note routine: "Note: 1, 11 rate outside 8,000 to 192,000, 12 note
/// above 127, 13 L outside 1 to 2,048".
fn length_and_delay(order: u32, rate: u32, m: u32) -> Result<(i128, i128), Refusal> {
    test_order(order)?;
    require((8_000..=192_000).contains(&rate), Refusal::Rate)?;
    require(m <= 127, Refusal::Note)?;
    let (length, d) = split(order, period(rate, m));
    require((1..=2_048).contains(&length), Refusal::NoteLength)?;
    Ok((length, d))
}

/// The call: L and d of a note. Refused, "L and d come back 0."
pub fn note(order: u32, rate: u32, m: u32) -> (Answer, [i128; 2]) {
    match length_and_delay(order, rate, m) {
        Ok((length, d)) => (Ok(()), [length, d]),
        Err(refusal) => (Err(refusal), [0, 0]),
    }
}
