//! Notes on a limit: where d lies on an end of the order's range, and where L leaves 1 to 2,048.

use super::field;
use super::random::Random;
use crate::note::note;
use crate::refusal::number;
use crate::thiran::delay_range;

/// The limits of test 11: "11 rate outside 8,000 to 192,000".
const RATES: (u32, u32) = (8_000, 192_000);

/// A line of the console.
fn line(order: u32, rate: u32, m: u32) -> String {
    format!("note {order} {rate} {m}")
}

/// A note whose d is the least or the greatest that the order takes, from a random rate upward;
/// with it the rates one below and one above. Nothing where no such rate follows soon.
pub fn delay_on_limit(random: &mut Random) -> Vec<String> {
    let (order, m) = (field::order(random), random.between(0, 127));
    let (range, start) = (delay_range(order), random.between(RATES.0, RATES.1));
    let ends = [*range.start(), *range.end()].map(i128::from);
    let on_limit = |rate: &u32| {
        let (answer, [_, d]) = note(order, *rate, m);
        answer.is_ok() && ends.contains(&d)
    };
    let found = (start..RATES.1.min(start + 8_000)).find(on_limit);
    let lines = |rate| [rate - 1, rate, rate + 1].map(|rate| line(order, rate, m));
    found.into_iter().flat_map(lines).collect()
}

/// The two neighbouring rates between which a note leaves the lengths 1 to 2,048 (test 13), found
/// by halving. Nothing where the answer is the same at the lowest and the highest rate.
pub fn length_on_limit(random: &mut Random) -> Vec<String> {
    let order = field::order(random);
    let note_range = random.pick(&[(0, 20), (100, 127)]);
    let m = random.between(note_range.0, note_range.1);
    let answer = |rate| number(&note(order, rate, m).0);
    let (mut low, mut high) = RATES;
    if answer(low) == answer(high) {
        return Vec::new();
    }
    while low + 1 < high {
        let middle = (low + high) / 2;
        if answer(middle) == answer(low) {
            low = middle;
        } else {
            high = middle;
        }
    }
    [low, high].map(|rate| line(order, rate, m)).to_vec()
}
