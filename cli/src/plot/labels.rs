//! The names of the notes above a waveform, where there is room for them.

use super::svg::{width_of, SMALL};
use crate::pitch::Pitch;
use crate::timeline::{Span, Timeline};
use crate::tuning::Tuning;

/// Names stand in so many rows.
const ROWS: usize = 3;
/// Pixels between two names of a row.
const GAP: f64 = 10.0;

#[derive(Clone, Debug, PartialEq)]
pub struct Label {
    pub x: f64,
    pub row: usize,
    pub words: String,
}

/// The note nearest to a tuning, with whole cents.
pub fn name(tuning: Tuning, rate: u32) -> String {
    match Pitch::nearest(tuning.hertz(rate)) {
        Some(Pitch::Note { note, cents }) => {
            let cents = cents.round() + 0.0;
            Pitch::Note { note, cents }.to_string().replace('-', "−")
        }
        _ => format!("L {} d {}", tuning.length, tuning.delay),
    }
}

/// Stretches of one tuning, whether it was set anew in between or not.
fn held(timeline: &Timeline) -> Vec<Span> {
    let mut held: Vec<Span> = Vec::new();
    for span in timeline.spans() {
        match held.last_mut().filter(|last| last.tuning == span.tuning) {
            Some(last) => last.to = span.to,
            None => held.push(span),
        }
    }
    held
}

/// Names for the longest stretches first, each at its beginning, as far as they do not run into another
/// or far past their own stretch; and how many stretches have no name.
pub fn placed(
    timeline: &Timeline,
    rate: u32,
    x: impl Fn(usize) -> f64,
    right: f64,
) -> (Vec<Label>, usize) {
    let mut spans = held(timeline);
    let count = spans.len();
    spans.sort_by_key(|span| (span.from as i64 - span.to as i64, span.from));
    let mut labels: Vec<Label> = Vec::new();
    for span in spans {
        let words = name(span.tuning, rate);
        let (from, to, width) = (x(span.from), x(span.to), width_of(&words, SMALL));
        if to - from < 0.5 * width || from + width > right {
            continue;
        }
        let apart = |other: &Label| {
            let other_width = width_of(&other.words, SMALL);
            from >= other.x + other_width + GAP || from + width + GAP <= other.x
        };
        let free = |row: &usize| labels.iter().filter(|other| other.row == *row).all(apart);
        if let Some(row) = (0..ROWS).find(free) {
            labels.push(Label { x: from, row, words });
        }
    }
    let without = count - labels.len();
    (labels, without)
}

#[cfg(test)]
mod tests {
    use super::*;

    #[test]
    fn tunings_have_names() {
        assert_eq!(name(Tuning { length: 99, delay: 2_979 }, 44_100), "A4");
        assert_eq!(name(Tuning { length: 100, delay: 2_979 }, 44_100), "A4−17c");
    }
}
