//! Console texts of merged scores: document 02, L14.

use super::lines::hex;
use super::random::Random;
use super::score_fields::{ScoreFields, Shape};
use super::scores::damage;
use super::text::Text;
use crate::merge::merge;
use crate::record::WAIT;

/// Two scores of one header, whose waits are few and short, so that moments are often equal.
fn pair(random: &mut Random) -> (ScoreFields, ScoreFields) {
    let advance = random.pick(&[0, 0, 64, 4, 2, 1]);
    let shape = Shape { records: 5, wait: random.pick(&[2, 6, 90]), long: false, spaced: true };
    let mut first = ScoreFields::valid(random, shape);
    let mut second = ScoreFields::valid(random, shape);
    first.header[1] = advance;
    second.header = first.header;
    let order = first.header[0];
    for fields in [&mut first, &mut second] {
        let count = random.below(6) as usize;
        fields.records.truncate(count);
        let mut left = 0;
        for record in &mut fields.records {
            *record = super::score_fields::record_of_map(random, record.map, order, shape);
            let changes = record.has(1) || record.has(2);
            if changes && record.fields[WAIT] < left && !random.one_in(8) {
                record.map |= 1;
                record.fields[WAIT] = left;
            }
            left = left.saturating_sub(record.fields[WAIT]);
            if changes && !record.has(7) {
                left = left.max(advance);
            }
        }
    }
    (first, second)
}

/// `merge` with room to spare, just enough and one byte too little.
fn rooms(text: &mut Text, first: &[u8], second: &[u8]) {
    let mut lent = vec![0; first.len() + second.len() + 8 * 14];
    let length = merge(first, second, &mut lent).unwrap_or(first.len() + second.len());
    for room in [length, length.saturating_sub(1), length + 1] {
        text.line(format!("merge {room}{} /{}", hex(first), hex(second)));
    }
}

/// Pairs of scores, merged either way round, and the merge played.
pub fn pairs(random: Random) -> Text {
    let mut text = Text::new(random, 0, false);
    for _ in 0..12 {
        let (first, second) = pair(&mut text.random);
        let samples = first.samples().max(second.samples());
        let (first, second) = (first.bytes(), second.bytes());
        rooms(&mut text, &first, &second);
        rooms(&mut text, &second, &first);
        let mut lent = vec![0; 400];
        if let Ok(length) = merge(&first, &second, &mut lent) {
            text.line(format!("run {samples}{}", hex(&lent[..length])));
        }
    }
    text
}

/// Pairs of which one is damaged, cut short, or has another header.
pub fn damaged(random: Random) -> Text {
    let mut text = Text::new(random, 0, false);
    let (first, second) = pair(&mut text.random);
    let (first, second) = (first.bytes(), second.bytes());
    for place in 0..second.len() {
        let mut other = second.clone();
        other[place] = damage(&mut text.random, other[place]);
        rooms(&mut text, &first, &other);
        rooms(&mut text, &second[..place], &first);
        if place < 9 {
            rooms(&mut text, &second[..place], &second[..place]);
        }
    }
    if text.random.one_in(8) {
        let long = [&first[..8], &[1, 255, 255, 1, 255, 255]].concat();
        text.line(format!("merge 60{} /{}", hex(&long), hex(&second)));
    }
    text
}
