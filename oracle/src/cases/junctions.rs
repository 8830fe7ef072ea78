//! Console texts of a tube junction: document 02, L12.

use super::field;
use super::random::Random;
use super::text::Text;

/// An area: often a small one, so that r takes many values.
fn area(text: &mut Text) -> u32 {
    let usual = match text.random.below(4) {
        0 => text.random.pick(&[1, 2, 3, 65_534, 65_535]),
        1 => text.random.between(1, 20),
        _ => text.random.between(1, 65_535),
    };
    text.value(usual, 1, 65_535)
}

/// A delay that a junction takes.
fn delay(text: &mut Text) -> u32 {
    let any = text.random.between(2_049, 6_143);
    let usual = text.random.pick(&[any, any, any, 4_096, 2_049, 6_143]);
    text.value(usual, 2_049, 6_143)
}

/// `junction`, with an advance or a random one.
fn open(text: &mut Text, advance: Option<u32>) -> u32 {
    let (left, right, delay) = (area(text), area(text), delay(text));
    let usual = advance.unwrap_or_else(|| field::advance(&mut text.random));
    let advance = text.value(usual, 0, 64);
    text.line(format!("junction {left} {right} {delay} {advance}"));
    advance.min(64)
}

/// `move`.
fn start_move(text: &mut Text) {
    let delay = delay(text);
    text.line(format!("move {delay}"));
}

/// So many lines `tube`, one in eight at a limit or beyond it where `beyond`.
fn samples(text: &mut Text, count: u32, beyond: bool) {
    let loud = text.random.one_in(4);
    for _ in 0..count {
        let mut one = || {
            let any = (text.random.number() as i32) >> 8;
            let extreme = text.random.pick(&[8_388_607, -8_388_607]);
            let outside = text.random.pick(&[8_388_608, -8_388_608, i32::MAX, i32::MIN]);
            match text.random.below(16) {
                0 if beyond => outside,
                1..=3 => 0,
                _ if loud => extreme,
                _ => any.max(-8_388_607),
            }
        };
        let (a, b) = (one(), one());
        text.line(format!("tube {a} {b}"));
    }
}

/// A junction that moves: early, on the sample and late, with the other calls on the voice between.
pub fn moving(random: Random) -> Text {
    let mut text = Text::new(random, 0, false);
    if text.random.one_in(2) {
        samples(&mut text, 3, true);
    }
    for _ in 0..2 {
        let advance = text.random.pick(&[64, 24, 3, 2, 1, 0, 0]);
        open(&mut text, Some(advance));
        for _ in 0..3 {
            let count = text.random.below(8) as u32;
            samples(&mut text, count, true);
            start_move(&mut text);
            let before = text.random.below(u64::from(advance) + 1) as u32;
            samples(&mut text, before, true);
            start_move(&mut text);
            let after = advance - before + text.random.below(3) as u32;
            samples(&mut text, after, false);
        }
        text.open(None);
        text.inspect();
        samples(&mut text, 6, false);
    }
    text
}

/// Openings and moves of which one number in four is on a limit or beyond it.
pub fn limits(random: Random) -> Text {
    let mut text = Text::new(random, 4, false);
    for _ in 0..20 {
        let advance = open(&mut text, None).min(5);
        start_move(&mut text);
        samples(&mut text, 1 + advance, true);
        start_move(&mut text);
        samples(&mut text, 2, false);
    }
    text
}
