//! Console texts of stored voices: document 02, L10.

use super::lines::hex;
use super::lists::any_call;
use super::random::Random;
use super::scores::damage;
use super::text::Text;
use crate::console::kept_voices;
use crate::stored::{form, parts, stored, usual, Parts, LINE, SIZES};
use crate::voice::Voice;

/// The voice that the console keeps after these lines.
fn voice(text: &Text) -> Voice {
    kept_voices(&text.bytes()).0
}

/// `load` and `panel` of these bytes.
fn take_up(text: &mut Text, bytes: &[u8]) {
    text.line(format!("panel{}", hex(bytes)));
    text.line(format!("load{}", hex(bytes)));
}

/// A voice that has sounded, half of them with a change that waits and a pluck that sounds.
fn sounding(text: &mut Text) {
    let advance = text.random.pick(&[64, 24, 3, 1, 0]);
    text.open(Some(advance));
    if text.random.one_in(2) {
        text.pluck();
    }
    text.short_block();
    let name = text.random.pick(&["ask", "ask", "announce", "instant", "loss"]);
    match name {
        "loss" => text.loss(),
        name => text.change(name),
    }
    let count = text.random.below(u64::from(advance) + 3) as usize;
    text.block(count);
}

/// A list of calls in which the voice is stored and loaded, the one of now or one stored before.
pub fn resumed(random: Random) -> Text {
    let mut text = Text::new(random, 0, false);
    let mut kept: Vec<Vec<u8>> = Vec::new();
    sounding(&mut text);
    for _ in 0..4 {
        let bytes = stored(&voice(&text));
        let room = bytes.len() + text.random.below(3) as usize - 1;
        text.line(format!("store {room}"));
        kept.push(bytes);
        for _ in 0..text.random.below(5) {
            any_call(&mut text);
        }
        let before = kept[text.random.below(kept.len() as u64) as usize].clone();
        let now = stored(&voice(&text));
        let bytes = if text.random.one_in(3) { before } else { now };
        text.line(format!("store {}", bytes.len()));
        take_up(&mut text, &bytes);
        text.inspect();
        for _ in 0..text.random.below(5) {
            any_call(&mut text);
        }
    }
    text.inspect();
    text
}

/// Values on both sides of each limit of a number of a part.
fn limits(part: usize, index: usize, advance: u32) -> Vec<u32> {
    let signed = |most: i32| vec![most, most + 1, -most, -most - 1, 0, i32::MAX, i32::MIN];
    let words = |values: Vec<i32>| values.into_iter().map(|value| value as u32).collect();
    let order = vec![0, 1, 2, 3, 4];
    let length = vec![0, 1, 2_048, 2_049];
    let delay = vec![2_048, 2_049, 6_144, 6_145, 10_240, 10_241, 14_336, 14_337];
    match (part, index) {
        (0, 0) | (5, 1) => order,
        (0, 1) | (5, 2) => length,
        (0, 2) | (5, 3) => delay,
        (1, _) => vec![0, 65_535, 65_536],
        (2, _) => vec![0, 64, 65],
        (3, _) | (7, _) => words(signed(8_388_607)),
        (4, _) | (5, 5..) => words(signed(16_777_214)),
        (5, 0) => vec![0, 1, 2, 3],
        (5, 4) => vec![0, advance.saturating_sub(1), advance, advance + 1, u32::MAX],
        (6, 0) => vec![0, 255, 256],
        (6, 1) => vec![0, 1, 2_048, 2_049],
        _ => vec![0, 1, u32::MAX],
    }
}

/// The bit map of these parts, with some bits that need not stand; of the line one time in so many.
fn map(random: &mut Random, parts: &Parts, line: u64) -> u8 {
    let usual = usual();
    let needed = (0..8).fold(0, |map, bit| map | u8::from(parts[bit] != usual[bit]) << bit);
    let all = if random.one_in(line) { 0xff } else { 0x7f };
    (needed | random.number() as u8 & random.pick(&[0, 0xff])) & all
}

/// One number of a part put on each side of its limits.
fn put_on_limits(text: &mut Text, held: &Parts, part: usize) {
    let index = match part {
        7 => text.random.pick(&[0, 1, 1_000, LINE - 1]),
        part => text.random.below(SIZES[part] as u64) as usize,
    };
    for value in limits(part, index, held[2][0]) {
        let mut other = held.clone();
        other[part][index] = value;
        let map = map(&mut text.random, &other, if part == 7 { 1 } else { 60 });
        take_up(text, &form(map, &other));
        if part == 5 || text.random.one_in(4) {
            text.inspect();
        }
    }
}

/// Each part's numbers on both sides of their limits, needless parts among them.
pub fn on_limits(random: Random) -> Text {
    let mut text = Text::new(random, 0, false);
    sounding(&mut text);
    let held = parts(&voice(&text));
    for part in [0, 1, 2, 3, 4, 4, 5, 5, 5, 5, 6, 6] {
        put_on_limits(&mut text, &held, part);
    }
    if text.random.one_in(4) {
        put_on_limits(&mut text, &held, 7);
    }
    text.block(4);
    text.inspect();
    text
}

/// A stored voice without its line, cut and lengthened at every place, and with each byte changed.
pub fn damaged(random: Random) -> Text {
    let mut text = Text::new(random, 0, false);
    sounding(&mut text);
    let held = parts(&voice(&text));
    let map = map(&mut text.random, &held, 60) & 0x7f;
    let bytes = form(map, &held);
    for place in 0..=bytes.len() {
        take_up(&mut text, &bytes[..place]);
        let mut longer = bytes.clone();
        longer.insert(place, text.random.pick(&[0, 0, 1, 255]));
        take_up(&mut text, &longer);
        if place < bytes.len() {
            let mut other = bytes.clone();
            other[place] = damage(&mut text.random, other[place]);
            take_up(&mut text, &other);
            if text.random.one_in(8) {
                text.inspect();
                text.block(3);
            }
        }
    }
    text
}
