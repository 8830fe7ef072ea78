//! Console texts about single routines: values, records, score runs, and lines that are not right.

use super::field;
use super::notes;
use super::random::Random;
use super::score_fields::{record_bytes, record_of_map, ScoreFields, Shape};
use super::scores::{damage, full, SHORT};
use super::text::Text;
use crate::player::OUTPUT_SAMPLES;
use crate::thiran::ORDERS;

/// Bytes as words of two hex digits.
pub fn hex(bytes: &[u8]) -> String {
    bytes.iter().map(|byte| format!(" {byte:02X}")).collect()
}

/// A gather of up to 20 bytes, from a start within them, on the end or past it.
fn gather(text: &mut Text) {
    let count = text.random.below(21) as u32;
    let bytes: Vec<u8> = (0..count).map(|_| text.random.number() as u8).collect();
    let usual = text.random.between(0, count + 2);
    let start = text.value(usual, 0, count);
    text.line(format!("gather {start}{}", hex(&bytes)));
}

/// Coefficients, effective lengths, least advances, notes, draws and gathers; one argument in four on a limit or beyond it,
/// then notes on a limit.
pub fn routines(random: Random) -> Text {
    let mut text = Text::new(random, 4, false);
    for _ in 0..15 {
        let order = field::order(&mut text.random);
        let delay = text.delay(order);
        let order = text.value(order, *ORDERS.start(), *ORDERS.end());
        text.line(format!("coefficients {order} {delay}"));
        let threshold =
            text.random.pick(&[0, 1, 10, 1_000, 100_000, 999_999, 1_000_000, 1_000_001]);
        let threshold = text.value(threshold, 0, 1_000_000);
        text.line(format!("length {order} {delay} {threshold}"));
        let wanted = text.random.pick(&[0, 1, 2, 3, 12, 1_000, 8_388_607, 16_777_214, 25_165_824]);
        let wanted = text.value(wanted, 0, 2);
        text.line(format!("least {order} {delay} {wanted}"));
        let rate = text.random.pick(&[8_000, 11_025, 22_050, 44_100, 48_000, 96_000, 192_000]);
        let (rate, note) = (text.value(rate, 8_000, 192_000), text.random.between(0, 127));
        let note = text.value(note, 0, 127);
        text.line(format!("note {order} {rate} {note}"));
        let (rate, note) = (text.random.between(8_000, 192_000), text.random.between(0, 127));
        text.line(format!("note {order} {rate} {note}"));
        let state = text.random.number() as u32;
        let state = text.value(state, 0, u32::MAX);
        text.line(format!("draw {state}"));
        gather(&mut text);
    }
    for _ in 0..4 {
        let found = notes::delay_on_limit(&mut text.random);
        text.lines.extend(found);
        let found = notes::length_on_limit(&mut text.random);
        text.lines.extend(found);
    }
    text
}

/// A record of every bit map; four of them cut at every byte and damaged at every byte.
pub fn records(random: Random) -> Text {
    let mut text = Text::new(random, 0, false);
    let shape = Shape { wait: 65_535, ..SHORT };
    let broken = text.random.number() as u8 % 64;
    for map in 0..=255 {
        let order = field::order(&mut text.random);
        let mut bytes = record_bytes(&record_of_map(&mut text.random, map, order, shape));
        let rest = text.random.below(4);
        bytes.extend((0..rest).map(|_| text.random.number() as u8));
        text.line(format!("record{}", hex(&bytes)));
        if map % 64 == broken {
            cut_and_damaged(&mut text, "record", &bytes);
        }
    }
    text
}

/// Lines with these bytes cut at every byte and damaged at every byte.
fn cut_and_damaged(text: &mut Text, start: &str, bytes: &[u8]) {
    for place in 0..bytes.len() {
        text.line(format!("{start}{}", hex(&bytes[..place])));
        let mut damaged = bytes.to_vec();
        damaged[place] = damage(&mut text.random, damaged[place]);
        text.line(format!("{start}{}", hex(&damaged)));
    }
}

/// Runs of a short score, with the output exactly full, one sample short, one too many; the score
/// cut at every byte and damaged at every byte. The kept voice stays as it is.
pub fn runs(random: Random) -> Text {
    let mut text = Text::new(random, 0, false);
    text.open(None);
    text.short_block();
    let shape = Shape { records: 3, wait: 20, ..SHORT };
    let fields = ScoreFields::valid(&mut text.random, shape);
    let (bytes, samples) = (fields.bytes(), fields.samples());
    for places in [samples, samples.saturating_sub(1), samples + 1, 0] {
        text.line(format!("run {places}{}", hex(&bytes)));
    }
    cut_and_damaged(&mut text, &format!("run {samples}"), &bytes);
    text.inspect();
    text
}

/// Runs whose waits end exactly at the end of the output, or one or more samples beyond it.
pub fn full_runs(random: Random) -> Text {
    let mut text = Text::new(random, 0, false);
    for places in [0, 1, 200, 200, 700, OUTPUT_SAMPLES as u32] {
        let over = text.random.pick(&[0, 0, 1, 1, 2, 20_000]);
        let fields = full(&mut text.random, SHORT, places, over);
        text.line(format!("run {places}{}", hex(&fields.bytes())));
    }
    text
}

/// A character of a text replaced, removed, or with another one before it.
fn damage_text(random: &mut Random, bytes: &[u8], place: usize) -> Vec<u8> {
    let other = random.pick(b"0123456789 \t\n\r-+#abcxyz.,AF");
    let mut damaged = bytes.to_vec();
    match random.below(3) {
        0 => damaged[place] = other,
        1 => damaged.insert(place, other),
        _ => {
            damaged.remove(place);
        }
    }
    damaged
}

/// A short text damaged at every byte, copy after copy, or cut at every byte.
pub fn broken(random: Random, cut: bool) -> Vec<u8> {
    let mut base = Text::new(random, 0, false);
    base.open(None);
    base.pluck();
    base.block(3);
    let name = base.random.pick(&["announce", "instant", "ask"]);
    base.change(name);
    let name = base.random.pick(&["commit", "withdraw"]);
    base.line(name.to_string());
    base.line("line 2".to_string());
    base.line("run 2 01 00 03 00 00 10 00 80 01 02 00".to_string());
    let bytes = base.bytes();
    let mut text = Vec::new();
    for place in 0..bytes.len() {
        if cut {
            text.extend_from_slice(&bytes[..place]);
        } else {
            text.extend(damage_text(&mut base.random, &bytes, place));
        }
        text.push(b'\n');
    }
    text
}
