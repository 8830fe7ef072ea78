//! Random scores for the player.

use super::random::Random;
use super::score_fields::{record_of_map, ScoreFields, Shape};
use crate::player::{OUTPUT_SAMPLES, SCORE_BYTES};
use crate::record::{Record, WAIT};

/// Short scores.
pub const SHORT: Shape = Shape { records: 6, wait: 120, long: false, spaced: true };

/// The number of kinds of score; case `index` has the kind `index` modulo this.
const KINDS: u64 = 20;

/// The number of cases that share a score which is cut, or damaged, at one byte after the other.
const SERIES: u64 = 40;

/// A valid score of less than `SERIES` bytes, the same for the cases of one series, and the byte
/// which this case is about.
fn series(seed: u64, turn: u64, stream: u64) -> (Vec<u8>, usize) {
    let mut random = Random::new(seed, stream + turn / SERIES);
    let mut fields = ScoreFields::valid(&mut random, SHORT);
    while fields.bytes().len() as u64 >= SERIES {
        fields.records.pop();
    }
    let bytes = fields.bytes();
    let place = (turn % SERIES) as usize % bytes.len();
    (bytes, place)
}

/// One byte replaced: by a random one, by its neighbours, by one with a bit inverted, by 0 or 255.
pub fn damage(random: &mut Random, byte: u8) -> u8 {
    let inverted = byte ^ (1 << random.below(8));
    let other = random.number() as u8;
    random.pick(&[other, byte.wrapping_add(1), byte.wrapping_sub(1), inverted, 0, 255])
}

/// A score whose waits end exactly at the end of `places`, or `over` beyond it. Records of wait 0
/// may follow.
pub fn full(random: &mut Random, shape: Shape, places: u32, over: u32) -> ScoreFields {
    let mut fields = ScoreFields::valid(random, shape);
    while fields.samples() > places {
        fields.records.pop();
    }
    let mut wait = Record { map: 1, fields: [0; 7] };
    wait.fields[WAIT] = places - fields.samples() + over;
    fields.records.push(wait);
    for _ in 0..random.below(3) {
        fields.records.push(record_of_map(random, 0x10, fields.header[0], shape));
    }
    fields
}

/// Random bytes, half of them after a valid header.
fn random_bytes(random: &mut Random) -> Vec<u8> {
    let mut fields = ScoreFields::valid(random, SHORT);
    fields.records.clear();
    let mut bytes = if random.one_in(2) { fields.bytes() } else { Vec::new() };
    for _ in 0..random.below(30) {
        bytes.push(random.number() as u8);
    }
    bytes
}

/// A score about as long as the player reads: records of bit map 0, then a wait of one sample that
/// begins 0 to 4 bytes before the last byte read, so that the reading can cut it.
fn longest(random: &mut Random) -> Vec<u8> {
    let mut fields = ScoreFields::valid(random, SHORT);
    fields.records.truncate(1);
    let mut bytes = fields.bytes();
    bytes.resize(SCORE_BYTES - random.below(5) as usize, 0);
    bytes.extend([0x01, 0x01, 0x00]);
    bytes.resize(bytes.len() + random.below(4) as usize, 0);
    bytes
}

/// The bytes of the score of case `index`.
pub fn score(seed: u64, index: u64) -> Vec<u8> {
    let mut random = Random::new(seed, index);
    let turn = index / KINDS;
    let long = Shape { records: 4, wait: 4_000, long: true, spaced: true };
    match index % KINDS {
        0..=4 => ScoreFields::valid(&mut random, SHORT).bytes(),
        5..=8 => {
            let mut fields = ScoreFields::valid(&mut random, SHORT);
            fields.put_on_boundary(&mut random);
            fields.bytes()
        }
        kind @ 9..=10 => {
            let (bytes, place) = series(seed, 2 * turn + (kind - 9), 1 << 32);
            bytes[..place].to_vec()
        }
        kind @ 11..=12 => {
            let (mut bytes, place) = series(seed, 2 * turn + (kind - 11), 1 << 33);
            bytes[place] = damage(&mut random, bytes[place]);
            bytes
        }
        13..=14 => {
            let shape = Shape { records: 8, spaced: false, ..SHORT };
            ScoreFields::valid(&mut random, shape).bytes()
        }
        15 => {
            let over = random.pick(&[0, 0, 1, 1, 2, 40_000]);
            let shape = Shape { wait: 3_000, ..SHORT };
            full(&mut random, shape, OUTPUT_SAMPLES as u32, over).bytes()
        }
        16 => ScoreFields::valid(&mut random, long).bytes(),
        17 => {
            let mut fields = ScoreFields::valid(&mut random, SHORT);
            let map = (turn.wrapping_mul(37) % 256) as u8;
            let order = fields.header[0];
            fields.records.truncate(3);
            fields.records.insert(1, record_of_map(&mut random, map, order, SHORT));
            fields.bytes()
        }
        18 => random_bytes(&mut random),
        _ if turn.is_multiple_of(4) => longest(&mut random),
        _ => {
            let shape = Shape { records: 40, wait: 90, ..SHORT };
            ScoreFields::valid(&mut random, shape).bytes()
        }
    }
}
