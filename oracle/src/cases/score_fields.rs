//! A random score as numbers, and the bytes that they make.

use super::field;
use super::random::Random;
use crate::record::{Record, AMPLITUDE, COUNT, DELAY, INSTANT, LENGTH, LOSS, SEED, WAIT};
use crate::thiran::ORDERS;

/// Header fields (order, Na, L, d, G) and records.
#[derive(Clone, Debug)]
pub struct ScoreFields {
    pub header: [u32; 5],
    pub records: Vec<Record>,
}

/// What a random score is to be like.
#[derive(Clone, Copy, Debug)]
pub struct Shape {
    /// The number of records.
    pub records: u64,
    /// The longest random wait.
    pub wait: u32,
    /// Whether lengths are near to 2,048.
    pub long: bool,
    /// Whether a change comes only after the one before it is in force.
    pub spaced: bool,
}

/// A record in bytes: the bit map, "then only the fields whose bit stands".
pub fn record_bytes(record: &Record) -> Vec<u8> {
    let mut bytes = vec![record.map];
    for bit in WAIT..=SEED {
        if let Some(value) = record.field(bit) {
            bytes.extend((value as u16).to_le_bytes());
        }
    }
    bytes
}

/// A record with this bit map and random fields within the limits.
pub fn record_of_map(random: &mut Random, map: u8, order: u32, shape: Shape) -> Record {
    let mut record = Record { map, fields: [0; 7] };
    let length = if shape.long { field::long_length(random) } else { field::length(random) };
    let values = [
        random.between(0, shape.wait),
        length,
        field::delay(random, order),
        field::loss(random),
        field::amplitude(random),
        field::count(random),
        field::seed(random, 65_535),
    ];
    for (bit, value) in values.into_iter().enumerate() {
        if record.has(bit) {
            record.fields[bit] = value;
        }
    }
    record
}

/// A random bit map that test 15 accepts.
fn good_map(random: &mut Random) -> u8 {
    let mut map = 0;
    let mut set = |stands: bool, bit: usize| map |= u8::from(stands) << bit;
    set(!random.one_in(5), WAIT);
    let (length, delay) = (random.one_in(3), random.one_in(3));
    set(length, LENGTH);
    set(delay, DELAY);
    set((length || delay) && random.one_in(2), INSTANT);
    set(random.one_in(4), LOSS);
    let pluck = random.one_in(2);
    set(pluck, AMPLITUDE);
    set(pluck && random.one_in(2), COUNT);
    set(pluck && random.one_in(2), SEED);
    map
}

impl ScoreFields {
    /// A random score whose fields are all within the limits.
    pub fn valid(random: &mut Random, shape: Shape) -> ScoreFields {
        let order = field::order(random);
        let advance = if shape.spaced { field::advance(random) } else { 64 };
        let length = if shape.long { field::long_length(random) } else { field::length(random) };
        let header = [order, advance, length, field::delay(random, order), field::loss(random)];
        let mut fields = ScoreFields { header, records: Vec::new() };
        // The steps left until the waiting change takes effect.
        let mut left = 0;
        for _ in 0..shape.records {
            let map = good_map(random);
            let mut record = record_of_map(random, map, order, shape);
            let changes = record.has(LENGTH) || record.has(DELAY);
            if shape.spaced && changes && record.fields[WAIT] < left {
                record.map |= 1 << WAIT;
                record.fields[WAIT] = left;
            }
            left = left.saturating_sub(record.fields[WAIT]);
            if changes && !record.has(INSTANT) {
                left = left.max(advance);
            }
            fields.records.push(record);
        }
        fields
    }

    /// "Header, 8 bytes: order and Na, a byte each, then L, d, G as 16-bit numbers, low byte
    /// first", then the records.
    pub fn bytes(&self) -> Vec<u8> {
        let [order, advance, rest @ ..] = self.header;
        let mut bytes = vec![order as u8, advance as u8];
        for value in rest {
            bytes.extend((value as u16).to_le_bytes());
        }
        bytes.extend(self.records.iter().flat_map(record_bytes));
        bytes
    }

    /// The sum of all waits.
    pub fn samples(&self) -> u32 {
        self.records.iter().map(|record| record.fields[WAIT]).sum()
    }

    /// Puts one field of the header or of a record on a limit or beyond it.
    pub fn put_on_boundary(&mut self, random: &mut Random) {
        let order = self.header[0];
        let place = random.below(5 + 7 * self.records.len() as u64) as usize;
        if place < 5 {
            self.header[place] = match place {
                0 => field::boundary(random, *ORDERS.start(), *ORDERS.end(), 255),
                1 => field::boundary(random, 0, 64, 255),
                2 => field::boundary(random, 1, 2_048, 65_535),
                3 => field::boundary_delay(random, order, 65_535),
                _ => field::boundary(random, 0, 65_535, 65_535),
            };
            return;
        }
        let (index, bit) = ((place - 5) / 7, (place - 5) % 7);
        let record = &mut self.records[index];
        record.map |= 1 << bit;
        record.fields[bit] = match bit {
            WAIT => random.pick(&[0, 1, 16_383, 16_384, 16_385, 65_535]),
            LENGTH => field::boundary(random, 1, 2_048, 65_535),
            DELAY => field::boundary_delay(random, order, 65_535),
            AMPLITUDE => field::boundary(random, 0, 255, 65_535),
            COUNT => field::boundary(random, 1, 2_048, 65_535),
            _ => field::boundary(random, 0, 65_535, 65_535),
        };
    }
}
