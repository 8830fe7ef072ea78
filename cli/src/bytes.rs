//! The bytes of a score, written here and read by the proved reader.

use crate::score::{Change, Header, Pluck, Record, Score};
use crate::tuning::Tuning;
use jivaszte::Refusal;

/// "Header, 8 bytes: order and Na, a byte each, then L, d, G as 16-bit numbers, low byte first."
pub const HEADER_BYTES: usize = 8;
/// "Bit 7 has no field and makes the change instant."
const INSTANT: u8 = 1 << 7;

/// A place in the bytes of a score.
#[derive(Clone, Copy, Debug, PartialEq, Eq)]
pub enum Place {
    Header,
    Record { index: usize, offset: usize },
}

/// Bytes that are no score: where they are refused, and by which number.
#[derive(Clone, Copy, Debug, PartialEq, Eq)]
pub struct Damage {
    pub place: Place,
    pub refusal: Refusal,
}

impl std::fmt::Display for Place {
    fn fmt(&self, f: &mut std::fmt::Formatter) -> std::fmt::Result {
        match self {
            Place::Header => write!(f, "header at byte 0"),
            Place::Record { index, offset } => write!(f, "record {index} at byte {offset}"),
        }
    }
}

impl Header {
    fn encode(&self) -> [u8; HEADER_BYTES] {
        let [l0, l1] = self.tuning.length.to_le_bytes();
        let [d0, d1] = self.tuning.delay.to_le_bytes();
        let [g0, g1] = self.loss.to_le_bytes();
        [self.order, self.advance, l0, l1, d0, d1, g0, g1]
    }

    fn decode([order, advance, l0, l1, d0, d1, g0, g1]: [u8; HEADER_BYTES]) -> Header {
        let (length, delay) = (u16::from_le_bytes([l0, l1]), u16::from_le_bytes([d0, d1]));
        let (tuning, loss) = (Tuning { length, delay }, u16::from_le_bytes([g0, g1]));
        Header { order, advance, tuning, loss }
    }
}

impl Record {
    /// "bit 0 wait in samples; 1 L; 2 d; 3 G; 4 amplitude; 5 count; 6 seed"
    fn fields(&self) -> [Option<u16>; 7] {
        let (change, pluck) = (self.change.unwrap_or_default(), self.pluck.unwrap_or_default());
        let amplitude = self.pluck.map(|pluck| pluck.amplitude);
        [self.wait, change.length, change.delay, self.loss, amplitude, pluck.count, pluck.seed]
    }

    /// "a bit map byte, then only the fields whose bit stands, lowest bit first"
    fn encode(&self, bytes: &mut Vec<u8>) {
        let instant = self.change.is_some_and(|change| change.instant);
        let place = bytes.len();
        bytes.push(if instant { INSTANT } else { 0 });
        for (bit, field) in self.fields().iter().enumerate() {
            if let Some(field) = field {
                bytes[place] |= 1 << bit;
                bytes.extend(field.to_le_bytes());
            }
        }
    }

    /// From what the proved reader gives.
    fn of(read: jivaszte::Record) -> Record {
        let jivaszte::Record { wait, length, delay, loss, amplitude, count, seed, instant } = read;
        let changes = length.is_some() || delay.is_some();
        Record {
            wait,
            loss,
            change: changes.then_some(Change { length, delay, instant }),
            pluck: amplitude.map(|amplitude| Pluck { amplitude, count, seed }),
        }
    }
}

impl Score {
    pub fn encode(&self) -> Vec<u8> {
        let mut bytes = self.header.encode().to_vec();
        self.records.iter().for_each(|record| record.encode(&mut bytes));
        bytes
    }

    pub fn decode(bytes: &[u8]) -> Result<Score, Damage> {
        let cut_short = Damage { place: Place::Header, refusal: Refusal::CutShort };
        let header = bytes.first_chunk().ok_or(cut_short)?;
        let records = records(bytes).map(|(_, record)| record).collect::<Result<_, _>>()?;
        Ok(Score { header: Header::decode(*header), records })
    }
}

/// The records of a score with their offsets, by the proved reader; a damaged one is the last.
pub fn records(bytes: &[u8]) -> impl Iterator<Item = (usize, Result<Record, Damage>)> + '_ {
    let mut rest = bytes.get(HEADER_BYTES..).unwrap_or_default();
    let mut index = 0;
    std::iter::from_fn(move || {
        let offset = bytes.len() - rest.len();
        if rest.is_empty() {
            return None;
        }
        let place = Place::Record { index, offset };
        let read = jivaszte::record(rest).map_err(|refusal| Damage { place, refusal });
        rest = read.map_or(&[], |(_, after)| after);
        index += 1;
        Some((offset, read.map(|(record, _)| Record::of(record))))
    })
}

#[cfg(test)]
mod tests {
    use super::*;

    /// Every bit map, with fields of its own: what is read is written as it was.
    #[test]
    fn every_record_comes_back() {
        for map in 0..=u8::MAX {
            let fields = (0..7u8).filter(|bit| map >> bit & 1 == 1);
            let mut bytes = vec![1, 24, 99, 0, 0xA3, 0x0B, 0, 0xFF, map];
            bytes.extend(fields.flat_map(|bit| [bit + 1, 7 * bit]));
            match Score::decode(&bytes) {
                Ok(score) => assert_eq!(score.encode(), bytes),
                Err(damage) => {
                    let place = Place::Record { index: 0, offset: 8 };
                    assert_eq!(damage, Damage { place, refusal: Refusal::BitMap });
                }
            }
        }
    }

    #[test]
    fn damage_has_its_place() {
        let bytes = [1, 0, 3, 0, 0, 16, 0, 128, 48, 1, 0, 1, 0, 1, 10, 0];
        assert_eq!(Score::decode(&bytes).unwrap().records.len(), 2);
        let refused = |bytes: &[u8]| Score::decode(bytes).unwrap_err();
        let second = Place::Record { index: 1, offset: 13 };
        assert_eq!(
            refused(&bytes[..7]),
            Damage { place: Place::Header, refusal: Refusal::CutShort }
        );
        assert_eq!(refused(&bytes[..15]), Damage { place: second, refusal: Refusal::CutShort });
        let seed_alone = [&bytes[..13], &[64, 0, 0]].concat();
        assert_eq!(refused(&seed_alone), Damage { place: second, refusal: Refusal::BitMap });
    }
}
