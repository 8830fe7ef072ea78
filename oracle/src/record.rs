//! Section "Score": the record reader.

use crate::refusal::{require, Answer, Refusal};

/// The index of each field: "bit 0 wait in samples; 1 L; 2 d; 3 G; 4 amplitude; 5 count; 6 seed."
pub const WAIT: usize = 0;
pub const LENGTH: usize = 1;
pub const DELAY: usize = 2;
pub const LOSS: usize = 3;
pub const AMPLITUDE: usize = 4;
pub const COUNT: usize = 5;
pub const SEED: usize = 6;

/// "Bit 7 has no field and makes the change instant."
pub const INSTANT: usize = 7;

/// "the bit map and the seven fields, 0 where absent".
#[derive(Clone, Debug, Default, PartialEq, Eq)]
pub struct Record {
    pub map: u8,
    pub fields: [u32; 7],
}

impl Record {
    /// Whether this bit of the bit map stands.
    pub fn has(&self, bit: usize) -> bool {
        self.map >> bit & 1 == 1
    }

    /// A field, or nothing where it is absent.
    pub fn field(&self, bit: usize) -> Option<u32> {
        self.has(bit).then_some(self.fields[bit])
    }

    /// "15 bit 5 or 6 without 4, or bit 7 without 1 or 2": bit 7 while neither 1 nor 2 stands.
    fn test_map(&self) -> Answer {
        let pluck = self.has(AMPLITUDE) || !(self.has(COUNT) || self.has(SEED));
        let change = self.has(LENGTH) || self.has(DELAY) || !self.has(INSTANT);
        require(pluck && change, Refusal::BitMap)
    }
}

/// The first byte and the rest. Refusal 14 where "the bytes end early".
pub fn take_byte(bytes: &[u8]) -> Result<(u8, &[u8]), Refusal> {
    let (first, rest) = bytes.split_first().ok_or(Refusal::BytesEnd)?;
    Ok((*first, rest))
}

/// "each 16 bits, low byte first", and the rest.
pub fn take_number(bytes: &[u8]) -> Result<(u32, &[u8]), Refusal> {
    let (low, rest) = take_byte(bytes)?;
    let (high, rest) = take_byte(rest)?;
    Ok((u32::from(low) + 256 * u32::from(high), rest))
}

/// "Each record is a bit map byte, then only the fields whose bit stands, lowest bit first". The
/// tests run in order: 14 for the whole record, then 15.
fn take_record(bytes: &[u8]) -> Result<(Record, &[u8]), Refusal> {
    let (map, mut rest) = take_byte(bytes)?;
    let mut record = Record { map, fields: [0; 7] };
    for bit in WAIT..=SEED {
        if record.has(bit) {
            (record.fields[bit], rest) = take_number(rest)?;
        }
    }
    record.test_map()?;
    Ok((record, rest))
}

/// "Reading a record hands back the part of the score after that record, with the bit map and the
/// seven fields". Refused, "The part handed back is the whole one given, the bit map and the fields
/// are 0."
pub fn read_record(bytes: &[u8]) -> (Answer, Record, &[u8]) {
    match take_record(bytes) {
        Ok((record, rest)) => (Ok(()), record, rest),
        Err(refusal) => (Err(refusal), Record::default(), bytes),
    }
}
