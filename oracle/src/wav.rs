//! Document 02, L1: recordings as files, "RIFF WAVE, PCM, one channel, 24 bits".

use crate::refusal::{require, Answer, Refusal};

/// "18 more than 1,000,000 samples".
const MOST_SAMPLES: usize = 1_000_000;

/// The greatest sample, M.
const GREATEST: i32 = 8_388_607;

/// "17 rate outside 8,000 to 192,000".
fn test_rate(rate: u32) -> Answer {
    require((8_000..=192_000).contains(&rate), Refusal::RecordingRate)
}

/// "18 more than 1,000,000 samples, or a lent slice too short".
fn test_room(samples: usize, needed: usize, lent: usize) -> Answer {
    require(samples <= MOST_SAMPLES && needed <= lent, Refusal::Room)
}

/// The file of samples at a rate; where the byte rate does not fit, its lowest 32 bits.
pub fn file(rate: u32, samples: &[i32]) -> Vec<u8> {
    let mut data: Vec<u8> =
        samples.iter().flat_map(|sample| sample.to_le_bytes()[..3].to_vec()).collect();
    let size = data.len() as u32;
    data.extend((size % 2 == 1).then_some(0));
    let mut file = b"RIFF".to_vec();
    file.extend((data.len() as u32 + 36).to_le_bytes());
    file.extend(b"WAVEfmt ");
    file.extend(16_u32.to_le_bytes());
    file.extend([1_u16, 1].map(u16::to_le_bytes).concat());
    file.extend([rate, rate.wrapping_mul(3)].map(u32::to_le_bytes).concat());
    file.extend([3_u16, 24].map(u16::to_le_bytes).concat());
    file.extend(b"data");
    file.extend(size.to_le_bytes());
    file.extend(data);
    file
}

/// Writes: "Writing tests 17, 18, 10", "returns the count of bytes", 0 where it refuses.
pub fn write(rate: u32, samples: &[i32], lent: &mut [u8]) -> (Answer, usize) {
    let file = file(rate, samples);
    let quiet = samples.iter().all(|sample| (-GREATEST..=GREATEST).contains(sample));
    let answer = test_rate(rate)
        .and_then(|()| test_room(samples.len(), file.len(), lent.len()))
        .and_then(|()| require(quiet, Refusal::Input));
    if answer.is_err() {
        return (answer, 0);
    }
    lent[..file.len()].copy_from_slice(&file);
    (answer, file.len())
}

/// What is left of a file that is read from its start on.
struct Rest<'a>(&'a [u8]);

impl<'a> Rest<'a> {
    /// The next bytes, where there are so many.
    fn take(&mut self, count: usize) -> Option<&'a [u8]> {
        let (taken, rest) = self.0.split_at_checked(count)?;
        self.0 = rest;
        Some(taken)
    }

    /// The next number of so many bytes, low byte first.
    fn number(&mut self, count: usize) -> Option<u64> {
        let bytes = self.take(count)?;
        Some(bytes.iter().rev().fold(0, |number, byte| 256 * number + u64::from(*byte)))
    }

    /// The next bytes are these letters.
    fn letters(&mut self, letters: &[u8; 4]) -> Option<()> {
        (self.take(4)? == letters).then_some(())
    }

    /// The next bytes are this number.
    fn is(&mut self, count: usize, expected: u64) -> Option<()> {
        (self.number(count)? == expected).then_some(())
    }
}

/// The rate and the data of a file; nothing for "19 a file with other header values, a data size
/// that 3 does not divide, another length, or a pad byte other than zero".
fn parse(file: &[u8]) -> Option<(u32, &[u8])> {
    let mut rest = Rest(file);
    rest.letters(b"RIFF")?;
    let size = rest.number(4)?;
    (size == rest.0.len() as u64).then_some(())?;
    rest.letters(b"WAVE")?;
    rest.letters(b"fmt ")?;
    rest.is(4, 16)?;
    rest.is(2, 1)?;
    rest.is(2, 1)?;
    let rate = rest.number(4)?;
    rest.is(4, 3 * rate)?;
    rest.is(2, 3)?;
    rest.is(2, 24)?;
    rest.letters(b"data")?;
    let size = rest.number(4)? as usize;
    let data = rest.take(size)?;
    let pad: &[u8] = if size % 2 == 1 { &[0] } else { &[] };
    (size.is_multiple_of(3) && rest.0 == pad).then_some((rate as u32, data))
}

/// "A stored −8,388,608 reads as −M."
fn sample(bytes: &[u8]) -> i32 {
    (i32::from_le_bytes([0, bytes[0], bytes[1], bytes[2]]) >> 8).max(-GREATEST)
}

/// Reads: "reading tests 19, 17, 18", returns "the rate and the count of samples", 0 where it
/// refuses.
pub fn read(file: &[u8], lent: &mut [i32]) -> (Answer, u32, usize) {
    let Some((rate, data)) = parse(file) else {
        return (Err(Refusal::FileForm), 0, 0);
    };
    let samples: Vec<i32> = data.chunks_exact(3).map(sample).collect();
    let answer = test_rate(rate).and_then(|()| test_room(samples.len(), samples.len(), lent.len()));
    if answer.is_err() {
        return (answer, 0, 0);
    }
    lent[..samples.len()].copy_from_slice(&samples);
    (answer, rate, samples.len())
}
