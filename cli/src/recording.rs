//! A recording of any length as one WAV file. The samples become bytes in the proved writer, a million at a
//! time, and the header is its header too; the two sizes of the whole are put in here.

use crate::failure::{Failure, Outcome};
use crate::files;
use crate::new_file::NewFile;
use crate::refusal::message;
use jivaszte::{wav_size, wav_write, Refusal, MOST_SAMPLES};
use std::path::Path;

pub const HEADER_BYTES: usize = wav_size(0);
/// Where the sizes stand in the header: of what follows, and of the samples.
const RIFF_SIZE: usize = 4;
const DATA_SIZE: usize = 40;
/// The header after the place of the RIFF size.
const AFTER_SIZE: u64 = HEADER_BYTES as u64 - 8;
/// The most samples of a file: its sizes have 32 bits, and there may be a pad byte.
pub const LONGEST: u64 = (u32::MAX as u64 - AFTER_SIZE - 1) / 3;

fn refused(refusal: Refusal) -> Failure {
    Failure::input(message(refusal))
}

/// The 44 bytes before so many samples, `LONGEST` at most.
pub fn header(rate: u32, samples: u64) -> Outcome<[u8; HEADER_BYTES]> {
    let mut header = [0; HEADER_BYTES];
    wav_write(rate, &[], &mut header).map_err(refused)?;
    let data = 3 * samples;
    let mut put = |place: usize, size: u64| {
        header[place..place + 4].copy_from_slice(&(size as u32).to_le_bytes());
    };
    put(RIFF_SIZE, AFTER_SIZE + data + data % 2);
    put(DATA_SIZE, data);
    Ok(header)
}

/// A file or standard output.
enum Target {
    File(NewFile),
    Standard,
}

impl Target {
    fn write(&mut self, bytes: &[u8]) -> Outcome {
        match self {
            Target::File(file) => file.write(bytes),
            Target::Standard => files::print_bytes(bytes),
        }
    }
}

/// A recording that is being written, whose count of samples is known before.
pub struct Recording {
    target: Target,
    rate: u32,
    waiting: Vec<i32>,
    bytes: Vec<u8>,
}

impl Recording {
    /// At most `LONGEST` samples.
    pub fn create(path: &Path, rate: u32, samples: u64) -> Outcome<Recording> {
        let mut target = match files::is_standard(path) {
            true => Target::Standard,
            false => Target::File(NewFile::create(path)?),
        };
        target.write(&header(rate, samples)?)?;
        Ok(Recording { target, rate, waiting: Vec::new(), bytes: Vec::new() })
    }

    pub fn write(&mut self, mut samples: &[i32]) -> Outcome {
        while !samples.is_empty() {
            let room = MOST_SAMPLES - self.waiting.len();
            let (now, later) = samples.split_at(samples.len().min(room));
            self.waiting.extend(now);
            samples = later;
            if self.waiting.len() == MOST_SAMPLES {
                self.flush()?;
            }
        }
        Ok(())
    }

    /// The bytes of what waits, without their header; with the pad byte where their count is odd, which is
    /// so in the last alone.
    fn flush(&mut self) -> Outcome {
        self.bytes.resize(wav_size(self.waiting.len()), 0);
        let size = wav_write(self.rate, &self.waiting, &mut self.bytes).map_err(refused)?;
        self.waiting.clear();
        self.target.write(&self.bytes[HEADER_BYTES..size])
    }

    pub fn finish(mut self) -> Outcome {
        self.flush()?;
        match self.target {
            Target::File(file) => file.keep(),
            Target::Standard => Ok(()),
        }
    }
}

#[cfg(test)]
mod tests {
    use super::*;

    /// Up to a million samples the file is the proved writer's, byte for byte.
    #[test]
    fn short_recordings_are_the_proved_writers() {
        let path = std::env::temp_dir().join(format!("jivaszte-one-{}.wav", std::process::id()));
        for length in [0, 1, 2, 3, 1_000, 1_001, MOST_SAMPLES - 1, MOST_SAMPLES] {
            let samples: Vec<i32> =
                (0..length as i64).map(|n| (n * 7_919 % 8_388_607) as i32).collect();
            let mut recording = Recording::create(&path, 44_100, length as u64).unwrap();
            samples.chunks(700).for_each(|some| recording.write(some).unwrap());
            recording.finish().unwrap();
            let file = std::fs::read(&path).unwrap();
            assert!(file == jivaszte::wav_file(44_100, &samples).unwrap(), "{length}");
        }
        std::fs::remove_file(&path).unwrap();
    }

    #[test]
    fn the_greatest_sizes_fit() {
        let sizes = |samples| {
            let header = header(192_000, samples).unwrap();
            [RIFF_SIZE, DATA_SIZE]
                .map(|at| u32::from_le_bytes(*header[at..].first_chunk().unwrap()))
        };
        assert_eq!(LONGEST, 1_431_655_752);
        assert_eq!(sizes(LONGEST), [4_294_967_292, 4_294_967_256]);
        assert_eq!(sizes(LONGEST - 1), [4_294_967_290, 4_294_967_253]);
    }
}
