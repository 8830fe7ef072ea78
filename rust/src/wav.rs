//! WAV files: RIFF, PCM, one channel, 24 bits.

use crate::c;
use crate::Refusal;

/// The most samples that one file takes.
pub const MOST_SAMPLES: usize = 1_000_000;

/// How many bytes a file of so many samples has: the header, three bytes a sample, and a pad byte.
pub const fn wav_size(samples: usize) -> usize {
    44 + 3 * samples + samples % 2
}

/// Writes samples at a rate; gives how many bytes of the file's room it has filled. Nothing past them
/// is touched, and nothing at all where it refuses, by `RecordingRate`, `Room`, `Sample`.
pub fn wav_write(rate: u32, samples: &[i32], file: &mut [u8]) -> Result<usize, Refusal> {
    let mut bytes = 0;
    let (room, to) = (file.len(), file.as_mut_ptr());
    // SAFETY: each pointer is valid for its length, and none overlaps another.
    let number = unsafe {
        c::jivaszte_wav_write(rate, samples.as_ptr(), samples.len(), to, room, &mut bytes)
    };
    Refusal::of(number)?;
    Ok(bytes)
}

/// The bytes of a file of so many samples.
pub fn wav_file(rate: u32, samples: &[i32]) -> Result<Vec<u8>, Refusal> {
    let mut file = vec![0; wav_size(samples.len().min(MOST_SAMPLES))];
    let written = wav_write(rate, samples, &mut file)?;
    file.truncate(written);
    Ok(file)
}

/// Reads a file; gives its rate and how many samples it has. All that is read is block input. Nothing
/// past the samples is touched, and none where it refuses, by `FileForm`, `RecordingRate`, `Room`.
pub fn wav_read(file: &[u8], samples: &mut [i32]) -> Result<(u32, usize), Refusal> {
    let (mut rate, mut count) = (0, 0);
    let (room, to) = (samples.len(), samples.as_mut_ptr());
    // SAFETY: as for `wav_write`.
    let number =
        unsafe { c::jivaszte_wav_read(file.as_ptr(), file.len(), to, room, &mut rate, &mut count) };
    Refusal::of(number)?;
    Ok((rate, count))
}
