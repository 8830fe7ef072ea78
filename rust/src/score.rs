//! Scores in bytes: the run, the record reader, and the words that it gathers.

use crate::c;
use crate::Refusal;
use std::error::Error;
use std::fmt;

/// A run to the end of a score.
#[derive(Clone, Copy, Debug, PartialEq, Eq)]
pub struct Played {
    pub records: usize,
    /// Samples of the output that were filled.
    pub written: usize,
}

/// A run that was refused.
#[derive(Clone, Copy, Debug, PartialEq, Eq)]
pub struct Stopped {
    pub refusal: Refusal,
    /// The index of the record that was refused, and 0 for the header.
    pub place: usize,
    /// Samples of the output that were filled before.
    pub written: usize,
}

impl fmt::Display for Stopped {
    fn fmt(&self, f: &mut fmt::Formatter) -> fmt::Result {
        write!(f, "record {}: {}", self.place, self.refusal)
    }
}

impl Error for Stopped {}

/// Plays a score on a voice of its own. Refuses by `CutShort`, those of the opening, and at a record
/// by `CutShort`, `BitMap`, `OutputFull`, and those of a change and a pluck.
pub fn run(score: &[u8], output: &mut [i32]) -> Result<Played, Stopped> {
    let (mut place, mut written) = (0, 0);
    let (room, to) = (output.len(), output.as_mut_ptr());
    // SAFETY: each pointer is valid for its length, and none overlaps another.
    let number =
        unsafe { c::jivaszte_run(score.as_ptr(), score.len(), to, room, &mut place, &mut written) };
    match Refusal::of(number) {
        Ok(()) => Ok(Played { records: place, written }),
        Err(refusal) => Err(Stopped { refusal, place, written }),
    }
}

/// Merges two scores with one header into the bytes lent; gives how many bytes the merge has. Every record
/// of both is played at its own sample, the first score's first at equal ones. Nothing past the merge is
/// touched, and nothing at all where it refuses, by `Headers`, `Alone`, `Merge`.
///
/// ```
/// // order 1, no advance, L 50, d 4,096, G 65,000; one score plucks after 5 samples, the other after 7
/// let header = [1, 0, 50, 0, 0, 16, 232, 253];
/// let first = [&header[..], &[17, 5, 0, 200, 0]].concat();
/// let second = [&header[..], &[17, 7, 0, 100, 0]].concat();
/// let mut bytes = [0; 32];
/// assert_eq!(jivaszte::merge(&first, &second, &mut bytes), Ok(22));
/// assert_eq!(bytes[8..22], [49, 5, 0, 200, 0, 100, 0, 49, 2, 0, 100, 0, 100, 0]);
/// ```
pub fn merge(first: &[u8], second: &[u8], bytes: &mut [u8]) -> Result<usize, Refusal> {
    let mut length = 0;
    let (room, to) = (bytes.len(), bytes.as_mut_ptr());
    let (n, m) = (first.len(), second.len());
    // SAFETY: as for `run`.
    let number =
        unsafe { c::jivaszte_merge(first.as_ptr(), n, second.as_ptr(), m, to, room, &mut length) };
    Refusal::of(number)?;
    Ok(length)
}

/// A record's fields, where it has them.
#[derive(Clone, Copy, Debug, Default, PartialEq, Eq)]
pub struct Record {
    pub wait: Option<u16>,
    pub length: Option<u16>,
    pub delay: Option<u16>,
    pub loss: Option<u16>,
    pub amplitude: Option<u16>,
    pub count: Option<u16>,
    pub seed: Option<u16>,
    /// Whether its change is instant.
    pub instant: bool,
}

/// Reads the record that a score without its header, or what is left of one, starts with; gives it and
/// the bytes after it. Refuses by `CutShort`, `BitMap`.
pub fn record(score: &[u8]) -> Result<(Record, &[u8]), Refusal> {
    let mut numbers = [0; 9];
    // SAFETY: as for `run`.
    let took = unsafe { c::jivaszte_record(score.as_ptr(), score.len(), &mut numbers) };
    let [refusal, map, fields @ ..] = numbers;
    Refusal::of(refusal)?;
    let stands = |bit: u32| map >> bit & 1 == 1;
    let field = |bit: u32| stands(bit).then(|| fields[bit as usize] as u16);
    let record = Record {
        wait: field(0),
        length: field(1),
        delay: field(2),
        loss: field(3),
        amplitude: field(4),
        count: field(5),
        seed: field(6),
        instant: stands(7),
    };
    Ok((record, &score[took..]))
}

/// The number that the bytes from a start on make, eight at most, the first lowest. Bytes that are missing
/// are 0: a start at the end or past it gives 0.
///
/// ```
/// assert_eq!(jivaszte::gather(&[1, 2, 3], 1), 0x0302);
/// assert_eq!(jivaszte::gather(&[1, 2, 3], usize::MAX), 0);
/// ```
pub fn gather(bytes: &[u8], start: usize) -> u64 {
    // SAFETY: as for `run`.
    unsafe { c::jivaszte_gather(bytes.as_ptr(), bytes.len(), start) }
}
