//! A take: what the proved run of a score puts out.

use crate::bytes::{records, HEADER_BYTES};
use jivaszte::{Refusal, Stopped};

/// M, the greatest sample.
pub const FULL_SCALE: i32 = 8_388_607;

/// A run that was refused: the number, and the index of the record, or none for the header.
#[derive(Clone, Copy, Debug, PartialEq, Eq)]
pub struct Refused {
    pub refusal: Refusal,
    pub record: Option<usize>,
}

/// The samples that the waits of a score take, as far as it can be read.
pub fn length(bytes: &[u8]) -> u64 {
    let waits =
        records(bytes).map_while(|(_, record)| record.ok()).filter_map(|record| record.wait);
    waits.map(u64::from).sum()
}

/// The longest take, in samples: 4 GiB of memory, six hours at 48,000 samples a second.
const LONGEST: u64 = 1 << 30;

/// Room for so many samples, if there is memory for them.
pub fn room(length: u64) -> Option<Vec<i32>> {
    let length = usize::try_from(Some(length).filter(|&length| length <= LONGEST)?).ok()?;
    let mut samples = Vec::new();
    samples.try_reserve_exact(length).ok()?;
    samples.resize(length, 0);
    Some(samples)
}

/// Runs a score into room that is long enough; gives the samples written.
pub fn run(bytes: &[u8], mut room: Vec<i32>) -> Result<Vec<i32>, Refused> {
    match jivaszte::run(bytes, &mut room) {
        Ok(played) => {
            room.truncate(played.written);
            Ok(room)
        }
        Err(Stopped { refusal, place, .. }) => {
            Err(Refused { refusal, record: opens(bytes).then_some(place) })
        }
    }
}

/// Whether the header alone is accepted: the place of a refused header is that of record 0.
fn opens(bytes: &[u8]) -> bool {
    bytes.get(..HEADER_BYTES).is_some_and(|header| jivaszte::run(header, &mut []).is_ok())
}

/// The samples that are as great as a sample can be: how many, and the first of them.
#[derive(Clone, Copy, Debug, PartialEq, Eq)]
pub struct Clipped {
    count: usize,
    first: usize,
}

pub fn clipped(samples: &[i32]) -> Option<Clipped> {
    let full = |sample: &i32| sample.abs() >= FULL_SCALE;
    let first = samples.iter().position(full)?;
    Some(Clipped { count: samples.iter().filter(|sample| full(sample)).count(), first })
}

#[cfg(test)]
mod tests {
    use super::*;

    const PAPER: [u8; 16] = [1, 0, 3, 0, 0, 16, 0, 128, 48, 1, 0, 1, 0, 1, 10, 0];

    #[test]
    fn the_papers_score() {
        assert_eq!(length(&PAPER), 10);
        let take = run(&PAPER, room(10).unwrap());
        assert_eq!(take, Ok(vec![0, 0, 0, 0, -17_298, 0, 0, 0, -4_324, -4_324]));
        assert_eq!(length(&PAPER[..15]), 0);
    }

    #[test]
    fn refusals_have_their_place() {
        let refused = |bytes: &[u8], room| run(bytes, vec![0; room]).unwrap_err();
        assert_eq!(refused(&PAPER, 9), Refused { refusal: Refusal::OutputFull, record: Some(1) });
        assert_eq!(refused(&PAPER[..7], 9), Refused { refusal: Refusal::CutShort, record: None });
        assert_eq!(
            refused(&[1, 0, 0, 0, 0, 16, 0, 0], 9),
            Refused { refusal: Refusal::Length, record: None }
        );
        let length_0 = [1, 0, 3, 0, 0, 16, 0, 0, 2, 0, 0];
        assert_eq!(refused(&length_0, 9), Refused { refusal: Refusal::Length, record: Some(0) });
    }

    #[test]
    fn counts_what_is_clipped() {
        assert_eq!(clipped(&[0, FULL_SCALE - 1]), None);
        assert_eq!(clipped(&[0, -FULL_SCALE, 5, FULL_SCALE]), Some(Clipped { count: 2, first: 1 }));
    }
}
