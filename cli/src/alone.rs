//! What a run of a score refuses, given output enough.

use crate::bytes::records;
use crate::click::MOST_ADVANCE;
use crate::failure::Outcome;
use crate::player::{Player, Stop, Studio};
use crate::take::Refused;

/// A studio that drops what it gets.
struct Nowhere;

impl Studio for Nowhere {
    fn samples(&mut self, _samples: &[i32]) -> Outcome {
        Ok(())
    }
}

/// The record that is refused, if one is. Waits are cut to the greatest advance, so that this takes little time
/// whatever they are: after so many samples no change waits.
pub fn refused(score: &[u8]) -> Option<Refused> {
    let mut bytes = score.to_vec();
    for (offset, record) in records(score) {
        if let Some(wait) = record.ok().and_then(|record| record.wait) {
            let wait = wait.min(MOST_ADVANCE as u16);
            bytes[offset + 1..offset + 3].copy_from_slice(&wait.to_le_bytes());
        }
    }
    match Player::play(&[(0, &bytes)], &mut Nowhere) {
        Err(Stop::Refused(_, refused)) => Some(refused),
        _ => None,
    }
}

#[cfg(test)]
mod tests {
    use super::*;
    use jivaszte::Refusal;

    /// Order 1, an advance of 4, a change; then another after 3 or 4 samples, or after 65,535.
    #[test]
    fn waits_are_seen_without_their_samples() {
        let score = |wait: u16| {
            let [low, high] = wait.to_le_bytes();
            [1, 4, 50, 0, 0, 16, 0, 128, 2, 51, 0, 3, low, high, 52, 0]
        };
        let late = Refused { refusal: Refusal::ChangeWaits, record: Some(1) };
        assert_eq!(refused(&score(3)), Some(late));
        assert_eq!(refused(&score(4)), None);
        assert_eq!(refused(&score(65_535)), None);
        let short = Refused { refusal: Refusal::CutShort, record: Some(1) };
        assert_eq!(refused(&score(9)[..15]), Some(short));
    }
}
