//! What the strings of a MIDI file do, as scores, one for each string that sounds: a note is an instant change
//! and a pluck, a bend an announced change, a key let go a loss.

use super::bends::{announced, Deed};
use super::strings::{Act, Step};
use crate::pitch::Pitch;
use crate::score::{Change, Header, Pluck, Record, Score};
use crate::text::chosen;
use crate::tuning::Tuning;
use jivaszte::Refusal;

/// How the strings are: the order, the advance, the loss of a string that sounds and of one that is let go.
#[derive(Clone, Copy, Debug)]
pub struct Setup {
    pub rate: u32,
    pub order: u8,
    pub advance: u8,
    pub loss: u16,
    pub released: u16,
    /// How many strings sound: amplitudes are divided by it, so that a chord does not clip.
    pub strings: usize,
}

/// The samples of noise of a pluck.
const COUNT: u16 = 100;

impl Setup {
    fn tuning(&self, note: u8, cents: f64) -> Result<Tuning, Refusal> {
        Pitch::Note { note: note.into(), cents }.tuning(self.order.into(), self.rate)
    }

    fn amplitude(&self, velocity: u8) -> u16 {
        (2 * u16::from(velocity) / self.strings.max(1) as u16).max(1)
    }

    fn deed(&self, act: Act) -> Result<Deed, Refusal> {
        Ok(match act {
            Act::Pluck { note, cents, velocity } => {
                Deed::Pluck(self.tuning(note, cents)?, self.amplitude(velocity))
            }
            Act::Bend { note, cents } => Deed::Bend(self.tuning(note, cents)?),
            Act::Release => Deed::Release,
        })
    }
}

/// The score of one string, to the sample at which the song ends, and the steps that no string has a length
/// for. There is none where nothing is plucked.
pub fn score(setup: &Setup, steps: &[Step], end: u64) -> (Option<Score>, Vec<Step>) {
    let (mut deeds, mut unplayed) = (Vec::new(), Vec::new());
    for step in steps {
        match setup.deed(step.act) {
            Ok(deed) => deeds.push((step.sample, deed)),
            Err(_) => unplayed.push(*step),
        }
    }
    let first = deeds.iter().find_map(|(_, deed)| match deed {
        Deed::Pluck(tuning, _) => Some(*tuning),
        _ => None,
    });
    let written =
        first.map(|tuning| written(setup, tuning, &announced(&deeds, setup.advance), end));
    (written, unplayed)
}

/// A score of a string that is opened with a tuning and does this.
fn written(setup: &Setup, tuning: Tuning, deeds: &[(u64, Deed)], end: u64) -> Score {
    let Setup { order, advance, loss, .. } = *setup;
    let mut score = Score { header: Header { order, advance, tuning, loss }, records: Vec::new() };
    let (mut now, mut tuning, mut loss) = (0, tuning, loss);
    let plucks = deeds.iter().filter(|(_, deed)| matches!(deed, Deed::Pluck(..))).count();
    let mut seeds = chosen(&vec![COUNT; plucks]).into_iter();
    for &(sample, deed) in deeds {
        wait(&mut score.records, sample - now);
        now = sample;
        let (length, released) = match deed {
            Deed::Pluck(to, _) | Deed::Bend(to) => (to, setup.loss),
            Deed::Release => (tuning, setup.released),
        };
        let pluck = match deed {
            Deed::Pluck(_, amplitude) => {
                Some(Pluck { amplitude, count: Some(COUNT), seed: seeds.next() })
            }
            _ => None,
        };
        let bend = matches!(deed, Deed::Bend(_));
        let change = (length != tuning).then_some(Change {
            length: Some(length.length),
            delay: Some(length.delay),
            instant: !bend,
        });
        let set = (released != loss && !bend).then_some(released);
        score.records.push(Record { wait: None, loss: set, change, pluck });
        loss = set.unwrap_or(loss);
        tuning = length;
    }
    wait(&mut score.records, end - now);
    score
}

/// Records that wait so many samples.
fn wait(records: &mut Vec<Record>, mut samples: u64) {
    while samples > 0 {
        let wait = samples.min(u16::MAX.into()) as u16;
        records.push(Record { wait: Some(wait), ..Record::default() });
        samples -= u64::from(wait);
    }
}
