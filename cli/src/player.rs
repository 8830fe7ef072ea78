//! Scores played block by block, one on a voice that is kept, several on the strings of an instrument: what the
//! proved calls put out, in memory that does not grow with them.

use crate::body::Body;
use crate::bytes::{records, Damage, HEADER_BYTES};
use crate::failure::{Failure, Outcome};
use crate::refusal::message;
use crate::score::{Change, Pluck, Record, Score};
use crate::take::{Refused, FULL_SCALE};
use crate::timeline::ABSENT_COUNT;
use crate::tuning::Tuning;
use jivaszte::{Opening, Refusal};

/// Samples of a block at most.
pub const BLOCK: usize = 1 << 14;

/// What a take is played into, and what comes into the string.
pub trait Studio {
    /// Samples of a recording that comes in, for the next block; `None` where nothing does.
    fn input(&mut self, _samples: usize) -> Outcome<Option<&[i32]>> {
        Ok(None)
    }

    /// A pluck, before the next sample.
    fn pluck(&mut self, _amplitude: u16) {}

    /// The next samples of the take.
    fn samples(&mut self, samples: &[i32]) -> Outcome;
}

/// A string that rings is let go when it stays below this: 80 dB below full scale.
pub const SILENT: i32 = FULL_SCALE / 10_000;

/// A studio, and the greatest sample that went there.
struct Loudest<'a> {
    studio: &'a mut dyn Studio,
    level: i32,
}

impl Studio for Loudest<'_> {
    fn input(&mut self, samples: usize) -> Outcome<Option<&[i32]>> {
        self.studio.input(samples)
    }

    fn samples(&mut self, samples: &[i32]) -> Outcome {
        self.level = samples.iter().fold(self.level, |most, sample| most.max(sample.abs()));
        self.studio.samples(samples)
    }
}

/// Why a take ended early: a score is refused, of which the index comes with it, or the studio failed.
pub enum Stop {
    Refused(usize, Refused),
    Failed(Failure),
}

impl From<Failure> for Stop {
    fn from(failure: Failure) -> Stop {
        Stop::Failed(failure)
    }
}

/// The score of a string while it is played: its records and the moment of the next one.
struct Part<'a> {
    string: usize,
    order: u32,
    tuning: Tuning,
    records: Box<dyn Iterator<Item = Result<Record, Damage>> + 'a>,
    /// The next record, its index, and the sample before which it acts.
    next: Option<(u64, usize, Record)>,
    read: usize,
}

impl<'a> Part<'a> {
    fn new(string: usize, bytes: &'a [u8]) -> Result<(Part<'a>, Opening), Refusal> {
        let header: &[u8; HEADER_BYTES] = bytes.first_chunk().ok_or(Refusal::CutShort)?;
        let header = Score::decode(header).map(|score| score.header).unwrap_or_default();
        let (order, tuning) = (header.order.into(), header.tuning);
        let opening = Opening {
            order,
            length: tuning.length.into(),
            delay: tuning.delay.into(),
            loss: header.loss.into(),
            advance: header.advance.into(),
        };
        let records = Box::new(records(bytes).map(|(_, record)| record));
        Ok((Part { string, order, tuning, records, next: None, read: 0 }, opening))
    }

    /// Reads the record after the one that acted before the sample `now`.
    fn read(&mut self, now: u64) -> Result<(), Refused> {
        let (index, record) = (self.read, self.records.next().transpose());
        let refused = |damage: Damage| Refused { refusal: damage.refusal, record: Some(index) };
        let record = record.map_err(refused)?;
        self.next = record.map(|record| (now + u64::from(record.wait.unwrap_or(0)), index, record));
        self.read += 1;
        Ok(())
    }

    /// A change; what it does not name is that of the change before it.
    fn change(&mut self, to: Change, body: &mut Body) -> Result<(), Refusal> {
        self.tuning.length = to.length.unwrap_or(self.tuning.length);
        self.tuning.delay = to.delay.unwrap_or(self.tuning.delay);
        body.change(self.string, self.order, self.tuning, to.instant)
    }

    /// What a record does after its wait.
    fn act(
        &mut self,
        record: Record,
        body: &mut Body,
        studio: &mut dyn Studio,
    ) -> Result<(), Refusal> {
        if let Some(loss) = record.loss {
            body.loss(self.string, loss.into())?;
        }
        if let Some(change) = record.change {
            self.change(change, body)?;
        }
        if let Some(Pluck { amplitude, count, seed }) = record.pluck {
            let (count, seed) = (count.unwrap_or(ABSENT_COUNT), seed.unwrap_or(0));
            body.pluck(self.string, amplitude.into(), count.into(), seed.into())?;
            studio.pluck(amplitude);
        }
        Ok(())
    }
}

/// What sounds, between two blocks.
pub struct Player {
    body: Body,
    output: Vec<i32>,
}

impl Player {
    /// Plays the scores of strings together, each to its end; a refusal comes with the index of its score.
    pub fn play(scores: &[(usize, &[u8])], studio: &mut dyn Studio) -> Result<Player, Stop> {
        let stop = |index: usize, refused| Stop::Refused(index, refused);
        let opened = |refusal| stop(0, Refused { refusal, record: None });
        let body = Body::new(scores.len()).map_err(opened)?;
        let mut player = Player { body, output: vec![0; BLOCK] };
        let mut parts = Vec::new();
        for (index, &(string, bytes)) in scores.iter().enumerate() {
            let header = |refusal| stop(index, Refused { refusal, record: None });
            let (mut part, opening) = Part::new(string, bytes).map_err(header)?;
            player.body.open(string, opening).map_err(header)?;
            part.read(0).map_err(|refused| stop(index, refused))?;
            parts.push(part);
        }
        let mut now = 0;
        while let Some(next) = parts.iter().filter_map(|part| Some(part.next?.0)).min() {
            player.wait((next - now) as usize, studio)?;
            now = next;
            for (index, part) in parts.iter_mut().enumerate() {
                while let Some((_, number, record)) = part.next.filter(|(at, ..)| *at == now) {
                    let refused = |refusal| stop(index, Refused { refusal, record: Some(number) });
                    part.act(record, &mut player.body, studio).map_err(refused)?;
                    part.read(now).map_err(|refused| stop(index, refused))?;
                }
            }
        }
        Ok(player)
    }

    /// Renders so many samples, block by block.
    pub fn wait(&mut self, mut samples: usize, studio: &mut dyn Studio) -> Outcome {
        while samples > 0 {
            let output = &mut self.output[..samples.min(BLOCK)];
            samples -= output.len();
            let input = studio.input(output.len())?;
            let done = self.body.block(input, output);
            done.map_err(|refusal| Failure::input(message(refusal)))?;
            studio.samples(output)?;
        }
        Ok(())
    }

    /// Lets the string ring, a tenth of a second at a time, until one of them stays below `SILENT`.
    pub fn ring(&mut self, most: u64, rate: u32, studio: &mut dyn Studio) -> Outcome {
        let mut left = most;
        while left > 0 {
            let now = left.min(u64::from(rate / 10));
            let mut loudest = Loudest { studio, level: 0 };
            self.wait(now as usize, &mut loudest)?;
            if loudest.level < SILENT {
                break;
            }
            left -= now;
        }
        Ok(())
    }
}
