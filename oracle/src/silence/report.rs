//! Random voices without input: how many fall silent, and after how long.

use super::run::{end, End, Filled};
use crate::cases::random::Random;
use crate::number::M;
use crate::thiran::{delay_range, ORDERS};

/// A number whose count of bits is random, from 1 to `most`.
fn by_bits(random: &mut Random, bits: u32, most: u32) -> u32 {
    let bits = random.between(0, bits);
    (1 + random.below(1 << bits) as u32).min(most)
}

/// A random voice of these cases: any order and delay; lengths, losses and loudness of every size.
pub fn random(seed: u64, index: u64) -> Filled {
    let mut random = Random::new(seed, index);
    let order = random.between(*ORDERS.start(), *ORDERS.end());
    let range = delay_range(order);
    let delay = random.between(*range.start(), *range.end());
    let length = by_bits(&mut random, 11, 2_048);
    let loss = match random.one_in(2) {
        true => random.between(0, 65_535),
        false => 65_536 - by_bits(&mut random, 16, 65_536),
    };
    let loudest = by_bits(&mut random, 23, M as u32);
    let sample =
        |random: &mut Random| random.below(2 * u64::from(loudest) + 1) as i32 - loudest as i32;
    let samples = (0..length + 64).map(|_| sample(&mut random)).collect();
    Filled { order, length, delay, loss, samples }
}

/// What random voices came to.
#[derive(Debug, Default)]
pub struct Report {
    pub voices: usize,
    /// Of each silent voice, after how many samples, and after how many turns of its loop.
    pub silent: Vec<(u64, u64)>,
    /// Of each other voice, which it is, how it ended and its numbers.
    pub others: Vec<(u64, End, Filled)>,
}

impl Report {
    /// Runs the voices of these indices.
    pub fn new(seed: u64, count: u64, limit: u64) -> Report {
        let mut report = Report::default();
        for index in 0..count {
            let voice = random(seed, index);
            report.voices += 1;
            match end(&voice, limit) {
                End::Silent { after } => {
                    let turn = u64::from(voice.length + voice.order) + 1;
                    report.silent.push((after, after.div_ceil(turn)));
                }
                other => {
                    report.others.push((index, other, Filled { samples: Vec::new(), ..voice }))
                }
            }
        }
        report
    }

    /// The report in words, a line for each fact; at most ten of the voices that do not fall silent.
    pub fn lines(&self) -> Vec<String> {
        let mut lines = vec![format!("voices {}, silent {}", self.voices, self.silent.len())];
        let spread = |name: &str, mut values: Vec<u64>| {
            values.sort_unstable();
            let at = |part: usize| values[(values.len() - 1) * part / 1_000];
            let [half, most, nearly, all] = [500, 900, 990, 1_000].map(at);
            format!("{name}: median {half}, of 90 % {most}, of 99 % {nearly}, longest {all}")
        };
        if !self.silent.is_empty() {
            lines.push(spread("samples", self.silent.iter().map(|one| one.0).collect()));
            lines.push(spread("turns of the loop", self.silent.iter().map(|one| one.1).collect()));
        }
        let returns =
            self.others.iter().filter(|other| matches!(other.1, End::Returns { .. })).count();
        lines.push(format!("never silent, since what is in them returns: {returns}"));
        lines.push(format!("still sounding at the limit: {}", self.others.len() - returns));
        let sounding = self.others.iter().filter_map(|(_, end, voice)| match end {
            End::Sounds { peak } => Some((*peak, voice)),
            _ => None,
        });
        let (peaks, voices): (Vec<i64>, Vec<&Filled>) = sounding.unzip();
        if let (Some(low), Some(high)) = (peaks.iter().min(), peaks.iter().max()) {
            let loss = voices.iter().map(|voice| voice.loss).min().unwrap_or(0);
            let length = voices.iter().map(|voice| voice.length).min().unwrap_or(0);
            lines.push(format!(
                "of these G from {loss}, L from {length}, loudest sample {low} to {high}"
            ));
        }
        lines.extend(self.others.iter().take(10).map(|(index, end, voice)| {
            let Filled { order, length, delay, loss, .. } = voice;
            format!("voice {index}: order {order}, L {length}, d {delay}, G {loss}: {end:?}")
        }));
        lines
    }
}
