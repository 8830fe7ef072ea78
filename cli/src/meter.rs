//! What a take is worth a word for, measured as it comes: clipped samples and their cause, a mean that leaves
//! its bound, and how loud the last sample is.

use crate::number::{counted, decibels};
use crate::take::FULL_SCALE;
use std::f64::consts::PI;

/// The mean of half a second, under Hann's window, stays within this part of full scale.
pub const MEAN_BOUND: f64 = 0.01;
/// A mean of this size takes as much room from the string as it needs to clip.
const DRIFT: f64 = 0.1;
/// A string that is this loud still sounds when it is plucked again.
const SOUNDS: f64 = 0.1;
/// The part by which the level of what sounded falls with each sample.
const FALL: i32 = 2_048;
/// A last sample above this, in decibels of full scale, is an end that clicks.
const CLICK: f64 = -60.0;

fn part(sample: f64) -> f64 {
    sample / f64::from(FULL_SCALE)
}

/// Why a sample is at full scale.
#[derive(Clone, Copy, Debug, PartialEq)]
enum Cause {
    Drift(f64),
    Plucks,
    Amplitude(u16),
    Input,
}

/// Where the mean leaves its bound, and the greatest mean with its place.
#[derive(Clone, Copy, Debug, PartialEq)]
struct Drift {
    from: u64,
    greatest: f64,
    at: u64,
}

#[derive(Debug)]
pub struct Meter {
    rate: u32,
    pub samples: u64,
    last: i32,
    /// The greatest of the samples so far, of which each further one takes a part.
    level: i32,
    /// The level before the last pluck, and its amplitude.
    pluck: Option<(i32, u16)>,
    pub clipped: u64,
    first: Option<(u64, Cause)>,
    /// Half a window: its weights, the place in it, its sum and its rising sum; the falling sum before it.
    weights: Vec<f64>,
    place: usize,
    sum: f64,
    rising: f64,
    before: Option<f64>,
    mean: f64,
    drift: Option<Drift>,
}

impl Meter {
    pub fn new(rate: u32) -> Meter {
        let half = (rate / 4).max(1);
        let weight = |n: u32| (PI / 2.0 * (f64::from(n) + 0.5) / f64::from(half)).sin().powi(2);
        Meter {
            rate,
            samples: 0,
            last: 0,
            level: 0,
            pluck: None,
            clipped: 0,
            first: None,
            weights: (0..half).map(weight).collect(),
            place: 0,
            sum: 0.0,
            rising: 0.0,
            before: None,
            mean: 0.0,
            drift: None,
        }
    }

    pub fn pluck(&mut self, amplitude: u16) {
        self.pluck = Some((self.level, amplitude));
    }

    pub fn hear(&mut self, samples: &[i32]) {
        for &sample in samples {
            let size = sample.abs();
            if size >= FULL_SCALE {
                self.clipped += 1;
                self.first = self.first.or_else(|| Some((self.samples, self.cause())));
            }
            self.level = size.max(self.level - self.level / FALL);
            self.sum += f64::from(sample);
            self.rising += f64::from(sample) * self.weights[self.place];
            self.place += 1;
            self.samples += 1;
            if self.place == self.weights.len() {
                self.half_window();
            }
        }
        self.last = samples.last().copied().unwrap_or(self.last);
    }

    /// The mean of the window whose second half has ended: what rose in the first falls in the second.
    fn half_window(&mut self) {
        let half = self.weights.len() as f64;
        if let Some(rose) = self.before {
            self.mean = part((rose + self.sum - self.rising) / half);
            let middle = self.samples - self.weights.len() as u64;
            if self.mean.abs() > MEAN_BOUND {
                let drift = Drift { from: middle, greatest: self.mean, at: middle };
                let known = self.drift.get_or_insert(drift);
                if self.mean.abs() > known.greatest.abs() {
                    (known.greatest, known.at) = (self.mean, middle);
                }
            }
        }
        self.before = Some(self.rising);
        (self.place, self.sum, self.rising) = (0, 0.0, 0.0);
    }

    fn cause(&self) -> Cause {
        match self.pluck {
            _ if self.mean.abs() >= DRIFT => Cause::Drift(self.mean),
            Some((level, _)) if part(level.into()) >= SOUNDS => Cause::Plucks,
            Some((_, amplitude)) => Cause::Amplitude(amplitude),
            None => Cause::Input,
        }
    }

    fn seconds(&self, samples: u64) -> f64 {
        samples as f64 / f64::from(self.rate)
    }

    /// How loud the last sample is.
    pub fn end(&self) -> String {
        match self.last {
            0 => String::from("the last is 0"),
            last => {
                let level = decibels(last.abs().into(), FULL_SCALE.into());
                format!("the last is at {level:.1} dB").replace('-', "−")
            }
        }
    }

    /// Whether the take ends while the string sounds.
    pub fn ends_in_a_click(&self) -> bool {
        decibels(self.last.abs().into(), FULL_SCALE.into()) > CLICK
    }

    /// What was clipped, with its cause, and where the mean leaves its bound.
    pub fn words(&self) -> Vec<String> {
        let clipped = self.first.map(|(first, cause)| {
            let (count, at) = (counted(self.clipped, "sample"), self.seconds(first));
            let why = match cause {
                Cause::Drift(mean) => format!(
                    "the mean has drifted to {mean:.2}: leave out `seed`, and no pluck drifts"
                ),
                Cause::Plucks => String::from(
                    "the pluck adds to what still sounds: pluck more softly, or damp the string first",
                ),
                Cause::Amplitude(amplitude) => {
                    format!("a pluck of {amplitude} is too loud here: pluck more softly")
                }
                Cause::Input => String::from("what comes in is too loud"),
            };
            format!("clipped: {count} at full scale, the first at {at:.3} s: {why}")
        });
        let drift = self.drift.map(|Drift { from, greatest, at }| {
            let (from, at) = (self.seconds(from), self.seconds(at));
            format!("the mean leaves {MEAN_BOUND} at {from:.2} s; at {at:.2} s it is {greatest:.3}")
        });
        let words = clipped.into_iter().chain(drift);
        words.map(|words| words.replace(" -", " −")).collect()
    }
}

#[cfg(test)]
mod tests {
    use super::*;

    fn sine(level: f64, mean: f64, hertz: f64, count: usize) -> Vec<i32> {
        let at = |n: usize| (2.0 * PI * hertz * n as f64 / 8_000.0).sin();
        let sample = |n| (f64::from(FULL_SCALE) * (mean + level * at(n))).round() as i32;
        (0..count).map(|n| sample(n).clamp(-FULL_SCALE, FULL_SCALE)).collect()
    }

    fn heard(samples: &[i32]) -> Meter {
        let mut meter = Meter::new(8_000);
        samples.chunks(77).for_each(|some| meter.hear(some));
        meter
    }

    /// A low string has no mean, wherever its period is cut; one that is moved has.
    #[test]
    fn the_mean_is_found() {
        for hertz in [20.6, 41.2, 55.3, 440.0] {
            assert_eq!(heard(&sine(0.9, 0.0, hertz, 20_000)).drift, None, "{hertz}");
            let drift = heard(&sine(0.5, -0.2, hertz, 20_000)).drift.unwrap();
            assert!((drift.greatest + 0.2).abs() < 0.01 && drift.from == 2_000, "{drift:?}");
        }
        let meter = heard(&sine(0.5, -0.2, 440.0, 6_000));
        assert_eq!(meter.words(), ["the mean leaves 0.01 at 0.25 s; at 0.25 s it is −0.200"]);
    }

    #[test]
    fn clipping_has_its_cause() {
        let cause = |meter: &Meter| meter.first.unwrap().1;
        let mut alone = Meter::new(8_000);
        alone.pluck(255);
        alone.hear(&[0, FULL_SCALE, 5, -FULL_SCALE]);
        assert_eq!((cause(&alone), alone.clipped), (Cause::Amplitude(255), 2));
        assert!(alone.words()[0]
            .contains("2 samples at full scale, the first at 0.000 s: a pluck of 255"));
        let mut twice = Meter::new(8_000);
        twice.pluck(200);
        twice.hear(&sine(0.6, 0.0, 440.0, 3_000));
        twice.pluck(200);
        twice.hear(&[FULL_SCALE]);
        assert_eq!(cause(&twice), Cause::Plucks);
        let mut damped = Meter::new(8_000);
        damped.pluck(200);
        damped.hear(&sine(0.6, 0.0, 440.0, 3_000));
        damped.hear(&[0; 20_000]);
        damped.pluck(201);
        damped.hear(&[FULL_SCALE]);
        assert_eq!(cause(&damped), Cause::Amplitude(201));
        let drifted = heard(&sine(0.9, 0.2, 440.0, 8_000));
        assert_eq!(cause(&drifted), Cause::Input);
        let mut later = heard(&sine(0.7, 0.2, 440.0, 8_000));
        later.hear(&[FULL_SCALE]);
        assert!(matches!(cause(&later), Cause::Drift(mean) if (mean - 0.2).abs() < 0.01));
    }

    #[test]
    fn the_end_has_its_level() {
        let ends = |last| (heard(&[last]).end(), heard(&[last]).ends_in_a_click());
        assert_eq!(ends(0), (String::from("the last is 0"), false));
        assert_eq!(ends(-838_861), (String::from("the last is at −20.0 dB"), true));
        assert_eq!(ends(1_000), (String::from("the last is at −78.5 dB"), false));
    }
}
