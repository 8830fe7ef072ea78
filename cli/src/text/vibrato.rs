//! A vibrato: announced changes around the tuning in force, along a sine, which ends where it began.

use super::line::{Fault, Line};
use super::slide::{calls, Call, STEPS_A_SECOND, STEPS_OF_AN_OCTAVE};
use super::values::{self, Settings};
use crate::decimal::Decimal;
use crate::number::counted;
use crate::refusal;
use crate::tuning::Tuning;
use std::f64::consts::TAU;

/// A cycle has at least so many steps.
const STEPS_OF_A_CYCLE: u64 = 8;
const MOST_CENTS: f64 = 1_200.0;

pub struct Vibrato {
    order: u32,
    rate: u32,
    advance: u64,
    tuning: Tuning,
    /// To each side.
    octaves: f64,
    hertz: f64,
    samples: u64,
}

/// A number above 0 with its unit, in one word or two.
fn measured(line: &mut Line, what: &str, unit: &str, most: f64) -> Result<f64, Fault> {
    let word = line.next(what)?;
    let wrong = || word.fault(format!("`{word}` is not {what}, above 0 to {most}{unit}"));
    let (number, rest) = Decimal::prefix(word.text).ok_or_else(wrong)?;
    let found = if rest.is_empty() { line.next(unit)?.text } else { rest };
    let number = Some(number.value()).filter(|number| *number > 0.0 && *number <= most);
    number.filter(|_| found.eq_ignore_ascii_case(unit)).ok_or_else(wrong)
}

impl Vibrato {
    /// `20c 5Hz for 2s`, on a voice of this advance and tuning.
    pub fn read(
        line: &mut Line,
        with: &Settings,
        advance: u64,
        tuning: Tuning,
    ) -> Result<Vibrato, Fault> {
        let octaves = measured(line, "a depth", "c", MOST_CENTS)? / 1_200.0;
        let hertz = measured(line, "a speed", "Hz", 100.0)?;
        line.expect("for")?;
        let samples = values::time(line, with)?;
        Ok(Vibrato {
            order: with.order.into(),
            rate: with.rate,
            advance,
            tuning,
            octaves,
            hertz,
            samples,
        })
    }

    /// As many whole cycles as are nearest to the speed.
    fn cycles(&self) -> u64 {
        (self.hertz * self.samples as f64 / f64::from(self.rate)).round().max(1.0) as u64
    }

    fn steps(&self) -> u64 {
        let seconds = self.samples as f64 / f64::from(self.rate);
        let slope = (TAU * self.hertz * self.octaves).powi(2) / 2.0;
        let wanted = (STEPS_OF_AN_OCTAVE * slope).max(STEPS_A_SECOND) * seconds;
        (wanted.ceil() as u64).min(self.samples / self.advance.max(1))
    }

    pub fn calls(&self) -> Result<Vec<Call>, String> {
        let (steps, cycles) = (self.steps(), self.cycles());
        if steps < STEPS_OF_A_CYCLE * cycles {
            let apart = counted(self.advance.max(1), "sample");
            let need =
                format!("a cycle has {STEPS_OF_A_CYCLE} steps, each of {apart} (the advance)");
            return Err(format!("so fast a vibrato has no room for its steps: {need}"));
        }
        calls(self.samples, steps, self.advance, |step| {
            if step == steps {
                return Ok(self.tuning);
            }
            let phase = TAU * cycles as f64 * step as f64 / steps as f64;
            let period = f64::from(self.tuning.period()) * (-self.octaves * phase.sin()).exp2();
            Tuning::of_period(self.order, period.round() as u64).map_err(refusal::message)
        })
    }
}

#[cfg(test)]
mod tests {
    use super::*;

    fn vibrato(octaves: f64, hertz: f64, samples: u64) -> Vibrato {
        let tuning = Tuning { length: 99, delay: 2_979 };
        Vibrato { order: 1, rate: 44_100, advance: 24, tuning, octaves, hertz, samples }
    }

    /// 20 cents to each side, five times a second, and back where it began.
    #[test]
    fn the_pitch_goes_along_a_sine() {
        let calls = vibrato(20.0 / 1_200.0, 5.0, 88_200).calls().unwrap();
        assert_eq!(calls.iter().map(|(wait, _)| wait).sum::<u64>(), 88_200);
        let middle = f64::from(Tuning { length: 99, delay: 2_979 }.period());
        let cents: Vec<f64> = calls
            .iter()
            .filter_map(|(_, change)| *change)
            .map(|change| {
                let tuning =
                    Tuning { length: change.length.unwrap(), delay: change.delay.unwrap() };
                1_200.0 * (middle / f64::from(tuning.period())).log2()
            })
            .collect();
        assert_eq!(cents.len(), 1_000);
        for (index, cents) in cents.iter().enumerate() {
            let sine = 20.0 * (TAU * (index + 1) as f64 / 100.0).sin();
            assert!((cents - sine).abs() < 0.01, "{index}: {cents} {sine}");
        }
        assert_eq!(cents.last(), Some(&0.0));
    }

    #[test]
    fn whole_cycles_or_a_word() {
        assert_eq!(vibrato(0.01, 5.2, 88_200).cycles(), 10);
        assert_eq!(vibrato(0.01, 5.0, 100).cycles(), 1);
        assert!(vibrato(0.01, 5.0, 100).calls().unwrap_err().contains("no room"));
    }
}
