//! A slide: announced changes in equal ratios of pitch, the last in force when the slide ends.

use super::line::{Fault, Line};
use super::tunings;
use super::values::{self, Settings};
use crate::number::counted;
use crate::refusal;
use crate::score::Change;
use crate::tuning::Tuning;

/// A slide without a number of steps has at least so many a second, and as many as keep it quiet, as far as
/// the advance lets it.
pub const STEPS_A_SECOND: f64 = 500.0;
/// What the steps themselves add above 12 kHz goes by o²/(t·n), for o octaves in t seconds and n steps. So many
/// steps for an octave in a second keep it below `QUIET`, as measured (cli/tests/slides.rs).
pub const STEPS_OF_AN_OCTAVE: f64 = 300.0;
/// In decibels of full scale, on strings from E2 on that were plucked by 180 at least 0.2 seconds before.
pub const QUIET: i32 = -60;

/// A change with the wait before it, or a wait alone.
pub type Call = (u64, Option<Change>);

/// Changes to the tunings of steps from 1 on, each with the wait before it, and the wait after the last. A
/// change takes effect an advance after its call, which is not before the one before it took effect.
pub fn calls(
    samples: u64,
    steps: u64,
    advance: u64,
    tuning: impl Fn(u64) -> Result<Tuning, String>,
) -> Result<Vec<Call>, String> {
    let mut calls = Vec::new();
    let mut called = 0;
    for step in 1..=steps {
        let call = samples * step / steps - advance;
        let Tuning { length, delay } = tuning(step)?;
        let change = Change { length: Some(length), delay: Some(delay), instant: false };
        calls.push((call - called, Some(change)));
        called = call;
    }
    calls.extend(Some((advance, None)).filter(|(wait, _)| *wait > 0));
    Ok(calls)
}

pub struct Slide {
    order: u32,
    rate: u32,
    advance: u64,
    from: Tuning,
    to: Tuning,
    samples: u64,
    steps: Option<u64>,
}

impl Slide {
    /// `E4 over 200ms` or `E4 over 200ms steps 20`, on a voice of this advance and tuning.
    pub fn read(
        line: &mut Line,
        with: &Settings,
        advance: u64,
        from: Tuning,
    ) -> Result<Slide, Fault> {
        let to = tunings::tuning(line, with)?;
        line.expect("over")?;
        let samples = values::time(line, with)?;
        let steps = match line.accept(&["steps"]) {
            Some(_) => Some(values::whole(line, "a number of steps", "1 to 65535", 65_535)?),
            None => None,
        };
        Ok(Slide { order: with.order.into(), rate: with.rate, advance, from, to, samples, steps })
    }

    pub fn calls(&self) -> Result<Vec<Call>, String> {
        let (samples, apart) = (self.samples, self.advance.max(1));
        let steps = self.steps.unwrap_or_else(|| self.usual_steps());
        if steps == 0 || samples / steps < apart {
            return Err(self.too_short(steps, apart));
        }
        calls(samples, steps, self.advance, |step| self.tuning(step, steps))
    }

    fn octaves(&self) -> f64 {
        (f64::from(self.from.period()) / f64::from(self.to.period())).log2().abs()
    }

    fn seconds(&self) -> f64 {
        self.samples as f64 / f64::from(self.rate)
    }

    /// The steps that keep the slide quiet.
    fn quiet_steps(&self) -> f64 {
        STEPS_OF_AN_OCTAVE * self.octaves().powi(2) / self.seconds().max(f64::MIN_POSITIVE)
    }

    fn most_steps(&self) -> u64 {
        self.samples / self.advance.max(1)
    }

    fn usual_steps(&self) -> u64 {
        let wanted = self.quiet_steps().max(STEPS_A_SECOND * self.seconds()).ceil();
        (wanted as u64).min(self.most_steps()).max(1)
    }

    /// Says so where a slide that leaves its steps to the program is too fast to be quiet.
    pub fn remark(&self) -> Option<String> {
        let loud = self.steps.is_none() && self.quiet_steps() > self.most_steps() as f64;
        let apart = self.advance.max(1) as f64 / f64::from(self.rate);
        let needs = 1_000.0 * self.octaves() * (STEPS_OF_AN_OCTAVE * apart).sqrt();
        loud.then(|| {
            let level = format!("−{} dB above 12 kHz", -QUIET);
            format!("so fast a slide may pass {level}: over {:.0}ms it does not", needs.ceil())
        })
    }

    fn tuning(&self, step: u64, steps: u64) -> Result<Tuning, String> {
        if step == steps {
            return Ok(self.to);
        }
        let (from, to) = (f64::from(self.from.period()), f64::from(self.to.period()));
        let period = from * (to / from).powf(step as f64 / steps as f64);
        Tuning::of_period(self.order, period.round() as u64).map_err(refusal::message)
    }

    fn too_short(&self, steps: u64, apart: u64) -> String {
        let (samples, most) = (self.samples, self.most_steps());
        let given = format!("{} in {}", counted(steps, "step"), counted(samples, "sample"));
        let need = format!("a step needs {} (the advance)", counted(apart, "sample"));
        match (steps, most) {
            (0, _) => String::from("a slide has at least 1 step"),
            (_, 0) => format!("{given} is too short a slide: {need}"),
            _ => format!("{given} are too many: {need}, so take at most {most}, or more time"),
        }
    }
}

#[cfg(test)]
mod tests {
    use super::*;

    fn slide(advance: u64, samples: u64, steps: Option<u64>) -> Slide {
        let (from, to) = (Tuning { length: 99, delay: 2_979 }, Tuning { length: 66, delay: 2_500 });
        Slide { order: 1, rate: 44_100, advance, from, to, samples, steps }
    }

    #[test]
    fn changes_are_far_enough_apart_and_end_at_the_target() {
        let cases = [
            (24, 8_820, None),
            (24, 480, Some(20)),
            (0, 20, Some(20)),
            (64, 1_000, Some(15)),
            (24, 24, None),
        ];
        for (advance, samples, steps) in cases {
            let slide = slide(advance, samples, steps);
            let calls = slide.calls().unwrap();
            let changes: Vec<Change> = calls.iter().filter_map(|(_, change)| *change).collect();
            let last = changes.last().unwrap();
            assert_eq!((last.length, last.delay), (Some(66), Some(2_500)));
            assert_eq!(calls.iter().map(|(wait, _)| wait).sum::<u64>(), samples);
            assert!(calls.iter().skip(1).all(|(wait, _)| *wait >= advance));
            assert!(changes.windows(2).all(|pair| pair[0].length >= pair[1].length));
        }
        assert_eq!(slide(24, 44_100, None).calls().unwrap().len(), 501);
        assert_eq!(slide(24, 11_025, None).calls().unwrap().len(), 403);
        assert_eq!(slide(24, 8_820, None).calls().unwrap().len(), 368);
    }

    #[test]
    fn a_slide_that_is_too_fast_is_told() {
        let told = "so fast a slide may pass −60 dB above 12 kHz: over 234ms it does not";
        assert_eq!(slide(24, 8_820, None).remark().as_deref(), Some(told));
        assert_eq!(slide(24, 8_820, Some(20)).remark(), None);
        assert_eq!(slide(24, 236 * 441 / 10, None).remark(), None);
    }

    #[test]
    fn says_what_cannot_be() {
        assert!(slide(24, 479, Some(20)).calls().unwrap_err().contains("at most 19"));
        assert!(slide(24, 23, None).calls().unwrap_err().contains("too short"));
        assert!(slide(24, 8_820, Some(0)).calls().unwrap_err().contains("at least 1"));
    }
}
