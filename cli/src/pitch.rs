//! Pitches: notes by name, with cents, or hertz; and the names of tunings.

use crate::decimal::Decimal;
use crate::note;
use crate::tuning::{Tuning, PARTS};
use jivaszte::Refusal;

/// The number of A4, 440 Hz.
const A4: u32 = 69;

#[derive(Clone, Copy, Debug, PartialEq)]
pub enum Pitch {
    Note { note: u32, cents: f64 },
    Hertz(Decimal),
}

impl Pitch {
    /// A note by its name, with cents if there are any: `A4`, `Bb3`, `C#5-12.5c`.
    pub fn named(word: &str) -> Option<Pitch> {
        note::read(word).map(|(note, cents)| Pitch::Note { note, cents })
    }

    /// Length and delay, or the refusal: by the proved `note` for a note without cents.
    pub fn tuning(&self, order: u32, rate: u32) -> Result<Tuning, Refusal> {
        let cycle = u64::from(rate) * u64::from(PARTS);
        match self {
            Pitch::Note { note, cents: 0.0 } => {
                let (length, delay) = jivaszte::note(order, rate, *note)?;
                Ok(Tuning { length: length as u16, delay: delay as u16 })
            }
            Pitch::Note { .. } => {
                Tuning::of_period(order, (cycle as f64 / self.hertz()).round() as u64)
            }
            Pitch::Hertz(hertz) if hertz.is_zero() => Err(Refusal::NoteLength),
            Pitch::Hertz(hertz) => {
                Tuning::of_period(order, u64::try_from(hertz.under(cycle)).unwrap_or(u64::MAX))
            }
        }
    }

    pub fn hertz(&self) -> f64 {
        match self {
            Pitch::Note { note, cents } => {
                let half_tones = f64::from(*note) - f64::from(A4) + cents / 100.0;
                440.0 * (half_tones / 12.0).exp2()
            }
            Pitch::Hertz(hertz) => hertz.value(),
        }
    }

    /// The note nearest to a number of hertz, with the cents from it.
    pub fn nearest(hertz: f64) -> Option<Pitch> {
        let half_tones = 12.0 * (hertz / 440.0).log2() + f64::from(A4);
        let note = half_tones.round();
        let known = (0.0..f64::from(note::NOTES)).contains(&note);
        known.then_some(Pitch::Note { note: note as u32, cents: 100.0 * (half_tones - note) })
    }
}

impl std::fmt::Display for Pitch {
    fn fmt(&self, f: &mut std::fmt::Formatter) -> std::fmt::Result {
        match self {
            Pitch::Note { note, cents: 0.0 } => write!(f, "{}", note::name(*note)),
            Pitch::Note { note, cents } => write!(f, "{}{cents:+}c", note::name(*note)),
            Pitch::Hertz(hertz) => write!(f, "{}Hz", hertz.value()),
        }
    }
}

/// The cents by which a frequency is above another.
pub fn cents_above(hertz: f64, other: f64) -> f64 {
    1_200.0 * (hertz / other).log2()
}

#[cfg(test)]
mod tests {
    use super::*;

    /// Worked out from hertz or cents, a note is within 1/4,096 of a sample of the proved one.
    #[test]
    fn hertz_and_cents_agree_with_the_proved_notes() {
        for number in 24..note::NOTES - 12 {
            let proved = Pitch::Note { note: number, cents: 0.0 }.tuning(1, 44_100).unwrap();
            let above = Pitch::Note { note: number + 1, cents: -100.0 }.tuning(1, 44_100).unwrap();
            assert!(above.period().abs_diff(proved.period()) <= 1, "{number}");
        }
        let a4 = Pitch::Hertz(Decimal::parse("440.0").unwrap());
        assert_eq!(a4.tuning(1, 44_100), Ok(Tuning { length: 99, delay: 2_979 }));
        let none = Pitch::Hertz(Decimal::parse("0.0").unwrap());
        assert_eq!(none.tuning(1, 44_100), Err(Refusal::NoteLength));
    }
}
