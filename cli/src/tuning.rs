//! The tuning of a voice: a length in samples and a delay in 1/4,096 of a sample, and its period T.

use jivaszte::Refusal;
use std::ops::RangeInclusive;

/// The orders that the library takes. A further order is added here.
pub const ORDERS: RangeInclusive<u32> = 1..=3;
/// The rates that notes and WAV files may have, in samples a second.
pub const RATES: RangeInclusive<u32> = 8_000..=192_000;
pub const DEFAULT_RATE: u32 = 44_100;
pub const LENGTHS: RangeInclusive<i64> = 1..=2_048;
/// Parts of a sample in which delays and periods are counted.
pub const PARTS: u32 = 4_096;
/// "the 2,048 is the loop filter's half sample"
const HALF_SAMPLE: u32 = PARTS / 2;

#[derive(Clone, Copy, Debug, Default, PartialEq, Eq, Hash)]
pub struct Tuning {
    pub length: u16,
    pub delay: u16,
}

impl Tuning {
    /// T, the period in 1/4,096 of a sample.
    pub fn period(self) -> u32 {
        PARTS * u32::from(self.length) + u32::from(self.delay) + HALF_SAMPLE
    }

    /// "T − 2,048 = 4,096·L + d with d in the order's range", or the refusal.
    pub fn of_period(order: u32, period: u64) -> Result<Tuning, Refusal> {
        if !ORDERS.contains(&order) {
            return Err(Refusal::Order);
        }
        let lowest = i64::from(*delays(order).start());
        let parts = i64::from(PARTS);
        let past = i64::try_from(period).unwrap_or(i64::MAX) - i64::from(HALF_SAMPLE) - lowest;
        let (length, delay) = (past.div_euclid(parts), lowest + past.rem_euclid(parts));
        match LENGTHS.contains(&length) {
            true => Ok(Tuning { length: length as u16, delay: delay as u16 }),
            false => Err(Refusal::NoteLength),
        }
    }

    /// The pitch that the period stands for, in hertz.
    pub fn hertz(self, rate: u32) -> f64 {
        f64::from(rate) * f64::from(PARTS) / f64::from(self.period())
    }
}

/// The delays that an order takes: 2,049 to 6,144 in order 1, and a sample more for each further one.
pub fn delays(order: u32) -> RangeInclusive<u32> {
    let most = PARTS * order + HALF_SAMPLE;
    most - PARTS + 1..=most
}

#[cfg(test)]
mod tests {
    use super::*;

    #[test]
    fn splits_as_document_01_does() {
        assert_eq!(delays(1), 2_049..=6_144);
        assert_eq!(delays(2), 6_145..=10_240);
        assert_eq!(delays(3), 10_241..=14_336);
        let a4 = Tuning { length: 99, delay: 2_979 };
        assert_eq!(Tuning::of_period(1, a4.period().into()), Ok(a4));
        assert_eq!(
            Tuning::of_period(2, a4.period().into()),
            Ok(Tuning { length: 98, delay: 7_075 })
        );
        assert_eq!(
            Tuning::of_period(3, a4.period().into()),
            Ok(Tuning { length: 97, delay: 11_171 })
        );
        assert_eq!(Tuning::of_period(0, 400_000), Err(Refusal::Order));
        assert_eq!(Tuning::of_period(4, 400_000), Err(Refusal::Order));
        assert_eq!(Tuning::of_period(1, 0), Err(Refusal::NoteLength));
        assert_eq!(Tuning::of_period(1, u64::MAX), Err(Refusal::NoteLength));
    }

    #[test]
    fn every_tuning_comes_back_from_its_period() {
        for order in ORDERS {
            for length in [1, 2, 99, 2_047, 2_048] {
                for delay in delays(order) {
                    let tuning = Tuning { length, delay: delay as u16 };
                    assert_eq!(Tuning::of_period(order, tuning.period().into()), Ok(tuning));
                }
            }
        }
    }
}
