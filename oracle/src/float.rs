//! Document 02, L13: what a host's f32 is worth, by its bits, and what enters and leaves as one.
//!
//! A finite f32 is a whole number times a power of two; all is worked out on these two.

use crate::number::{clip, floor_div};
use crate::refusal::{require, Refusal};

/// A whole number times 2 to a power.
#[derive(Clone, Copy, Debug, PartialEq, Eq)]
struct Worth {
    whole: i128,
    power: i32,
}

/// What bits are worth. "26 not a number or infinite".
fn worth(bits: u32) -> Result<Worth, Refusal> {
    let (exponent, fraction) = (bits >> 23 & 255, i128::from(bits & 0x7f_ffff));
    require(exponent < 255, Refusal::NotFinite)?;
    let whole = if exponent == 0 { fraction } else { fraction + 0x80_0000 };
    let sign = if bits >> 31 == 1 { -1 } else { 1 };
    Ok(Worth { whole: sign * whole, power: exponent.max(1) as i32 - 150 })
}

impl Worth {
    /// The whole number nearest to this times 2 to the `up`, "half upward": `None` where it is 2^100 or more.
    fn nearest(self, up: i32) -> Option<i128> {
        match self.power + up {
            power @ 0..=75 => Some(self.whole << power),
            76.. => (self.whole == 0).then_some(0),
            power @ -100..=-1 => {
                let unit = 1 << -power;
                Some(floor_div(2 * self.whole + unit, 2 * unit))
            }
            _ => Some(0),
        }
    }

    /// Whether it is at most 1: the whole number is below 2^24, so that a power above 0 is 1 or more, or 0.
    fn at_most_one(self) -> bool {
        match -self.power {
            down @ 0..=100 => self.whole <= 1 << down,
            down => down > 100 || self.whole <= 0,
        }
    }
}

/// "Incoming samples go to the nearest whole number of 1/2^23, half upward, then clip." "27 a sample outside −1 to 1".
pub fn sample_in(bits: u32) -> Result<i128, Refusal> {
    let worth = worth(bits)?;
    let below = Worth { whole: -worth.whole, ..worth };
    require(worth.at_most_one() && below.at_most_one(), Refusal::FloatRange)?;
    Ok(clip(worth.nearest(23).expect("at most 2^23")))
}

/// "the loss to 1/65,536 and at most 65,535"; "27 ... a loss outside 0 to 1".
pub fn loss_in(bits: u32) -> Result<u32, Refusal> {
    let worth = worth(bits)?;
    require(worth.whole >= 0 && worth.at_most_one(), Refusal::FloatRange)?;
    let loss = worth.nearest(16).expect("at most 65,536").min(65_535);
    Ok(loss as u32)
}

/// "the delay is rounded to 1/4,096": T, `None` where it is far beyond every length.
pub fn delay_in(bits: u32) -> Result<Option<i128>, Refusal> {
    Ok(worth(bits)?.nearest(12))
}

/// "each whole sample n leaves as n / 2^23, exactly": its bits.
pub fn sample_out(sample: i128) -> u32 {
    let magnitude = sample.unsigned_abs();
    if magnitude == 0 {
        return 0;
    }
    let top = 127 - magnitude.leading_zeros();
    let fraction = (magnitude << (23 - top)) as u32 & 0x7f_ffff;
    u32::from(sample < 0) << 31 | (top + 127 - 23) << 23 | fraction
}
