//! Section "Noise and plucks": the pluck.

use crate::noise::draw;
use crate::refusal::{require, Answer, Refusal};
use crate::voice::Voice;

/// "the rest of a pluck with its noise state". Nothing sounds where `left` is 0.
#[derive(Clone, Debug, Default)]
pub struct Pluck {
    pub amplitude: u32,
    pub left: u32,
    pub noise: u32,
}

impl Pluck {
    /// "the noise sample, if a pluck is sounding": "the next count steps add amplitude × draw to
    /// p", with the noise state "that the voice keeps and lends for each draw".
    pub fn noise_sample(&mut self) -> i128 {
        if self.left == 0 {
            return 0;
        }
        self.left -= 1;
        i128::from(self.amplitude) * draw(&mut self.noise)
    }
}

impl Voice {
    /// "Pluck: 7 amplitude above 255, 8 count 0 or above 2,048. The voice is unchanged."
    /// "A new pluck replaces the rest of the old one."
    pub fn start_pluck(&mut self, amplitude: u32, count: u32, seed: u32) -> Answer {
        require(amplitude <= 255, Refusal::Amplitude)?;
        require((1..=2_048).contains(&count), Refusal::Count)?;
        self.pluck = Pluck { amplitude, left: count, noise: seed };
        Ok(())
    }
}
