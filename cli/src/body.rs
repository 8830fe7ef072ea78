//! What sounds: one voice, or an instrument of six strings.

use crate::tuning::Tuning;
use jivaszte::{Instrument, Opening, Refusal, Voice};

pub enum Body {
    One(Box<Voice>),
    Six(Box<Instrument>),
}

/// What a string is before it is opened.
const RESTING: Opening = Opening { order: 1, length: 1, delay: 4_096, loss: 0, advance: 0 };

impl Body {
    /// A body for so many strings, none of which is opened.
    pub fn new(strings: usize) -> Result<Body, Refusal> {
        Ok(match strings {
            0 | 1 => Body::One(Box::new(Voice::open(RESTING)?)),
            _ => Body::Six(Box::new(Instrument::new())),
        })
    }

    pub fn open(&mut self, string: usize, opening: Opening) -> Result<(), Refusal> {
        match self {
            Body::One(voice) => voice.reopen(opening),
            Body::Six(strings) => strings.open(string as u32, opening),
        }
    }

    pub fn loss(&mut self, string: usize, loss: u32) -> Result<(), Refusal> {
        match self {
            Body::One(voice) => voice.loss(loss),
            Body::Six(strings) => strings.loss(string as u32, loss),
        }
    }

    pub fn pluck(
        &mut self,
        string: usize,
        amplitude: u32,
        count: u32,
        seed: u32,
    ) -> Result<(), Refusal> {
        match self {
            Body::One(voice) => voice.pluck(amplitude, count, seed),
            Body::Six(strings) => strings.pluck(string as u32, amplitude, count, seed),
        }
    }

    /// A change to a tuning, at once or announced.
    pub fn change(
        &mut self,
        string: usize,
        order: u32,
        to: Tuning,
        instant: bool,
    ) -> Result<(), Refusal> {
        let (string, length, delay) = (string as u32, to.length.into(), to.delay.into());
        match (self, instant) {
            (Body::One(voice), true) => voice.instant(order, length, delay).map(|_| ()),
            (Body::One(voice), false) => voice.announce(order, length, delay),
            (Body::Six(strings), true) => strings.instant(string, order, length, delay).map(|_| ()),
            (Body::Six(strings), false) => strings.announce(string, order, length, delay),
        }
    }

    /// A block with an input, or with none.
    pub fn block(&mut self, input: Option<&[i32]>, output: &mut [i32]) -> Result<(), Refusal> {
        match (self, input) {
            (Body::One(voice), Some(input)) => voice.block(input, output),
            (Body::Six(strings), Some(input)) => strings.mix(input, output),
            (Body::One(voice), None) => {
                voice.play(output);
                Ok(())
            }
            (Body::Six(strings), None) => {
                strings.play(output);
                Ok(())
            }
        }
    }
}
