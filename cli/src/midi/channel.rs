//! What a channel of a MIDI file has set: its pedal and its bend.

/// Half tones to which a bend reaches where nothing else is set.
const BEND_RANGE: f64 = 2.0;
/// The controllers that count here.
const PEDAL: u8 = 64;
const DATA_HIGH: u8 = 6;
const DATA_LOW: u8 = 38;
const PARAMETER_LOW: u8 = 100;
const PARAMETER_HIGH: u8 = 101;
pub const ALL_SOUND_OFF: u8 = 120;
pub const ALL_NOTES_OFF: u8 = 123;
/// The parameter that sets the reach of a bend.
const REACH: (u8, u8) = (0, 0);
const NO_PARAMETER: (u8, u8) = (127, 127);

#[derive(Clone, Copy, Debug)]
pub struct Channel {
    pub pedal: bool,
    bend: i16,
    /// Half tones and cents.
    reach: (u8, u8),
    parameter: (u8, u8),
}

impl Default for Channel {
    fn default() -> Channel {
        Channel { pedal: false, bend: 0, reach: (BEND_RANGE as u8, 0), parameter: NO_PARAMETER }
    }
}

impl Channel {
    /// The bend, in cents.
    pub fn cents(&self) -> f64 {
        let reach = 100.0 * f64::from(self.reach.0) + f64::from(self.reach.1);
        reach * f64::from(self.bend) / 8_192.0
    }

    pub fn bend(&mut self, bend: i16) {
        self.bend = bend;
    }

    /// A controller; says whether the pedal was let go.
    pub fn control(&mut self, number: u8, value: u8) -> bool {
        match number {
            PEDAL => {
                let before = std::mem::replace(&mut self.pedal, value >= 64);
                return before && !self.pedal;
            }
            PARAMETER_HIGH => self.parameter.0 = value,
            PARAMETER_LOW => self.parameter.1 = value,
            DATA_HIGH if self.parameter == REACH => self.reach.0 = value,
            DATA_LOW if self.parameter == REACH => self.reach.1 = value.min(99),
            _ => {}
        }
        false
    }
}

#[cfg(test)]
mod tests {
    use super::*;

    #[test]
    fn bends_reach_as_far_as_they_are_told() {
        let mut channel = Channel::default();
        channel.bend(8_191);
        assert!((channel.cents() - 200.0).abs() < 0.1);
        channel.bend(-8_192);
        assert_eq!(channel.cents(), -200.0);
        for (number, value) in
            [(101, 0), (100, 0), (6, 12), (38, 50), (101, 127), (100, 127), (6, 1)]
        {
            assert!(!channel.control(number, value));
        }
        assert_eq!(channel.cents(), -1_250.0);
    }

    #[test]
    fn the_pedal_is_let_go_once() {
        let mut channel = Channel::default();
        let pedals = [0, 127, 64, 63, 0].map(|value| channel.control(64, value));
        assert_eq!(pedals, [false, false, false, true, false]);
    }
}
