//! Axes: where a level stands, and the numbers beside it.

use super::svg::{Anchor, Svg, BLACK, GREY, SMALL};
use crate::take::FULL_SCALE;

pub const WIDTH: f64 = 1_000.0;
pub const LEFT: f64 = 100.0;
pub const RIGHT: f64 = WIDTH - 92.0;
pub const TICK: f64 = 5.0;

/// The largest of 1, 2, 5, 10, .. and of their tenths that goes into a length at most so many times.
pub fn nice_step(length: f64, most: f64) -> f64 {
    let least = length / most;
    let power = 10f64.powf(least.log10().floor());
    [1.0, 2.0, 5.0]
        .iter()
        .map(|factor| factor * power)
        .find(|step| *step >= least)
        .unwrap_or(10.0 * power)
}

/// The level of a waveform, as a part of full scale: the least and the greatest, and the step of numbers.
#[derive(Clone, Copy, Debug, PartialEq)]
pub struct Levels {
    pub least: f64,
    pub greatest: f64,
    pub step: f64,
}

impl Levels {
    /// Room for the lowest and the highest sample, and for zero.
    pub fn around(low: i32, high: i32) -> Levels {
        let part = |sample: i32| f64::from(sample) / f64::from(FULL_SCALE);
        let (low, high) = (part(low.min(0)), part(high.max(0)));
        let step = nice_step((high - low).max(1e-3), 5.0);
        let (least, greatest) = ((low / step + 1e-9).floor(), (high / step - 1e-9).ceil());
        Levels { least: step * least, greatest: step * greatest.max(least + 1.0), step }
    }
}

/// The levels, from the top of a panel to its bottom.
pub struct Level {
    pub levels: Levels,
    pub top: f64,
    pub bottom: f64,
}

impl Level {
    fn at(&self, part: f64) -> f64 {
        let Levels { least, greatest, .. } = self.levels;
        self.bottom - (part - least) / (greatest - least) * (self.bottom - self.top)
    }

    pub fn y(&self, sample: i32) -> f64 {
        self.at(f64::from(sample) / f64::from(FULL_SCALE))
    }

    pub fn draw(&self, svg: &mut Svg) {
        let Levels { least, greatest, step } = self.levels;
        let (mut ticks, mut grid) = (String::new(), String::new());
        let places = (-step.log10().floor()).max(0.0) as usize;
        for index in (least / step).round() as i64..=(greatest / step).round() as i64 {
            let value = index as f64 * step;
            let y = self.at(value);
            ticks += &format!("M{LEFT} {y:.1}h-{TICK}");
            grid += &format!("M{LEFT} {y:.1}H{RIGHT}");
            let words = format!("{value:.places$}").replace('-', "−");
            svg.text((LEFT - TICK - 3.0, y + 0.36 * SMALL), Anchor::End, &words);
        }
        svg.path("grid", &format!("{GREY} stroke-width=\"0.5\""), &grid);
        svg.path("ticks", BLACK, &ticks);
        svg.upward((30.0, (self.top + self.bottom) / 2.0), "level, full scale is 1");
    }
}

#[cfg(test)]
mod tests {
    use super::*;

    #[test]
    fn levels_hold_the_samples() {
        let around = |low, high| {
            let Levels { least, greatest, step } = Levels::around(low, high);
            [least, greatest, step].map(|level| (1e6 * level).round() / 1e6)
        };
        assert_eq!(around(-838_861, 5_872_025), [-0.2, 0.8, 0.2]);
        assert_eq!(around(-FULL_SCALE, FULL_SCALE), [-1.0, 1.0, 0.5]);
        let [least, greatest, _] = around(0, 0);
        assert!(least <= 0.0 && greatest > least);
    }

    #[test]
    fn steps_are_nice() {
        for (length, step) in [(3.5, 0.5), (14.4, 2.0), (124.2, 20.0), (1.0, 0.1), (0.9, 0.1)] {
            assert!((nice_step(length, 12.0) - step).abs() < 1e-12, "{length}");
        }
    }
}
