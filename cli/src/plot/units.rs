//! The axis of distances: units of the last bit and decibels, by their logarithm.

use super::axes::{LEFT, RIGHT, TICK, WIDTH};
use super::svg::{Anchor, Svg, BLACK, GREY, SMALL};
use crate::number::grouped;
use crate::take::FULL_SCALE;

/// Distances in units of the last bit, by their logarithms; 0 has a place of its own below 1.
pub struct Distances {
    pub top: f64,
    pub bottom: f64,
}

/// A little above the greatest figure, 3 × 2^23.
const GREATEST: f64 = 4e7;
const DECADES: i32 = 7;
const ZERO: f64 = 20.0;

impl Distances {
    pub fn y(&self, units: f64) -> f64 {
        if units < 1.0 {
            return self.bottom;
        }
        let one = self.bottom - ZERO;
        one - (one - self.top) * units.log10() / GREATEST.log10()
    }

    pub fn draw(&self, svg: &mut Svg) {
        let (mut ticks, mut grid) = (String::new(), String::new());
        let mut number = |svg: &mut Svg, units: f64, words: &str| {
            let y = self.y(units);
            ticks += &format!("M{LEFT} {y:.1}h-{TICK}");
            grid += &format!("M{LEFT} {y:.1}H{RIGHT}");
            svg.text((LEFT - TICK - 3.0, y + 0.36 * SMALL), Anchor::End, words);
        };
        number(svg, 0.0, "0");
        for decade in 0..=DECADES {
            let units = 10f64.powi(decade);
            number(svg, units, &grouped(units as u64));
        }
        for tens in -6..=0 {
            let level = f64::from(20 * tens);
            let y = self.y(f64::from(FULL_SCALE) * 10f64.powf(level / 20.0));
            ticks += &format!("M{RIGHT} {y:.1}h{TICK}");
            let words = format!("{level} dB").replace('-', "−");
            svg.text((RIGHT + TICK + 3.0, y + 0.36 * SMALL), Anchor::Start, &words);
        }
        svg.path("grid", &format!("{GREY} stroke-width=\"0.5\""), &grid);
        svg.path("ticks", BLACK, &ticks);
        let middle = (self.top + self.bottom) / 2.0;
        svg.upward((14.0, middle), "distance, in units of the last bit");
        svg.upward((WIDTH - 10.0, middle), "the same, 0 dB is full scale");
    }
}
