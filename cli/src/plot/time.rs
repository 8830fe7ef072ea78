//! The time along a panel: where a step stands, and the numbers below.

use super::axes::{nice_step, LEFT, RIGHT, TICK};
use super::svg::{Anchor, Svg, BLACK, GREY, SMALL};

/// At most so many numbers stand along the time.
const MOST_TICKS: f64 = 12.0;

/// The time of a take, from its first sample on.
pub struct Time {
    pub steps: usize,
    pub rate: u32,
}

impl Time {
    /// Where a step stands.
    pub fn x(&self, step: usize) -> f64 {
        LEFT + (RIGHT - LEFT) * step as f64 / self.steps.max(1) as f64
    }

    pub fn pixels_a_sample(&self) -> f64 {
        (RIGHT - LEFT) / self.steps.max(1) as f64
    }

    /// The unit of the numbers along the time, and each with its place and its words.
    fn numbers(&self) -> (&'static str, Vec<(f64, String)>) {
        let seconds = self.steps as f64 / f64::from(self.rate);
        let (unit, length) =
            if seconds < 0.1 { ("milliseconds", 1_000.0 * seconds) } else { ("seconds", seconds) };
        let length = length.max(1e-9);
        let step = nice_step(length, MOST_TICKS);
        let places = (-step.log10().floor()).max(0.0) as usize;
        let number = |index: usize| {
            let value = index as f64 * step;
            (LEFT + (RIGHT - LEFT) * value / length, format!("{value:.places$}"))
        };
        (unit, (0..=(length / step + 1e-9) as usize).map(number).collect())
    }

    /// Lines across a panel.
    pub fn grid(&self, svg: &mut Svg, top: f64, bottom: f64) {
        let line = |(x, _): &(f64, String)| format!("M{x:.1} {top:.1}V{bottom:.1}");
        let grid: String = self.numbers().1.iter().map(line).collect();
        svg.path("grid", &format!("{GREY} stroke-width=\"0.5\""), &grid);
    }

    /// The axis below a panel; gives where it ends.
    pub fn draw(&self, svg: &mut Svg, top: f64, bottom: f64) -> f64 {
        let (unit, numbers) = self.numbers();
        let mut ticks = String::new();
        for (x, words) in numbers {
            ticks += &format!("M{x:.1} {bottom:.1}v{TICK}");
            svg.text((x, bottom + TICK + SMALL), Anchor::Middle, &words);
        }
        self.grid(svg, top, bottom);
        svg.path("ticks", BLACK, &ticks);
        let under = bottom + TICK + 2.4 * SMALL;
        svg.text(((LEFT + RIGHT) / 2.0, under), Anchor::Middle, &format!("time in {unit}"));
        under + SMALL
    }
}
