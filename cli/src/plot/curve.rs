//! The pitch in force: notes on the axis, changes as steps, plucks marked on the curve.

use super::axes::{LEFT, RIGHT, TICK};
use super::svg::{Anchor, Svg, BLACK, FILLED, GREY, SMALL};
use super::time::Time;
use super::waveform::PLUCK;
use super::Take;
use crate::note::{name, NOTES};
use crate::timeline::Span;
use crate::tuning::Tuning;

const HEIGHT: f64 = 130.0;
/// Names on the axis are at least so many pixels apart.
const APART: f64 = 1.2 * SMALL;
/// Half tones between two names: the first of these that leaves them apart.
const STEPS: [u32; 8] = [1, 2, 3, 4, 6, 12, 24, 48];
/// How far above the curve the middle of a pluck's mark stands.
const ABOVE: f64 = 5.0;

/// Half tones, as MIDI numbers notes: A4 is 69.
fn half_tones(tuning: Tuning, rate: u32) -> f64 {
    12.0 * (tuning.hertz(rate) / 440.0).log2() + 69.0
}

/// The pitches from the bottom of a panel to its top.
struct Pitches {
    low: f64,
    high: f64,
    top: f64,
    bottom: f64,
}

impl Pitches {
    /// Room for all of them, and for the marks above the highest.
    fn around(pitches: impl Iterator<Item = f64> + Clone, top: f64) -> Pitches {
        let low = pitches.clone().fold(f64::INFINITY, f64::min);
        let high = pitches.fold(f64::NEG_INFINITY, f64::max).max(low);
        let margin = (0.1 * (high - low)).max(1.0);
        Pitches { low: low - margin, high: high + margin, top, bottom: top + HEIGHT }
    }

    fn y(&self, pitch: f64) -> f64 {
        self.bottom - (pitch - self.low) / (self.high - self.low) * (self.bottom - self.top)
    }

    /// The notes that have a number beside the panel.
    fn notes(&self) -> Vec<u32> {
        let pixels = (self.bottom - self.top) / (self.high - self.low);
        let apart = |step: &&u32| f64::from(**step) * pixels >= APART;
        let step = STEPS.iter().find(apart).copied().unwrap_or(NOTES);
        let within = |note: &u32| (self.low..=self.high).contains(&f64::from(*note));
        (0..NOTES).filter(|note| note % step == 0).filter(within).collect()
    }

    fn draw(&self, svg: &mut Svg) {
        let (mut ticks, mut grid) = (String::new(), String::new());
        for note in self.notes() {
            let y = self.y(note.into());
            ticks += &format!("M{LEFT} {y:.1}h-{TICK}");
            grid += &format!("M{LEFT} {y:.1}H{RIGHT}");
            let place = (LEFT - TICK - 3.0, y + 0.36 * SMALL);
            svg.text(place, Anchor::End, &name(note).replace('-', "−"));
        }
        svg.path("grid", &format!("{GREY} stroke-width=\"0.5\""), &grid);
        svg.path("ticks", BLACK, &ticks);
        svg.upward((30.0, (self.top + self.bottom) / 2.0), "pitch in force");
    }
}

/// Draws the panel; gives where it ends.
pub fn draw(svg: &mut Svg, top: f64, take: &Take, time: &Time) -> f64 {
    let spans = take.timeline.spans();
    let pitch = |span: &Span| half_tones(span.tuning, take.rate);
    let pitches = Pitches::around(spans.iter().map(pitch), top);
    pitches.draw(svg);
    time.grid(svg, pitches.top, pitches.bottom);
    svg.frame((LEFT, pitches.top), (RIGHT, pitches.bottom));
    let (mut curve, mut plucks) = (String::new(), String::new());
    for span in &spans {
        let (y, right) = (pitches.y(pitch(span)), time.x(span.to));
        curve += &match curve.is_empty() {
            true => format!("M{LEFT} {y:.1}H{right:.1}"),
            false => format!("V{y:.1}H{right:.1}"),
        };
    }
    for pluck in take.timeline.plucks.iter().filter(|pluck| pluck.at <= take.samples.len()) {
        let Some(span) = spans.iter().rev().find(|span| span.from <= pluck.at) else { continue };
        plucks += &format!("M{:.1} {:.1}{PLUCK}", time.x(pluck.at), pitches.y(pitch(span)) - ABOVE);
    }
    svg.path("pitch", &format!("{BLACK} stroke-width=\"1.4\""), &curve);
    svg.path("plucked", FILLED, &plucks);
    pitches.bottom
}

#[cfg(test)]
mod tests {
    use super::*;

    #[test]
    fn names_leave_each_other_room() {
        let notes = |low: f64, high: f64| Pitches::around([low, high].into_iter(), 0.0).notes();
        assert_eq!(notes(57.0, 57.0), [56, 57, 58]);
        assert_eq!(notes(57.0, 64.0), [56, 57, 58, 59, 60, 61, 62, 63, 64, 65]);
        assert_eq!(notes(36.0, 72.0), [36, 42, 48, 54, 60, 66, 72]);
        assert!(notes(-40.0, -30.0).is_empty());
    }

    #[test]
    fn tunings_have_half_tones() {
        let a4 = Tuning { length: 99, delay: 2_979 };
        assert!((half_tones(a4, 44_100) - 69.0).abs() < 0.001);
    }
}
