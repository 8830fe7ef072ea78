//! The distance of each sample from the ideal filter's, measured and proved, by its logarithm.

use super::axes::{LEFT, RIGHT};
use super::svg::{Anchor, Svg, BLACK};
use super::time::Time;
use super::units::Distances;
use super::Take;
use crate::ideal::Distance;

const HEIGHT: f64 = 250.0;
pub const MEASURED: &str = r##"fill="none" stroke="#888""##;
pub const PROVED: &str = r#"stroke-width="1.6""#;

/// The greatest of each column, with the column's middle and width: a column is a sample, or a pixel where
/// there are more samples than pixels.
fn columns(distances: &[Distance], time: &Time) -> Vec<(f64, f64, Distance)> {
    let count = distances.len().min((RIGHT - LEFT) as usize);
    let width = (RIGHT - LEFT) / count.max(1) as f64;
    let start = if count == distances.len() { time.x(0) } else { LEFT + 0.5 };
    let column = |index: usize| {
        let (from, to) = (index * distances.len() / count, (index + 1) * distances.len() / count);
        let greatest =
            distances[from..to].iter().fold(Distance::default(), |most, distance| Distance {
                measured: most.measured.max(distance.measured),
                proved: most.proved.max(distance.proved),
            });
        (start + width * index as f64, width, greatest)
    };
    (0..count).map(column).collect()
}

/// Draws the panel; gives where it ends.
pub fn draw(svg: &mut Svg, top: f64, take: &Take, distances: &[Distance]) -> f64 {
    let time = Time { steps: take.samples.len(), rate: take.rate };
    let axis = Distances { top, bottom: top + HEIGHT };
    axis.draw(svg);
    let end = time.draw(svg, axis.top, axis.bottom);
    svg.frame((LEFT, axis.top), (RIGHT, axis.bottom));
    let (mut measured, mut proved, mut at) = (String::new(), String::new(), None);
    let mut thick: f64 = 1.0;
    for (x, width, distance) in columns(distances, &time) {
        let y = axis.y(distance.measured.into());
        measured += &format!("M{x:.1} {:.1}V{y:.1}", axis.bottom);
        thick = (0.7 * width).max(1.0);
        if distance.proved == 0 {
            at = None;
            continue;
        }
        let (y, right) = (axis.y(distance.proved.into()), (x + width).min(RIGHT));
        proved += &match at {
            Some(before) if before == y => format!("H{right:.1}"),
            Some(_) => format!("V{y:.1}H{right:.1}"),
            None => format!("M{x:.1} {y:.1}H{right:.1}"),
        };
        at = Some(y);
    }
    if distances.iter().all(|distance| distance.measured == 0) {
        let middle = ((LEFT + RIGHT) / 2.0, (axis.top + axis.bottom) / 2.0);
        svg.text(middle, Anchor::Middle, "Every distance that was measured here is 0.");
    }
    svg.path("measured", &format!("{MEASURED} stroke-width=\"{thick:.1}\""), &measured);
    svg.path("proved", &format!("{BLACK} {PROVED}"), &proved);
    end
}
