//! The waveform of a take, with the notes, plucks and changes above it.

use super::axes::{Level, Levels, LEFT, RIGHT};
use super::curve;
use super::labels::placed;
use super::svg::{Anchor, Svg, BLACK, FILLED, SMALL};
use super::time::Time;
use super::Take;
use crate::number::counted;

const HEIGHT: f64 = 220.0;
const ROW: f64 = 17.0;
/// Half the width of a mark.
const HALF: f64 = 3.5;
/// Marks that are nearer to each other than this are lines.
const NEAR: f64 = 3.0 * HALF;

/// Where marks stand: a symbol where there is room, and a line where there is not.
fn marks(places: &[(f64, &str)], y: f64) -> (String, String) {
    let (mut symbols, mut lines) = (String::new(), String::new());
    for (index, (x, symbol)) in places.iter().enumerate() {
        let near = |other: Option<&(f64, &str)>| other.is_some_and(|(at, _)| (at - x).abs() < NEAR);
        match near(index.checked_sub(1).and_then(|before| places.get(before)))
            || near(places.get(index + 1))
        {
            true => lines += &format!("M{x:.1} {:.1}v{}", y - HALF, 2.0 * HALF),
            false => symbols += &format!("M{x:.1} {y:.1}{symbol}"),
        }
    }
    (symbols, lines)
}

pub const PLUCK: &str = "m0 3.5l-3.5 -7h7z";
pub const ANNOUNCED: &str = "m-3.5 0a3.5 3.5 0 1 0 7 0a3.5 3.5 0 1 0 -7 0";
pub const INSTANT: &str = "m0 -4.5l4.5 4.5l-4.5 4.5l-4.5 -4.5z";

/// What the lowest and highest samples of each column reach, joined to those of the column before.
fn outline(samples: &[i32], time: &Time, level: &Level) -> String {
    let mut data = String::new();
    if time.pixels_a_sample() >= 1.0 {
        for (step, sample) in samples.iter().enumerate() {
            let letter = if step == 0 { 'M' } else { 'L' };
            data += &format!("{letter}{:.1} {:.1}", time.x(step), level.y(*sample));
        }
        return data;
    }
    let columns = (RIGHT - LEFT) as usize;
    let mut before = None;
    for column in 0..columns {
        let (from, to) = (column * samples.len() / columns, (column + 1) * samples.len() / columns);
        let Some(last) = samples[from..to].last() else { continue };
        let reached = samples[from..to].iter().chain(before);
        let (low, high) =
            reached.fold((i32::MAX, i32::MIN), |(low, high), &y| (low.min(y), high.max(y)));
        let x = LEFT + column as f64 + 0.5;
        data += &format!("M{x:.1} {:.1}V{:.1}", level.y(high) - 0.4, level.y(low) + 0.4);
        before = Some(last);
    }
    data
}

/// Draws the panel; gives where it ends.
pub fn draw(svg: &mut Svg, top: f64, take: &Take, levels: Levels) -> f64 {
    let time = Time { steps: take.samples.len(), rate: take.rate };
    let row = |index: usize| top + ROW * (index as f64 + 0.5);
    let name = |svg: &mut Svg, index: usize, words: &str| {
        svg.text((LEFT - 8.0, row(index) + 0.36 * SMALL), Anchor::End, words);
    };
    name(svg, 0, "note");
    let (labels, without) = placed(&take.timeline, take.rate, |step| time.x(step), RIGHT);
    let mut rows = 1 + labels.iter().map(|label| label.row).max().unwrap_or(0);
    for label in labels {
        let y = row(label.row) + 0.36 * SMALL;
        svg.text((label.x + 1.0, y), Anchor::Start, &label.words);
    }
    if without > 0 {
        let words = format!("{} without room for a name", counted(without as u64, "more note"));
        svg.text((LEFT + 1.0, row(rows) + 0.36 * SMALL), Anchor::Start, &words);
        rows += 1;
    }
    let box_top = curve::draw(svg, top + ROW * (rows + 2) as f64 + 10.0, take, &time) + 12.0;
    let level = Level { levels, top: box_top, bottom: box_top + HEIGHT };

    let within = |step: &usize| *step <= take.samples.len();
    let plucks: Vec<(f64, &str)> = take
        .timeline
        .plucks
        .iter()
        .filter(|pluck| within(&pluck.at))
        .map(|pluck| (time.x(pluck.at), PLUCK))
        .collect();
    let changed: Vec<_> =
        take.timeline.changes.iter().filter(|change| within(&change.effect)).collect();
    let shape = |instant: bool| if instant { INSTANT } else { ANNOUNCED };
    let changes: Vec<(f64, &str)> =
        changed.iter().map(|change| (time.x(change.effect), shape(change.instant))).collect();
    name(svg, rows, "pluck");
    let (symbols, lines) = marks(&plucks, row(rows));
    svg.path("plucks", FILLED, &symbols);
    svg.path("plucks", BLACK, &lines);
    name(svg, rows + 1, "change");
    let (symbols, lines) = marks(&changes, row(rows + 1));
    svg.path("changes", BLACK, &symbols);
    svg.path("changes", &format!("{BLACK} stroke-width=\"0.7\""), &lines);

    level.draw(svg);
    let end = time.draw(svg, level.top, level.bottom);
    svg.frame((LEFT, level.top), (RIGHT, level.bottom));
    let ink = if time.pixels_a_sample() >= 1.0 {
        "stroke-width=\"1.2\" stroke-linejoin=\"round\""
    } else {
        ""
    };
    svg.path("waveform", &format!("{BLACK} {ink}"), &outline(&take.samples, &time, &level));
    if time.pixels_a_sample() >= 1.0 {
        let mut rings = String::new();
        for (change, (x, _)) in changed.iter().zip(&changes) {
            let Some(sample) = take.samples.get(change.effect) else { continue };
            rings += &format!("M{x:.1} {:.1}{}", level.y(*sample), shape(change.instant));
        }
        svg.path("rings", "fill=\"#fff\" stroke=\"#000\"", &rings);
    }
    end
}
