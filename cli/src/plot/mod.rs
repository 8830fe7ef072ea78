//! Pictures of takes: the waveform with its notes, plucks and changes, and what the changes click.

mod axes;
mod curve;
mod distance;
mod labels;
mod svg;
mod time;
mod units;
mod waveform;

use crate::failure::Outcome;
use crate::ideal::{distances, Distance};
use crate::number::{counted, decibels, duration, grouped};
use crate::score::Score;
use crate::take::FULL_SCALE;
use crate::timeline::Timeline;
use crate::tune::Tune;
use axes::{Levels, LEFT, WIDTH};
pub use svg::Svg;
use svg::{width_of, Anchor, BLACK, FILLED, LARGE, SMALL};

/// A take to be drawn; the distances are drawn where there are some.
pub struct Take {
    pub title: String,
    pub rate: u32,
    pub samples: Vec<i32>,
    pub timeline: Timeline,
    pub distances: Option<Vec<Distance>>,
}

impl Take {
    /// A tune, played.
    pub fn of(name: &str, tune: &Tune, click: bool) -> Outcome<Take> {
        let samples = tune.run()?;
        let timeline = Timeline::of(&Score::decode(&tune.bytes).unwrap_or_default());
        let (order, advance, rate) = (timeline.order, timeline.advance, tune.rate);
        let title = format!("{name}: Na {advance}, order {order}, {rate} samples a second");
        let distances = click.then(|| distances(&samples, &timeline));
        Ok(Take { title, rate, samples, timeline, distances })
    }
}

/// A line of the legend: marks with their words.
fn legend(svg: &mut Svg, y: f64, entries: &[(&str, &str, &str)]) {
    let mut x = LEFT;
    for (style, mark, words) in entries {
        svg.path("legend", style, &format!("M{:.1} {:.1}{mark}", x + 8.0, y - 0.36 * SMALL));
        svg.text((x + 22.0, y), Anchor::Start, words);
        x += 22.0 + width_of(words, SMALL) + 18.0;
    }
}

/// A distance in units and decibels.
pub fn in_words(units: u32) -> String {
    let level = decibels(units.into(), FULL_SCALE.into());
    match units {
        0 => String::from("0"),
        1 => format!("1 unit ({level:.1} dB)").replace('-', "−"),
        _ => format!("{} units ({level:.1} dB)", grouped(units.into())).replace('-', "−"),
    }
}

/// The greatest distance of a take, measured and proved.
pub fn greatest(distances: &[Distance]) -> Distance {
    distances.iter().fold(Distance::default(), |most, distance| Distance {
        measured: most.measured.max(distance.measured),
        proved: most.proved.max(distance.proved),
    })
}

/// What a take's picture shows, in words.
fn description(take: &Take) -> String {
    let (plucks, changes) = (take.timeline.plucks.len() as u64, take.timeline.changes.len() as u64);
    let marks = format!("{} and {}", counted(plucks, "pluck"), counted(changes, "change"));
    let length = duration(take.samples.len(), take.rate);
    let clicks = take.distances.as_ref().map_or(String::new(), |distances| {
        let most = greatest(distances);
        let (measured, proved) = (in_words(most.measured), in_words(most.proved));
        format!(" Off the ideal filter by at most {measured} as measured, {proved} as proved.")
    });
    format!(
        "{}: the pitch in force and the waveform of {length}, with {marks}.{clicks}",
        take.title
    )
}

/// The takes one below the other, with one scale for all.
pub fn draw(takes: &[Take]) -> Svg {
    let mut svg = Svg::new(WIDTH);
    let samples = || takes.iter().flat_map(|take| &take.samples).copied();
    let levels = Levels::around(samples().min().unwrap_or(0), samples().max().unwrap_or(0));
    let mut y = 0.0;
    for take in takes {
        y += 1.8 * LARGE;
        svg.heading((LEFT, y), &take.title);
        svg.describe(&description(take));
        y += 1.8 * SMALL;
        let changed =
            |instant| take.timeline.changes.iter().any(|change| change.instant == instant);
        let entries = [
            (true, (FILLED, waveform::PLUCK, "pluck")),
            (
                changed(false),
                (
                    BLACK,
                    waveform::ANNOUNCED,
                    "announced change, where it takes effect; a line where they are close",
                ),
            ),
            (changed(true), (BLACK, waveform::INSTANT, "instant change")),
        ];
        let entries: Vec<_> =
            entries.iter().filter(|(there, _)| *there).map(|(_, entry)| *entry).collect();
        legend(&mut svg, y, &entries);
        y = waveform::draw(&mut svg, y + 0.6 * SMALL, take, levels);
        if let Some(distances) = &take.distances {
            let most = greatest(distances);
            let (proved, measured) = (
                format!("proved, for every score: at most {}", in_words(most.proved)),
                format!("measured here: at most {}", in_words(most.measured)),
            );
            y += 1.2 * SMALL;
            svg.text(
                (LEFT, y),
                Anchor::Start,
                "Distance of each sample from the ideal filter of the tuning in force",
            );
            y += 1.5 * SMALL;
            let line = format!("{BLACK} {}", distance::PROVED);
            let bar = format!("{} stroke-width=\"6\"", distance::MEASURED);
            legend(&mut svg, y, &[(&line, "m-7 0h14", &proved), (&bar, "m0 -6v12", &measured)]);
            y = distance::draw(&mut svg, y + 0.8 * SMALL, take, distances);
        }
        svg.reach(y);
    }
    svg
}
