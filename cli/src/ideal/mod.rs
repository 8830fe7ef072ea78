//! How far a take is from the ideal: after a change, a filter of the new tuning that has run since the
//! voice was opened, over the same line. Worked out from the samples, by an implementation of document
//! 01 of its own: nothing here calls the proved library.

mod rule;

use crate::click::figure;
use crate::progress::Progress;
use crate::timeline::{Span, Timeline};
use crate::tuning::Tuning;
use rule::{clip, cut_in_loop, draw, Filter};
use std::collections::HashMap;

/// Samples of work from which on a bar is shown: about a second.
const LONG: usize = 50_000_000;

/// s: what was written to the line at each step, from the samples, the losses and the plucks.
fn line(samples: &[i32], timeline: &Timeline) -> Vec<i64> {
    let mut losses = timeline.losses.iter().peekable();
    let mut plucks = timeline.plucks.iter().peekable();
    let (mut loss, mut last, mut noise, mut amplitude, mut until) = (0, 0, 0, 0, 0);
    let mut line = Vec::with_capacity(samples.len());
    for (step, sample) in samples.iter().enumerate() {
        while let Some((_, set)) = losses.next_if(|(from, _)| *from <= step) {
            loss = i64::from(*set);
        }
        while let Some(pluck) = plucks.next_if(|pluck| pluck.at <= step) {
            (amplitude, noise) = (i64::from(pluck.amplitude), pluck.seed.into());
            until = pluck.at + usize::from(pluck.count);
        }
        let input = if step < until { amplitude * draw(&mut noise) } else { 0 };
        let y = i64::from(*sample);
        line.push(clip(input + cut_in_loop(loss * (y + last))));
        last = y;
    }
    line
}

/// A sample of a take, by how much it is off the ideal, and by how much it can be.
#[derive(Clone, Copy, Debug, Default, PartialEq, Eq)]
pub struct Distance {
    pub measured: u32,
    pub proved: u32,
}

/// The distance of each sample from that of the ideal filter of the tuning in force. Before a change
/// there is none.
pub fn distances(samples: &[i32], timeline: &Timeline) -> Vec<Distance> {
    let line = line(samples, timeline);
    let mut distances = vec![Distance::default(); samples.len()];
    let mut tunings: HashMap<Tuning, Vec<Span>> = HashMap::new();
    for span in timeline.spans() {
        tunings.entry(span.tuning).or_default().push(span);
    }
    let last = |spans: &Vec<Span>| spans.last().map_or(0, |span| span.to);
    let work: usize = tunings.values().map(last).sum();
    let mut progress = (work > LONG).then(|| Progress::new(work));
    for (tuning, spans) in tunings {
        let steps = last(&spans);
        let mut filter = Filter::new(timeline.order, tuning.delay);
        let read = |step: usize| match step.checked_sub(tuning.length.into()) {
            Some(before) => line[before],
            None => 0,
        };
        let mut now = 0;
        for Span { from, to, changed, .. } in spans {
            for step in now..from {
                filter.take(read(step));
            }
            for step in from..to {
                let off = filter.output(read(step)) - i64::from(samples[step]);
                let since = u32::try_from(step - from).unwrap_or(u32::MAX);
                let run = timeline.advance.saturating_add(since);
                let proved = if changed { figure(timeline.order, run) } else { 0 };
                distances[step] = Distance { measured: off.unsigned_abs() as u32, proved };
            }
            now = to;
        }
        progress.iter_mut().for_each(|progress| progress.advance(steps));
    }
    distances
}
