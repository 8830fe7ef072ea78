//! What happens in a score that runs to its end, by step: its losses, its plucks and its changes.

use crate::score::{Change, Score};
use crate::tuning::Tuning;

/// The count of a pluck whose record has none.
pub const ABSENT_COUNT: u16 = 100;

#[derive(Clone, Copy, Debug, PartialEq, Eq)]
pub struct Plucked {
    pub at: usize,
    pub amplitude: u16,
    pub count: u16,
    pub seed: u16,
}

/// A tuning, and the step from which it is in force: Na after its call, or at once.
#[derive(Clone, Copy, Debug, PartialEq, Eq)]
pub struct Changed {
    pub effect: usize,
    pub tuning: Tuning,
    pub instant: bool,
}

/// A stretch of samples with one tuning in force, by a change or since the opening.
#[derive(Clone, Copy, Debug, PartialEq, Eq)]
pub struct Span {
    pub from: usize,
    pub to: usize,
    pub tuning: Tuning,
    pub changed: bool,
}

#[derive(Clone, Debug, PartialEq, Eq)]
pub struct Timeline {
    pub order: u32,
    pub advance: u32,
    pub opening: Tuning,
    /// The losses, each with the step from which it holds.
    pub losses: Vec<(usize, u16)>,
    pub plucks: Vec<Plucked>,
    pub changes: Vec<Changed>,
    pub steps: usize,
}

impl Timeline {
    pub fn of(score: &Score) -> Timeline {
        let header = score.header;
        let (mut now, mut tuning) = (0, header.tuning);
        let mut losses = vec![(0, header.loss)];
        let (mut plucks, mut changes) = (Vec::new(), Vec::new());
        for record in &score.records {
            now += usize::from(record.wait.unwrap_or(0));
            losses.extend(record.loss.map(|loss| (now, loss)));
            if let Some(Change { length, delay, instant }) = record.change {
                let (length, delay) =
                    (length.unwrap_or(tuning.length), delay.unwrap_or(tuning.delay));
                tuning = Tuning { length, delay };
                let late = if instant { 0 } else { usize::from(header.advance) };
                changes.push(Changed { effect: now + late, tuning, instant });
            }
            plucks.extend(record.pluck.map(|pluck| Plucked {
                at: now,
                amplitude: pluck.amplitude,
                count: pluck.count.unwrap_or(ABSENT_COUNT),
                seed: pluck.seed.unwrap_or(0),
            }));
        }
        let (order, advance) = (header.order.into(), header.advance.into());
        Timeline { order, advance, opening: header.tuning, losses, plucks, changes, steps: now }
    }

    /// The stretches between the steps at which changes take effect; of two with one such step the
    /// later called is in force.
    pub fn spans(&self) -> Vec<Span> {
        let mut spans =
            vec![Span { from: 0, to: self.steps, tuning: self.opening, changed: false }];
        for change in self.changes.iter().filter(|change| change.effect < self.steps) {
            if let Some(last) = spans.last_mut() {
                last.to = change.effect;
            }
            let (from, tuning) = (change.effect, change.tuning);
            spans.push(Span { from, to: self.steps, tuning, changed: true });
        }
        spans.retain(|span| span.from < span.to);
        spans
    }
}

#[cfg(test)]
mod tests {
    use super::*;
    use crate::text::compile;

    #[test]
    fn changes_take_effect_when_they_do() {
        let text = "order 1\nadvance 24\ntune L 99 d 4096\npluck 9 for 7 seed 0\nwait 10 samples, to L 98\n\
                    wait 30 samples, loss 0.5, jump d 4000, pluck 3 seed 2\nwait 5 samples, to L 1\n";
        let timeline = Timeline::of(&compile(text, None).unwrap().score);
        let tuning = |length, delay| Tuning { length, delay };
        let span = |from, to, tuning| Span { from, to, tuning, changed: from > 0 };
        assert_eq!(
            timeline.spans(),
            [
                span(0, 34, tuning(99, 4_096)),
                span(34, 40, tuning(98, 4_096)),
                span(40, 45, tuning(98, 4_000))
            ]
        );
        assert_eq!(timeline.losses, [(0, 65_274), (40, 32_768)]);
        let pluck = |at, amplitude, count, seed| Plucked { at, amplitude, count, seed };
        assert_eq!(timeline.plucks, [pluck(0, 9, 7, 0), pluck(40, 3, 100, 2)]);
        assert_eq!((timeline.steps, timeline.changes.len()), (45, 3));
    }
}
