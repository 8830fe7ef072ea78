//! Bends as announced changes: none while another waits, of which the newest is kept, and none that would still
//! wait at the next pluck, whose instant change would be refused; that pluck has the bend already.

use crate::tuning::Tuning;

/// What is done on a string.
#[derive(Clone, Copy, Debug, PartialEq, Eq)]
pub enum Deed {
    /// An instant change to this tuning, and a pluck of this amplitude.
    Pluck(Tuning, u16),
    /// A change to this tuning, announced.
    Bend(Tuning),
    Release,
}

/// A string on which bends are announced.
struct Line {
    advance: u64,
    /// The sample from which nothing waits.
    free: u64,
    /// The newest bend that came while a change waited.
    newest: Option<Tuning>,
    deeds: Vec<(u64, Deed)>,
}

impl Line {
    /// Announces a bend at a sample, where it does not still wait at the next pluck.
    fn announce(&mut self, sample: u64, tuning: Tuning, next_pluck: Option<u64>) {
        let effect = sample + self.advance;
        if next_pluck.is_none_or(|pluck| effect <= pluck) {
            self.deeds.push((sample, Deed::Bend(tuning)));
            self.free = effect;
        }
    }

    /// Announces the newest bend, where nothing waits any more by this sample.
    fn catch_up(&mut self, sample: u64, next_pluck: Option<u64>) {
        if self.free <= sample {
            if let Some(tuning) = self.newest.take() {
                self.announce(self.free, tuning, next_pluck);
            }
        }
    }
}

/// The deeds of a string, with the bends where they can be announced.
pub fn announced(deeds: &[(u64, Deed)], advance: u8) -> Vec<(u64, Deed)> {
    let mut line = Line { advance: advance.into(), free: 0, newest: None, deeds: Vec::new() };
    let end = deeds.last().map_or(0, |(sample, _)| *sample);
    for (&(sample, deed), next_pluck) in deeds.iter().zip(next_plucks(deeds)) {
        line.catch_up(sample, next_pluck);
        match deed {
            Deed::Bend(tuning) if sample >= line.free => line.announce(sample, tuning, next_pluck),
            Deed::Bend(tuning) => line.newest = Some(tuning),
            Deed::Pluck(..) => {
                line.newest = None;
                line.deeds.push((sample, deed));
            }
            Deed::Release => line.deeds.push((sample, deed)),
        }
    }
    line.catch_up(end, None);
    line.deeds
}

/// At each deed the sample of the next pluck, which may be the deed itself.
fn next_plucks(deeds: &[(u64, Deed)]) -> Vec<Option<u64>> {
    let mut next = None;
    let mut plucks: Vec<Option<u64>> = deeds
        .iter()
        .rev()
        .map(|&(sample, deed)| {
            if matches!(deed, Deed::Pluck(..)) {
                next = Some(sample);
            }
            next
        })
        .collect();
    plucks.reverse();
    plucks
}

#[cfg(test)]
mod tests {
    use super::*;

    fn bend(delay: u16) -> Deed {
        Deed::Bend(Tuning { length: 99, delay })
    }

    #[test]
    fn the_newest_is_kept_while_one_waits() {
        let deeds = [(0, bend(1)), (5, bend(2)), (9, bend(3)), (30, Deed::Release)];
        let played = announced(&deeds, 24);
        assert_eq!(played, [(0, bend(1)), (24, bend(3)), (30, Deed::Release)]);
        assert_eq!(announced(&deeds, 0), deeds);
    }

    #[test]
    fn none_waits_at_a_pluck() {
        let pluck = Deed::Pluck(Tuning { length: 98, delay: 5 }, 9);
        let deeds = [(0, bend(1)), (10, bend(2)), (40, pluck), (41, bend(3))];
        assert_eq!(announced(&deeds, 24), [(0, bend(1)), (40, pluck), (41, bend(3))]);
        assert_eq!(announced(&deeds, 15)[..3], [(0, bend(1)), (15, bend(2)), (40, pluck)]);
        assert_eq!(announced(&[(20, bend(1)), (40, pluck)], 24), [(40, pluck)]);
    }
}
