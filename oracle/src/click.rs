//! Section "The click figure": demand 3, checked on a list of calls.

use crate::advance::OwnFigures;
use crate::call::Call;
use crate::tuning::Tuning;
use crate::voice::{s_at, Voice};

/// An accepted change to a tuning N', L', d' with e, the step before which it takes effect, and the
/// number of samples that its second copy took before: Na, or for a committed one "the number of
/// samples the eliminator actually took, those put out between asking and committing".
#[derive(Clone, Debug)]
pub struct Change {
    pub to: Tuning,
    pub effect: usize,
    pub taken: usize,
}

/// A list of calls made from what Open returned: its order and Na, every s(n), the samples y(m) that
/// the blocks wrote, and the accepted changes in the order called, a committed one at its commit.
#[derive(Clone, Debug)]
pub struct History {
    pub order: u32,
    pub advance: u32,
    pub s: Vec<i128>,
    pub y: Vec<i128>,
    pub changes: Vec<Change>,
}

/// The greatest difference allowed at j.
type Bound = Box<dyn Fn(usize) -> i128>;

/// How much was compared: changes with at least one step, those of them to a higher and to a lower
/// order, those that were committed after more samples than Na, the steps of all, the steps at which
/// equality was claimed, and the steps at which y and the new filter differed.
#[derive(Clone, Copy, Debug, Default)]
pub struct Tally {
    pub changes: u64,
    pub raised: u64,
    pub lowered: u64,
    pub late: u64,
    pub steps: u64,
    pub equal: u64,
    pub differing: u64,
}

/// The greatest difference allowed: with k = floor((Na + j)/N), 3·2^(23 − k) where k is at most
/// 23, and 2 where k is larger. Of a committed change the samples taken stand "in place of Na". "The
/// bound is read with the order of the incoming filter" (document 02, L6).
pub fn figure(order: u32, taken: usize, j: usize) -> i128 {
    let k = (taken + j) / order as usize;
    if k <= 23 {
        3 << (23 - k)
    } else {
        2
    }
}

/// "s is worked out by the sample rule from what Open returned and the list alone". "An accepted
/// change called before step c takes effect before step e, where e is c + Na if it is announced and
/// c if it is instant." A committed one takes effect before the step of its commit; an ask that was
/// withdrawn is no change.
pub fn history(opened: &Voice, list: &[Call]) -> History {
    let mut voice = opened.clone();
    let (mut y, mut changes) = (Vec::new(), Vec::new());
    let advance = voice.advance as usize;
    let mut asked = None;
    for call in list {
        let c = voice.s.len();
        let made = call.make(&mut voice);
        if made.answer.is_err() {
            continue;
        }
        match *call {
            Call::Announced { to } => {
                changes.push(Change { to, effect: c + advance, taken: advance });
            }
            Call::Instant { to } => changes.push(Change { to, effect: c, taken: advance }),
            Call::Asked { to } => asked = Some((to, c)),
            Call::Commit => {
                let (to, began) = asked.take().expect("an accepted commit has its ask");
                changes.push(Change { to, effect: c, taken: c - began });
            }
            Call::Withdraw => asked = None,
            Call::Block { .. } => y.extend(made.output.iter().map(|sample| i128::from(*sample))),
            Call::Loss { .. } | Call::Pluck { .. } => {}
        }
    }
    let order = opened.tuning.order;
    History { order, advance: voice.advance, s: voice.s, y, changes }
}

impl History {
    /// "Before the second copy began, the new filter read s(i − L') for i from 0 to e − Na − 1, and
    /// nothing where e is at most Na." Of a committed change it began at the ask. Whether all of that
    /// is zero.
    fn read_zeros(&self, change: &Change) -> bool {
        let steps = change.effect.saturating_sub(change.taken);
        let length = i128::from(change.to.length);
        (0..steps as i128).all(|i| s_at(&self.s, i - length) == 0)
    }

    /// "The new filter has the change's L' and d'", and its order, "is at rest before step 0 and takes
    /// s(m − L') at every step m from 0. What is compared is y at step m". From e to before step `end`; `bound`
    /// is the figure at j.
    fn compare(
        &self,
        change: &Change,
        end: usize,
        bound: Bound,
        tally: &mut Tally,
    ) -> Result<(), String> {
        let equal = self.read_zeros(change);
        let Tuning { order, length, delay } = change.to;
        let mut new_filter = change.to.at_rest();
        for m in 0..end {
            let new = new_filter.filter(s_at(&self.s, m as i128 - i128::from(length)));
            if m < change.effect {
                continue;
            }
            let j = m - change.effect;
            let allowed = match equal {
                true => 0,
                false => bound(j),
            };
            let difference = (self.y[m] - new).abs();
            if difference > allowed {
                return Err(format!(
                    "change to order {order}, L {length}, d {delay} with e {}: at step {m} y is {}, \
                     the new filter gives {new}, allowed is {allowed}",
                    change.effect, self.y[m]
                ));
            }
            tally.steps += 1;
            tally.equal += u64::from(equal);
            tally.differing += u64::from(difference > 0);
        }
        Ok(())
    }

    /// Counts a change from this order that has at least one step.
    fn count(&self, change: &Change, from: u32, tally: &mut Tally) {
        tally.changes += 1;
        tally.raised += u64::from(change.to.order > from);
        tally.lowered += u64::from(change.to.order < from);
        tally.late += u64::from(change.taken > self.advance as usize);
    }

    /// Demand 3 for every change, from its effect to before the next one's. "Where two have the
    /// same e, the one called later is in force": the earlier one has no step. No change is
    /// accepted while another waits, so that e never falls along the list.
    pub fn check(&self, tally: &mut Tally) -> Result<(), String> {
        let by_figure = |change: &Change| -> Bound {
            let (order, taken) = (change.to.order, change.taken);
            Box::new(move |j| figure(order, taken, j))
        };
        self.check_by(by_figure, tally)
    }

    /// The same by the own figure of each change's tuning (docs/CLICK.md).
    pub fn check_own(&self) -> Result<(), String> {
        let by_own = |change: &Change| -> Bound {
            let (own, taken) = (OwnFigures::of(change.to.order, change.to.delay), change.taken);
            Box::new(move |j| own.figure(taken, j))
        };
        self.check_by(by_own, &mut Tally::default())
    }

    fn check_by(&self, bound: impl Fn(&Change) -> Bound, tally: &mut Tally) -> Result<(), String> {
        let mut order = self.order;
        for (index, change) in self.changes.iter().enumerate() {
            let next = self.changes.get(index + 1).map_or(self.y.len(), |next| next.effect);
            let end = next.min(self.y.len());
            self.compare(change, end, bound(change), tally)?;
            if change.effect < end {
                self.count(change, order, tally);
            }
            order = change.to.order;
        }
        Ok(())
    }
}
