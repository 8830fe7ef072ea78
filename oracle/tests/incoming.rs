//! Demand 3 of changes of the order (document 02, L6): the order of the incoming filter counts.

use oracle::call::Call;
use oracle::click::{figure, history, History, Tally};
use oracle::tuning::Tuning;
use oracle::voice::Voice;

/// A block of so many zeros.
fn zeros(count: usize) -> Call {
    Call::Block { input: vec![0; count], places: count }
}

/// A sounding voice of an order that changes to another, by a call of each kind; the asked one is committed
/// on the sample.
fn changed(from: Tuning, to: Tuning, advance: u32, kind: usize) -> History {
    let (voice, answer) = Voice::open(from.order, from.length, from.delay, 65_535, advance);
    assert_eq!(answer, Ok(()));
    let mut list = vec![Call::Pluck { amplitude: 200, count: 300, seed: 5 }, zeros(300)];
    match kind {
        0 => list.extend([Call::Announced { to }, zeros(advance as usize)]),
        1 => list.push(Call::Instant { to }),
        _ => list.extend([Call::Asked { to }, zeros(advance as usize), Call::Commit]),
    }
    list.push(zeros(100));
    history(&voice, &list)
}

/// The tunings of the orders, by order less 1.
const TUNINGS: [Tuning; 3] = [
    Tuning { order: 1, length: 20, delay: 3_000 },
    Tuning { order: 2, length: 17, delay: 6_200 },
    Tuning { order: 3, length: 14, delay: 14_000 },
];

/// "The bound is read with the order of the incoming filter": it holds with that order, and one sample more
/// than it is found, also where the order in force before would have allowed it.
#[test]
fn the_figure_has_the_order_of_the_incoming_filter() {
    for (from, to) in TUNINGS.into_iter().flat_map(|from| TUNINGS.map(|to| (from, to))) {
        for (advance, kind) in
            [0, 1, 2, 7, 24, 64].into_iter().flat_map(|a| [0, 1, 2].map(|k| (a, k)))
        {
            let mut history = changed(from, to, advance, kind);
            let mut tally = Tally::default();
            assert_eq!(history.check(&mut tally), Ok(()));
            assert_eq!((tally.changes, tally.steps), (1, 100));
            let moved = (u64::from(to.order > from.order), u64::from(to.order < from.order));
            assert_eq!((tally.raised, tally.lowered), moved);
            let [change] = &history.changes[..] else { panic!("one change") };
            assert_eq!((change.to, change.taken), (to, advance as usize));
            let (m, taken) = (change.effect + 5, change.taken);
            let mut new_filter = to.at_rest();
            let sample = |i: usize| i.checked_sub(to.length as usize).map_or(0, |at| history.s[at]);
            let new = (0..=m).map(|i| new_filter.filter(sample(i))).last().expect("a step");
            history.y[m] = new + figure(to.order, taken, 5);
            assert_eq!(history.check(&mut Tally::default()), Ok(()));
            history.y[m] += 1;
            assert!(history.check(&mut Tally::default()).is_err(), "{from:?} {to:?} {advance}");
        }
    }
}

/// Over zeros the new filter does not differ at all, whatever its order.
#[test]
fn equality_is_claimed_over_zeros() {
    for (from, to) in TUNINGS.into_iter().flat_map(|from| TUNINGS.map(|to| (from, to))) {
        let (voice, _) = Voice::open(from.order, from.length, from.delay, 65_535, 8);
        let mut list = vec![zeros(50), Call::Pluck { amplitude: 255, count: 9, seed: 1 }];
        list.extend([Call::Announced { to }, zeros(40)]);
        let mut tally = Tally::default();
        assert_eq!(history(&voice, &list).check(&mut tally), Ok(()));
        assert_eq!((tally.steps, tally.equal, tally.differing), (32, 32, 0));
    }
}
