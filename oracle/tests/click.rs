//! Demand 3: the figure, and that the check finds what breaks it.

use oracle::allpass::Allpass;
use oracle::call::Call;
use oracle::click::{figure, history, History, Tally};
use oracle::tuning::Tuning;
use oracle::voice::Voice;

/// A block of so many zeros.
fn zeros(count: usize) -> Call {
    Call::Block { input: vec![0; count], places: count }
}

fn tuning(order: u32, length: u32, delay: u32) -> Tuning {
    Tuning { order, length, delay }
}

/// A sounding voice of order 2 with one change of each kind.
fn sounding(advance: u32) -> History {
    let (voice, _) = Voice::open(2, 20, 7_000, 65_535, advance);
    let list = [
        Call::Pluck { amplitude: 200, count: 300, seed: 5 },
        zeros(300),
        Call::Announced { to: tuning(2, 17, 6_200) },
        zeros(200),
        Call::Instant { to: tuning(2, 3, 10_000) },
        zeros(100),
    ];
    history(&voice, &list)
}

#[test]
fn the_figure() {
    assert_eq!(figure(1, 0, 0), 3 << 23);
    assert_eq!(figure(1, 0, 23), 3);
    assert_eq!(figure(1, 0, 24), 2);
    assert_eq!(figure(2, 0, 1), 3 << 23);
    assert_eq!(figure(2, 10, 1), 3 << 18);
    assert_eq!(figure(2, 64, 0), 2);
}

#[test]
fn it_holds_with_every_advance() {
    for advance in 0..=64 {
        let history = sounding(advance);
        let mut tally = Tally::default();
        assert_eq!(history.check(&mut tally), Ok(()));
        assert_eq!((tally.changes, tally.steps), (2, 300 - u64::from(advance)));
    }
}

#[test]
fn one_sample_too_far_off_is_found() {
    for m in [364, 400, 499, 500, 599] {
        let mut history = sounding(64);
        history.y[m] += 5;
        assert!(history.check(&mut Tally::default()).is_err(), "step {m}");
    }
}

/// "a voice that clears its state at each change": the new filter from rest at e.
#[test]
fn a_cleared_state_is_found() {
    let mut history = sounding(64);
    let mut filter = Allpass::at_rest(2, 10_000);
    for m in 500..600 {
        history.y[m] = filter.filter(history.s[m - 3]);
    }
    assert!(history.check(&mut Tally::default()).is_err());
}

/// Equality where the new filter read zeros only before the second copy began.
#[test]
fn equality_is_claimed_over_zeros() {
    let (voice, _) = Voice::open(1, 3, 3_000, 65_535, 8);
    let mut list = vec![zeros(50), Call::Pluck { amplitude: 255, count: 9, seed: 1 }];
    list.extend([Call::Announced { to: tuning(1, 5, 6_000) }, zeros(40)]);
    let mut history = history(&voice, &list);
    let mut tally = Tally::default();
    assert_eq!(history.check(&mut tally), Ok(()));
    assert_eq!((tally.steps, tally.equal, tally.differing), (32, 32, 0));
    history.y[80] += 1;
    assert!(history.check(&mut Tally::default()).is_err());
}

/// "Where two have the same e, the one called later is in force."
#[test]
fn the_later_of_two_changes_is_compared() {
    let (voice, _) = Voice::open(1, 3, 3_000, 65_535, 0);
    let mut list = vec![Call::Block { input: vec![1_000_000, 0, 0, 0], places: 4 }];
    list.extend([2, 4].map(|length| Call::Announced { to: tuning(1, length, 5_000) }));
    list.push(zeros(30));
    let history = history(&voice, &list);
    let mut tally = Tally::default();
    assert_eq!(history.check(&mut tally), Ok(()));
    assert_eq!((tally.changes, tally.steps), (1, 30));
}
