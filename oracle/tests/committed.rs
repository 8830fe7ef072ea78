//! Demand 3 of committed changes (document 02, L3): the samples really taken stand in place of Na.

use oracle::allpass::Allpass;
use oracle::call::Call;
use oracle::click::{figure, history, History, Tally};
use oracle::tuning::Tuning;
use oracle::voice::Voice;

/// A block of so many zeros.
fn zeros(count: usize) -> Call {
    Call::Block { input: vec![0; count], places: count }
}

/// A sounding voice of order 2 that is asked for a change and commits it so many samples later.
fn committed(advance: u32, taken: usize) -> History {
    let (voice, _) = Voice::open(2, 20, 7_000, 65_535, advance);
    let list = [
        Call::Pluck { amplitude: 200, count: 300, seed: 5 },
        zeros(300),
        Call::Asked { to: Tuning { order: 2, length: 11, delay: 9_000 } },
        zeros(5),
        Call::Withdraw,
        Call::Asked { to: Tuning { order: 2, length: 17, delay: 10_000 } },
        zeros(taken),
        Call::Commit,
        zeros(100),
    ];
    history(&voice, &list)
}

/// The figure of a committed change has the samples really taken, and a withdrawn ask none.
#[test]
fn a_late_commit_only_tightens_it() {
    for (advance, taken) in [(0, 0), (0, 70), (2, 2), (2, 9), (24, 500), (64, 64), (64, 1_000)] {
        let mut history = committed(advance, taken);
        let mut tally = Tally::default();
        assert_eq!(history.check(&mut tally), Ok(()));
        assert_eq!((tally.changes, tally.steps), (1, 100));
        assert_eq!(tally.late, u64::from(taken > advance as usize));
        let [change] = &history.changes[..] else { panic!("one change") };
        assert_eq!((change.to.length, change.effect, change.taken), (17, 305 + taken, taken));
        let least = figure(2, taken, 0);
        history.y[305 + taken] += 2 * least + 1;
        assert!(history.check(&mut Tally::default()).is_err(), "Na {advance}, taken {taken}");
    }
}

/// An eliminator that stops at Na keeps the figure of Na and breaks that of the samples taken.
#[test]
fn an_eliminator_that_stops_at_the_advance_is_found() {
    let mut history = committed(2, 60);
    let mut filter = Allpass::at_rest(2, 10_000);
    for step in [305, 306] {
        filter.eliminate(history.s[step - 17]);
    }
    for m in 365..465 {
        history.y[m] = filter.filter(history.s[m - 17]);
    }
    assert!(history.check(&mut Tally::default()).is_err());
    history.changes[0].taken = 2;
    assert_eq!(history.check(&mut Tally::default()), Ok(()));
}

/// Of a committed change equality is claimed over what was read before the ask.
#[test]
fn equality_is_claimed_over_zeros_before_the_ask() {
    let (voice, _) = Voice::open(1, 3, 3_000, 65_535, 8);
    let list = [
        zeros(50),
        Call::Pluck { amplitude: 255, count: 9, seed: 1 },
        Call::Asked { to: Tuning { order: 1, length: 5, delay: 6_000 } },
        zeros(90),
        Call::Commit,
        zeros(40),
    ];
    let mut history = history(&voice, &list);
    let mut tally = Tally::default();
    assert_eq!(history.check(&mut tally), Ok(()));
    assert_eq!((tally.steps, tally.equal, tally.differing), (40, 40, 0));
    history.y[150] += 1;
    assert!(history.check(&mut Tally::default()).is_err());
}
