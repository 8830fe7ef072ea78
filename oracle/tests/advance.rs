//! The own figure and the least advance by it.

use oracle::advance::{least, OwnFigures};
use oracle::call::Call;
use oracle::click::{figure, history};
use oracle::refusal::Refusal;
use oracle::thiran::{delay_range, ORDERS};
use oracle::tuning::Tuning;
use oracle::voice::Voice;

/// It is nowhere above the figure, and the least advance is enough where the one before is not.
#[test]
fn every_delay() {
    for order in ORDERS {
        for delay in delay_range(order) {
            let own = OwnFigures::of(order, delay);
            assert!((0..=200).all(|taken| own.figure(taken, 0) <= figure(order, taken, 0)));
            match least(order, delay, 2) {
                (Ok(()), na) => {
                    assert!(own.figure(na as usize, 0) <= 2);
                    assert!(na == 0 || own.figure(na as usize - 1, 0) > 2);
                }
                answer => {
                    assert_eq!(answer, (Err(Refusal::NoAdvance), 0));
                    assert!(order == 3 && own.figure(64, 0) > 2);
                }
            }
        }
    }
}

#[test]
fn literals() {
    for ((order, delay, wanted), na) in [
        ((1, 2_979, 2), 10),
        ((2, 7_075, 2), 24),
        ((3, 11_171, 2), 39),
        ((3, 13_465, 2), 39),
        ((3, 12_540, 2), 18),
        ((1, 2_049, 2), 16),
        ((2, 6_145, 2), 42),
        ((3, 10_388, 2), 63),
        ((3, 12_288, 0), 3),
        ((1, 4_096, 16_777_214), 0),
    ] {
        assert_eq!(least(order, delay, wanted), (Ok(()), na), "{order} {delay} {wanted}");
    }
    assert_eq!(least(0, 4_096, 2), (Err(Refusal::Order), 0));
    assert_eq!(least(1, 2_048, 2), (Err(Refusal::Delay), 0));
    assert_eq!(least(3, 10_387, 2), (Err(Refusal::NoAdvance), 0));
}

/// One sample more than the own figure is found, which the figure allows.
#[test]
fn one_sample_too_far_off_is_found() {
    let to = Tuning { order: 1, length: 17, delay: 3_000 };
    let zeros = |count| Call::Block { input: vec![0; count], places: count };
    let (voice, _) = Voice::open(1, 20, 4_000, 65_535, 4);
    let pluck = Call::Pluck { amplitude: 200, count: 300, seed: 5 };
    let mut history = history(&voice, &[pluck, zeros(300), Call::Instant { to }, zeros(100)]);
    assert_eq!(history.check_own(), Ok(()));
    let mut filter = to.at_rest();
    let sample = |i: usize| i.checked_sub(17).map_or(0, |at| history.s[at]);
    let new = (0..=302).map(|i| filter.filter(sample(i))).last().expect("a step");
    history.y[302] = new + OwnFigures::of(1, 3_000).figure(4, 2);
    assert_eq!(history.check_own(), Ok(()));
    history.y[302] += 1;
    assert!(history.check_own().is_err());
    assert_eq!(history.check(&mut Default::default()), Ok(()));
}
