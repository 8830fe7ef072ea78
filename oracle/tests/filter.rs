//! The coefficients over all delays, the filter's limits and the octave.

use oracle::allpass::{effective_length, Allpass};
use oracle::note::{note, octave};
use oracle::number::{nearest, r, M};
use oracle::refusal::number;
use oracle::thiran::{coefficients, delay_range, exact_coefficients, ORDERS};

/// "Order 1: a1 = (1 − D)/(1 + D); a2 = 0."
#[test]
fn order_1_is_the_written_form() {
    for d in 2_049..=6_144_i128 {
        let a1 = nearest(65_536 * (4_096 - d), 4_096 + d);
        assert_eq!(coefficients(1, d as u32), (Ok(()), [a1, 0, 0]), "d {d}");
    }
}

/// "Order 2: a1 = −2(D − 2)/(D + 1); a2 = (D − 1)(D − 2)/((D + 1)(D + 2))."
#[test]
fn order_2_is_the_written_form() {
    for d in 6_145..=10_240_i128 {
        let a1 = nearest(65_536 * -2 * (d - 8_192), d + 4_096);
        let a2 = nearest(65_536 * (d - 4_096) * (d - 8_192), (d + 4_096) * (d + 8_192));
        assert_eq!(coefficients(2, d as u32), (Ok(()), [a1, a2, 0]), "d {d}");
    }
}

/// Order 3, by 002 equation (3) (document 02, L5): a1 = −3(D − 3)/(D + 1);
/// a2 = 3(D − 2)(D − 3)/((D + 1)(D + 2)); a3 = −(D − 1)(D − 2)(D − 3)/((D + 1)(D + 2)(D + 3)).
#[test]
fn order_3_is_the_written_form() {
    for d in 10_241..=14_336_i128 {
        let a1 = nearest(65_536 * -3 * (d - 12_288), d + 4_096);
        let a2 = nearest(65_536 * 3 * (d - 8_192) * (d - 12_288), (d + 4_096) * (d + 8_192));
        let top = -(d - 4_096) * (d - 8_192) * (d - 12_288);
        let a3 = nearest(65_536 * top, (d + 4_096) * (d + 8_192) * (d + 12_288));
        assert_eq!(coefficients(3, d as u32), (Ok(()), [a1, a2, a3]), "d {d}");
    }
}

/// "In both orders |A1| + |A2| is at most 32,768"; "the limit 32,768 .. for N = 1, 2 and 3" (L5).
#[test]
fn sum_of_magnitudes() {
    for order in ORDERS {
        for d in delay_range(order) {
            let sum: i128 = exact_coefficients(order, d).iter().map(|a| a.abs()).sum();
            assert!(sum <= 32_768, "order {order}, d {d}");
            // so that 3 times it is below 65,536: docs/SILENCE.md
            assert!(order > 1 || sum <= 21_831, "d {d}");
        }
    }
}

/// "With f a sample, |w| never passes 2M": inputs that drive w as far as they can.
#[test]
fn w_stays_within_2m() {
    for order in ORDERS {
        for d in delay_range(order).step_by(5) {
            let mut eliminator = Allpass::at_rest(order, d);
            let a = exact_coefficients(order, d);
            for _ in 0..50 {
                let sum: i128 = a.iter().zip(eliminator.state()).map(|(a, v)| a * v).sum();
                let w = eliminator.eliminate(if r(sum) > 0 { -M } else { M });
                assert!(w.abs() <= 2 * M, "order {order}, d {d}");
            }
        }
    }
}

#[test]
fn refused_values_are_zero() {
    for (order, d, refusal) in [(0, 4_096, 1), (4, 16_384, 1), (1, 2_048, 3), (3, 14_337, 3)] {
        let (answer, values) = coefficients(order, d);
        assert_eq!((number(&answer), values), (refusal, [0, 0, 0]));
        let (answer, length) = effective_length(order, d, 0);
        assert_eq!((number(&answer), length), (refusal, 0));
    }
}

/// The table that the twelfth-power rule gives.
#[test]
fn the_octave() {
    let table = [
        16777216, 17774841, 18831788, 19951585, 21137968, 22394897, 23726566, 25137421, 26632170,
        28215802, 29893600, 31671166,
    ];
    assert_eq!(octave(), table);
}

#[test]
fn refused_notes() {
    let answers = [(0, 0, 128, 1), (1, 7_999, 128, 11), (1, 192_001, 0, 11), (2, 8_000, 128, 12)];
    for (order, rate, m, refusal) in answers {
        let (answer, values) = note(order, rate, m);
        assert_eq!((number(&answer), values), (refusal, [0, 0]));
    }
    assert_eq!(number(&note(1, 8_000, 127).0), 13);
    assert_eq!(number(&note(1, 192_000, 0).0), 13);
}
