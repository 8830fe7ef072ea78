//! Section "Coefficients": the maximally flat allpass by equation (3) of source document 002.

use crate::number::nearest;
use crate::refusal::{require, Answer, Refusal};
use std::ops::RangeInclusive;

/// "A delay D is d/4,096 of a sample, d whole."
pub const SAMPLE: i128 = 4_096;

/// "A1 and A2 are 65,536 times a1 and a2".
const UNIT: i128 = 65_536;

/// "The order N is 1 or 2"; "an order outside 1 to 3" is refused (document 02, L5).
pub const ORDERS: RangeInclusive<u32> = 1..=3;

/// Refusal 1.
pub fn test_order(order: u32) -> Answer {
    require(ORDERS.contains(&order), Refusal::Order)
}

/// "Order 1 takes d from 2,049 to 6,144, order 2 from 6,145 to 10,240." "Order 3 takes d from 10,241
/// to 14,336" (document 02, L5).
pub fn delay_range(order: u32) -> RangeInclusive<u32> {
    match order {
        1 => 2_049..=6_144,
        2 => 6_145..=10_240,
        3 => 10_241..=14_336,
        _ => panic!("the order is tested first"),
    }
}

/// "3 d ... outside the limits", for an order that has passed test 1.
pub fn test_delay(order: u32, d: u32) -> Answer {
    require(delay_range(order).contains(&d), Refusal::Delay)
}

/// The binomial coefficient C(n, k).
fn binomial(n: i128, k: i128) -> i128 {
    (1..=k).fold(1, |product, i| product * (n - k + i) / i)
}

/// 002 equation (3): "a_k = (-1)^k C(N, k) prod_{n=0}^{N} (D - N + n)/(D - N + k + n)", where
/// D is d/4,096, as an exact fraction (numerator, denominator) with the denominator above 0.
/// Every factor is multiplied by 4,096 above and below. `k` is 1 to N.
fn equation_3(order: i128, k: i128, d: i128) -> (i128, i128) {
    let sign = if k % 2 == 0 { 1 } else { -1 };
    let mut numerator = sign * binomial(order, k);
    let mut denominator = 1;
    for n in 0..=order {
        numerator *= d + SAMPLE * (n - order);
        denominator *= d + SAMPLE * (k + n - order);
    }
    (numerator, denominator)
}

/// A1 to AN for an order and a delay within the limits: "A1 and A2 are 65,536 times a1 and a2,
/// rounded to the nearest whole number, a half going upward, worked out from d exactly."
pub fn exact_coefficients(order: u32, d: u32) -> Vec<i128> {
    let order = i128::from(order);
    let one = |k| {
        let (numerator, denominator) = equation_3(order, k, i128::from(d));
        nearest(UNIT * numerator, denominator)
    };
    (1..=order).map(one).collect()
}

/// The call. "Coefficients: 1, 3; both come back 0." "Coefficient calls return A3 too, 0 when refused;
/// A3 and v3 are 0 below order 3" (document 02, L5). In order 1, "a2 = 0".
pub fn coefficients(order: u32, d: u32) -> (Answer, [i128; 3]) {
    let answer = test_order(order).and_then(|()| test_delay(order, d));
    let mut values = [0; 3];
    if answer.is_ok() {
        for (value, coefficient) in values.iter_mut().zip(exact_coefficients(order, d)) {
            *value = coefficient;
        }
    }
    (answer, values)
}
