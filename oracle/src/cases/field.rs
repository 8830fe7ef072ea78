//! Random values for each field: values within the limits, and values on and beyond them.

use super::random::Random;
use crate::thiran::{delay_range, ORDERS};

/// A value on a limit or beyond it: lowest, lowest less 1, highest, highest and 1, 0, 1, 65,535
/// and the greatest number of the field.
pub fn boundary(random: &mut Random, lowest: u32, highest: u32, greatest: u32) -> u32 {
    let (below, above) = (lowest.saturating_sub(1), highest.saturating_add(1));
    let values = [lowest, below, highest, above, 0, 1, 65_535, greatest];
    random.pick(&values).min(greatest)
}

/// A boundary value of d for this order, or for another one.
pub fn boundary_delay(random: &mut Random, order: u32, greatest: u32) -> u32 {
    let other = self::order(random);
    let order = if ORDERS.contains(&order) && !random.one_in(4) { order } else { other };
    let range = delay_range(order);
    boundary(random, *range.start(), *range.end(), greatest)
}

/// An order.
pub fn order(random: &mut Random) -> u32 {
    random.between(*ORDERS.start(), *ORDERS.end())
}

/// A length, often short, so that a few steps pass the loop many times.
pub fn length(random: &mut Random) -> u32 {
    match random.below(8) {
        0..=3 => random.between(1, 8),
        4..=5 => random.between(1, 40),
        6 => random.between(1, 200),
        _ => random.between(1, 2_048),
    }
}

/// A length at the upper limit.
pub fn long_length(random: &mut Random) -> u32 {
    random.pick(&[2_048, 2_048, 2_047, 2_046, 2_040, 2_000])
}

/// A delay that the order takes, a quarter of them on its limits.
pub fn delay(random: &mut Random, order: u32) -> u32 {
    let range = delay_range(order);
    match random.below(8) {
        0 => *range.start(),
        1 => *range.end(),
        2 => 4_096 * order,
        _ => random.between(*range.start(), *range.end()),
    }
}

/// A loss, often near to 1, so that the sound lasts.
pub fn loss(random: &mut Random) -> u32 {
    match random.below(8) {
        0..=2 => 65_535,
        3 => 0,
        4 => 32_768,
        5 => random.between(64_000, 65_535),
        _ => random.between(0, 65_535),
    }
}

/// An advance, a half of them on the limits.
pub fn advance(random: &mut Random) -> u32 {
    match random.below(8) {
        0..=1 => 0,
        2..=3 => 64,
        4..=5 => random.between(1, 8),
        _ => random.between(0, 64),
    }
}

/// An amplitude.
pub fn amplitude(random: &mut Random) -> u32 {
    match random.below(8) {
        0 => 0,
        1 => 1,
        2..=4 => 255,
        _ => random.between(0, 255),
    }
}

/// A count of a pluck, most of them short.
pub fn count(random: &mut Random) -> u32 {
    match random.below(8) {
        0 => 1,
        1 => 2_048,
        _ => random.between(1, 100),
    }
}

/// A seed of at most this number.
pub fn seed(random: &mut Random, greatest: u32) -> u32 {
    match random.below(4) {
        0 => 0,
        1 => greatest,
        _ => random.between(0, greatest),
    }
}
