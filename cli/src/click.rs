//! The click figures: how far the first sample after a change can be from that of a filter of the new
//! tuning that had been there since the beginning, by the sheet and by the tuning's own coefficients.
//! crates/rule proves them; docs/CLICK.md explains them.

use crate::tuning::{delays, Tuning};
use jivaszte::Refusal;

/// The greatest advance.
pub const MOST_ADVANCE: u32 = 64;
/// From this k on the figure is 2.
const LAST_HALVING: u32 = 24;

/// 3 × 2^(23 − k), and 2 from k = 24 on, where k is the whole part of Na/N; in units of a sample.
pub fn figure(order: u32, advance: u32) -> u32 {
    match advance / order {
        k if k < LAST_HALVING => 3 << (LAST_HALVING - 1 - k),
        _ => 2,
    }
}

/// The least advance with which the figure is as small as it gets; the greatest where that is less.
pub fn best_advance(order: u32) -> u32 {
    MOST_ADVANCE.min(LAST_HALVING.saturating_mul(order))
}

/// How many samples after a change the figure is as small as it gets, with this advance.
pub fn samples_to_best(order: u32, advance: u32) -> u32 {
    LAST_HALVING.saturating_mul(order).saturating_sub(advance)
}

/// What both figures come to when an advance is enough, in units of a sample.
pub const WITHIN: u32 = 2;
/// b(0): both states are within twice the full scale.
const FARTHEST: u64 = 16_777_214;

/// What the coefficients of a tuning add up to, in units of 1/65,536.
fn norm(order: u32, delay: u32) -> Result<u64, Refusal> {
    let coefficients = jivaszte::coefficients(order, delay)?;
    Ok(coefficients.iter().map(|a| u64::from(a.unsigned_abs())).sum())
}

/// b(k) + b(k + 1), with b(k + 1) = n·b(k)/65,536, upward, for what the coefficients add up to.
fn figure_of(norm: u64, k: u32) -> u32 {
    let share = |b: u64| (norm * b).div_ceil(65_536);
    let b = (0..k).fold(FARTHEST, |b, _| share(b));
    (b + share(b)) as u32
}

/// The own figure of a tuning.
pub fn own_figure(order: u32, delay: u32, advance: u32) -> Result<u32, Refusal> {
    Ok(figure_of(norm(order, delay)?, advance / order))
}

/// The greatest own figure of an order's delays: the one of the greatest coefficients.
pub fn greatest_own_figure(order: u32, advance: u32) -> u32 {
    let norm = delays(order).filter_map(|delay| norm(order, delay).ok()).max();
    figure_of(norm.unwrap_or_default(), advance / order)
}

/// The proved least advance with which a change to a tuning is within 2; none where 64 is not enough.
pub fn least_advance(order: u32, delay: u32) -> Result<Option<u32>, Refusal> {
    match jivaszte::least_advance(order, delay, WITHIN) {
        Err(Refusal::NoAdvance) => Ok(None),
        answer => answer.map(Some),
    }
}

/// The least advance that is enough for changes to all these tunings; none where one of them has none. A
/// tuning that a run refuses asks for nothing.
pub fn enough_for(order: u32, tunings: &[Tuning]) -> Option<u32> {
    let least = |tuning: &Tuning| least_advance(order, tuning.delay.into()).unwrap_or(Some(0));
    tunings.iter().map(least).try_fold(0, |most, advance| Some(advance?.max(most)))
}

#[cfg(test)]
mod tests {
    use super::*;
    use crate::number::{decibels, grouped};
    use crate::take::FULL_SCALE;

    /// The table of docs/CLICK.md, row by row.
    #[test]
    fn figures_are_those_of_the_table() {
        let document = include_str!("../../docs/CLICK.md");
        for advance in [0, 8, 16, 24, 32, 48, 64] {
            let cell = |order| {
                let units = figure(order, advance);
                let level = decibels(units.into(), FULL_SCALE.into());
                format!("{} | {level:.1} dB", grouped(units.into())).replace('-', "−")
            };
            let row = format!("| {advance} | {} | {} | {} |", cell(1), cell(2), cell(3));
            assert!(document.contains(&row), "{row}");
        }
        assert_eq!((best_advance(1), best_advance(2), best_advance(3)), (24, 48, 64));
        assert_eq!([1, 2, 3].map(|order| samples_to_best(order, 64)), [0, 0, 8]);
        assert_eq!((figure(3, 64), figure(3, 64 + samples_to_best(3, 64))), (12, 2));
    }

    /// The own figure is reckoned here and in the library, and never exceeds the sheet's.
    #[test]
    fn own_figures_are_the_librarys() {
        for order in 1..=3 {
            for delay in delays(order) {
                let own = |advance| own_figure(order, delay, advance).unwrap();
                let found = (0..=MOST_ADVANCE).find(|&advance| own(advance) <= WITHIN);
                assert_eq!(least_advance(order, delay), Ok(found), "order {order}, d {delay}");
                assert!((0..=MOST_ADVANCE).all(|advance| own(advance) <= figure(order, advance)));
            }
        }
        let at_most = [(1, 16), (2, 42), (3, 64)].map(|(order, na)| greatest_own_figure(order, na));
        assert_eq!(at_most, [2, 2, 6]);
    }
}
