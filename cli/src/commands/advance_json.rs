//! What `advance` tells, as JSON.

use crate::click::{best_advance, figure, MOST_ADVANCE};
use crate::json::{list, object};
use crate::number::decibels;
use crate::take::FULL_SCALE;
use crate::tuning::delays;

/// What the response of the effective length starts from, and the levels at which it is told.
const IMPULSE: u32 = 1_000_000;
const THRESHOLDS: [u32; 6] = [100_000, 10_000, 1_000, 100, 10, 1];

pub fn json(order: u32, delay: Option<u32>) -> String {
    let bound = |advance: u32| {
        let units = figure(order, advance);
        let level = decibels(units.into(), FULL_SCALE.into());
        object(&[
            ("advance", advance.to_string()),
            ("units", units.to_string()),
            ("dB", format!("{level:.1}")),
        ])
    };
    let range = delay.map_or(delays(order), |delay| delay..=delay);
    let length = |threshold: u32| {
        let lengths = range.clone().map(|d| jivaszte::effective_length(order, d, threshold));
        let longest = lengths.flatten().max().unwrap_or_default();
        let level = decibels(threshold.into(), IMPULSE.into());
        object(&[("dB", format!("{level:.0}")), ("samples", longest.to_string())])
    };
    object(&[
        ("order", order.to_string()),
        ("take", best_advance(order).to_string()),
        ("bounds", list((0..=MOST_ADVANCE).map(bound))),
        ("effective_lengths", list(THRESHOLDS.map(length))),
    ]) + "\n"
}
