//! What a slide's own steps add above 12 kHz: below the level that docs/SCORES.md states, where the slide has
//! the time for it.

use jivaszte_cli::number::decibels;
use jivaszte_cli::take::{self, FULL_SCALE};
use jivaszte_cli::text::compile;
use std::f64::consts::TAU;

const RATE: u32 = 44_100;
const LEVEL: f64 = -60.0;

/// The samples through a filter that passes what is above 12 kHz: a sinc under Blackman's window.
fn above_12_khz(samples: &[i32]) -> Vec<f64> {
    let (half, edge) = (100i32, 12_000.0 / f64::from(RATE));
    let tap = |n: i32| {
        let x = TAU * edge * f64::from(n);
        let low = if n == 0 { 2.0 * edge } else { x.sin() / (TAU / 2.0 * f64::from(n)) };
        let turn = TAU / 2.0 * f64::from(n) / f64::from(half);
        let window = 0.42 + 0.5 * turn.cos() + 0.08 * (2.0 * turn).cos();
        window * (f64::from(u8::from(n == 0)) - low)
    };
    let taps: Vec<f64> = (-half..=half).map(tap).collect();
    let product = |part: &[i32]| part.iter().zip(&taps).map(|(y, tap)| f64::from(*y) * tap).sum();
    samples.windows(taps.len()).map(product).collect()
}

/// The level of a slide above 12 kHz, in decibels of full scale; `None` where the text tells that it is too fast.
fn level(from: &str, to: &str, seconds: f64, steps: &str) -> Option<f64> {
    let text = format!(
        "rate {RATE}\nloss 0.998\ntune {from}\npluck 180\nwait 0.2s\nslide {to} over {seconds}s{steps}\nwait 1s\n"
    );
    let compiled = compile(&text, None).unwrap();
    let bytes = compiled.score.encode();
    let take = take::run(&bytes, take::room(take::length(&bytes)).unwrap()).unwrap();
    let begin = RATE as usize / 5;
    let heard = above_12_khz(&take[begin..begin + (seconds * f64::from(RATE)) as usize]);
    let power = heard.iter().map(|y| y * y).sum::<f64>() / heard.len() as f64;
    compiled.remarks.is_empty().then(|| decibels(power.sqrt(), FULL_SCALE.into()))
}

#[test]
fn slides_stay_below_the_stated_level() {
    let document = include_str!("../../docs/SCORES.md");
    assert!(document.contains("below −60 dB of full scale above 12 kHz"));
    let mut told = 0;
    for (from, to) in [("E2", "B2"), ("B2", "E2"), ("A3", "E4"), ("A3", "A4"), ("D3", "E3")] {
        for seconds in [0.05, 0.25, 0.5] {
            match level(from, to, seconds, "") {
                Some(level) => assert!(level < LEVEL, "{from} {to} {seconds}: {level}"),
                None => told += 1,
            }
        }
    }
    assert!((4..10).contains(&told), "{told}");
}

/// Fewer steps are louder: so the level is the steps' own.
#[test]
fn more_steps_are_quieter() {
    let level = |steps: &str| level("A3", "E4", 0.4, steps).unwrap();
    let (few, many) = (level(" steps 20"), level(" steps 735"));
    assert!(few > many + 6.0, "{few} {many}");
}
