//! What is heard: slides are played to their end, and a string sounds at the pitch that is told.

mod common;

use common::Random;
use jivaszte_cli::pitch::{cents_above, Pitch};
use jivaszte_cli::sounding;
use jivaszte_cli::take::{self, Refused};
use jivaszte_cli::text::compile;
use jivaszte_cli::tuning::ORDERS;
use std::f64::consts::TAU;

const RATE: u32 = 44_100;

fn play(text: &str) -> Option<Result<Vec<i32>, Refused>> {
    let bytes = compile(text, None).ok()?.score.encode();
    let room = take::room(take::length(&bytes)).unwrap();
    Some(take::run(&bytes, room))
}

/// Whatever stands before and after a slide: where the text compiles, no change of it is refused.
#[test]
fn slides_are_never_refused() {
    let notes = ["A3", "E4", "G4", "C5+30c", "220Hz"];
    let (mut played, mut told) = (0, 0);
    for seed in 0..400 {
        let mut random = Random::new(seed);
        let order = 1 + random.below(3);
        let advance = random.below(65);
        let mut text = format!("order {order}\nadvance {advance}\ntune A3\n");
        for _ in 0..6 {
            let (note, samples) = (random.pick(&notes), 1 + random.below(2_000));
            let steps = random.pick(&["", " steps 1", " steps 7", " steps 30"]);
            text += &match random.below(4) {
                0 => format!("to {note}\nslide A3 over {samples} samples{steps}\n"),
                1 => format!("slide {note} over {samples} samples{steps}\njump A3\n"),
                _ => format!("slide {note} over {samples} samples{steps}\n"),
            };
        }
        match play(&text) {
            Some(take) => {
                played += 1;
                assert!(take.is_ok(), "seed {seed}: {take:?}\n{text}");
            }
            None => told += 1,
        }
    }
    assert!(played > 50 && told > 50, "{played} {told}");
}

/// The phase of a sine of `hertz` in some of the samples, through a Hann window.
fn phase(samples: &[i32], hertz: f64) -> f64 {
    let (mut real, mut imaginary) = (0.0, 0.0);
    for (n, sample) in samples.iter().enumerate() {
        let window = 0.5 - 0.5 * (TAU * n as f64 / samples.len() as f64).cos();
        let angle = TAU * hertz * n as f64 / f64::from(RATE);
        real += window * f64::from(*sample) * angle.cos();
        imaginary -= window * f64::from(*sample) * angle.sin();
    }
    imaginary.atan2(real)
}

/// The frequency of the strongest sine near `hertz`: by how much its phase moves in 20,000 samples.
fn measured(samples: &[i32], hertz: f64) -> f64 {
    let (window, apart) = (16_384, 20_000);
    let turn = TAU * hertz * apart as f64 / f64::from(RATE);
    let moved = phase(&samples[apart..apart + window], hertz) - phase(&samples[..window], hertz);
    let past = (moved - turn).rem_euclid(TAU);
    let past = if past > TAU / 2.0 { past - TAU } else { past };
    hertz + past * f64::from(RATE) / TAU / apart as f64
}

#[test]
fn strings_sound_at_the_pitch_that_is_told() {
    for order in ORDERS {
        for name in ["E2", "A3", "A4", "C#5", "A5", "E6", "A6+30c"] {
            let text = format!(
                "order {order}\nloss 0.9999\ntune {name}\npluck 120 for 60 seed 0\nwait 1.2s\n"
            );
            let take = play(&text).unwrap().unwrap();
            let tuning = Pitch::named(name).unwrap().tuning(order, RATE).unwrap();
            let told = sounding::hertz(order, RATE, tuning).unwrap();
            let off = cents_above(measured(&take[10_000..], told), told);
            assert!(off.abs() < 0.1, "order {order}, {name}: {told} Hz told, {off} cents off");
        }
    }
}
