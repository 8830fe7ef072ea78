//! A string that is plucked again and again stays around zero, and what does not is told.

use jivaszte_cli::meter::{Meter, MEAN_BOUND};
use jivaszte_cli::take::{self, FULL_SCALE};
use jivaszte_cli::text::compile;

const RATE: u32 = 44_100;

fn take(text: &str) -> Vec<i32> {
    let bytes = compile(text, None).unwrap().score.encode();
    take::run(&bytes, take::room(take::length(&bytes)).unwrap()).unwrap()
}

fn mean(samples: &[i32]) -> f64 {
    samples.iter().map(|&sample| f64::from(sample)).sum::<f64>()
        / samples.len() as f64
        / f64::from(FULL_SCALE)
}

/// 24 plucks at a loss of 0.999.
fn plucks(note: &str, pluck: &str) -> Vec<i32> {
    take(&format!("loss 0.999\ntune {note}\n{}", format!("{pluck}\nwait 0.3s\n").repeat(24)))
}

#[test]
fn plucks_without_a_seed_do_not_drift() {
    for (note, pluck) in
        [("A3", "pluck 120"), ("E2", "pluck 80 for 300"), ("E4", "pluck 90 for 40")]
    {
        let samples = plucks(note, pluck);
        let means = samples.chunks_exact(3 * RATE as usize).map(mean);
        let worst = means.fold(0f64, |most, mean| most.max(mean.abs()));
        assert!(worst < 0.001, "{note} {pluck}: {worst}");
        let mut meter = Meter::new(RATE);
        meter.hear(&samples);
        assert_eq!(meter.words(), [""; 0], "{note} {pluck}");
    }
}

/// Seed 0 drifts, as it always did, and is told.
#[test]
fn a_drift_is_told() {
    let samples = plucks("A3", "pluck 120 seed 0");
    assert!(mean(&samples[6 * RATE as usize..]) < -10.0 * MEAN_BOUND);
    let mut meter = Meter::new(RATE);
    meter.hear(&samples);
    assert!(
        meter.words().last().unwrap().starts_with("the mean leaves 0.01 at 0."),
        "{:?}",
        meter.words()
    );
}
