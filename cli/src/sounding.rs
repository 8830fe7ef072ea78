//! The pitch at which a tuned voice sounds, worked out from its coefficients.

use crate::tuning::{Tuning, LENGTHS};
use jivaszte::Refusal;
use std::f64::consts::TAU;

/// Units of a coefficient.
const ONE: f64 = 65_536.0;

/// The samples by which an allpass filter delays a sine of `angle` radians a sample: the lag of
/// (a_N + .. + z^-N)/(1 + .. + a_N z^-N) is N·angle and twice the angle of the part below.
fn filter_delay(coefficients: &[f64], angle: f64) -> f64 {
    let (mut real, mut imaginary) = (1.0, 0.0);
    for (k, a) in (1..).map(f64::from).zip(coefficients) {
        real += a * (k * angle).cos();
        imaginary -= a * (k * angle).sin();
    }
    coefficients.len() as f64 + 2.0 * imaginary.atan2(real) / angle
}

/// The lowest frequency that comes back in phase after one turn of the loop, in hertz: the line's
/// length, the filter's delay and the loop filter's half sample are one period. Refuses by 1, 2, 3.
pub fn hertz(order: u32, rate: u32, tuning: Tuning) -> Result<f64, Refusal> {
    if !LENGTHS.contains(&tuning.length.into()) {
        return Err(Refusal::Length);
    }
    let given = jivaszte::coefficients(order, tuning.delay.into())?;
    let coefficients: Vec<f64> =
        given.iter().take(order as usize).map(|&a| f64::from(a) / ONE).collect();
    let mut period = f64::from(tuning.period()) / 4_096.0;
    for _ in 0..100 {
        period = f64::from(tuning.length) + 0.5 + filter_delay(&coefficients, TAU / period);
    }
    Ok(f64::from(rate) / period)
}

#[cfg(test)]
mod tests {
    use super::*;
    use crate::tuning::ORDERS;

    #[test]
    fn low_notes_sound_as_tuned() {
        for order in ORDERS {
            let (length, delay) = jivaszte::note(order, 44_100, 45).unwrap();
            let tuning = Tuning { length: length as u16, delay: delay as u16 };
            assert!((hertz(order, 44_100, tuning).unwrap() - 110.0).abs() < 0.01);
        }
    }

    #[test]
    fn whole_delays_are_exact() {
        let tuning = Tuning { length: 10, delay: 4_096 };
        let sounding = hertz(1, 44_100, tuning).unwrap();
        assert!((sounding - 44_100.0 / 11.5).abs() < 1e-9);
    }
}
