//! What floats are worth, held to Rust's own f64 arithmetic where that is exact.

use oracle::float::{delay_in, loss_in, sample_in, sample_out};
use oracle::refusal::Refusal;

/// Every power of two, halves of units, and their neighbours on both sides.
fn bits() -> Vec<u32> {
    let mut all = vec![0, 1, 0x7f_ffff, 0x80_0000, 0x7f7f_ffff, 0x7f80_0000, 0x7fc0_0000];
    for exponent in 1..255u32 {
        for fraction in [0, 1, 0x40_0000, 0x3f_ffff, 0x7f_ffff] {
            all.push(exponent << 23 | fraction);
        }
    }
    for n in 0..200u32 {
        let half = (n as f32 + 0.5) / 8_388_608.0;
        all.extend([half.to_bits() - 1, half.to_bits(), half.to_bits() + 1]);
    }
    let negative: Vec<u32> = all.iter().map(|bits| bits | 1 << 31).collect();
    all.extend(negative);
    all
}

/// The nearest to x · 2^up, half upward: in f64 the product is exact, and its floor too.
fn nearest(x: f32, up: f64) -> f64 {
    let y = f64::from(x) * up;
    if y - y.floor() >= 0.5 {
        y.floor() + 1.0
    } else {
        y.floor()
    }
}

#[test]
fn what_enters() {
    for bits in bits() {
        let x = f32::from_bits(bits);
        if !x.is_finite() {
            assert_eq!(sample_in(bits), Err(Refusal::NotFinite));
            assert_eq!(loss_in(bits), Err(Refusal::NotFinite));
            assert_eq!(delay_in(bits), Err(Refusal::NotFinite));
            continue;
        }
        let sample = nearest(x, 8_388_608.0).clamp(-8_388_607.0, 8_388_607.0) as i128;
        let loss = nearest(x, 65_536.0).min(65_535.0) as u32;
        let inside = (-1.0..=1.0).contains(&x);
        let expected = if inside { Ok(sample) } else { Err(Refusal::FloatRange) };
        assert_eq!(sample_in(bits), expected, "{x}");
        let inside = (0.0..=1.0).contains(&x);
        assert_eq!(loss_in(bits), if inside { Ok(loss) } else { Err(Refusal::FloatRange) }, "{x}");
        if x.abs() < 1e9 {
            assert_eq!(delay_in(bits), Ok(Some(nearest(x, 4_096.0) as i128)), "{x}");
        }
    }
    assert_eq!(delay_in(f32::MAX.to_bits()), Ok(None));
}

#[test]
fn what_leaves_comes_back() {
    for n in (-8_388_607..=8_388_607).step_by(997).chain([-1, 0, 1, 8_388_607]) {
        let bits = sample_out(n);
        assert_eq!(f64::from(f32::from_bits(bits)) * 8_388_608.0, n as f64);
        assert_eq!(sample_in(bits), Ok(n));
    }
    assert_eq!(sample_out(0), 0);
}
