//! The rule of documents 01 and 02, once more and apart from the proved library: division, noise,
//! coefficients and the allpass filter, over the order N.

use crate::take::FULL_SCALE;

/// "R and the loop's division shall cut toward zero instead of rounding", as `/` does: R(u) is u/65,536.
fn cut(u: i64) -> i64 {
    u / 65_536
}

/// What a turn of the loop keeps, cut toward zero: u/131,072, with u for "G·(y(n) + y(n − 1))".
pub fn cut_in_loop(u: i64) -> i64 {
    u / 131_072
}

pub fn clip(u: i64) -> i64 {
    u.clamp(-i64::from(FULL_SCALE), FULL_SCALE.into())
}

/// "it becomes 1,664,525 × state + 1,013,904,223, kept to the low 32 bits; the draw is the state's
/// upper 16 bits less 32,768"
pub fn draw(noise: &mut u32) -> i64 {
    *noise = noise.wrapping_mul(1_664_525).wrapping_add(1_013_904_223);
    i64::from(*noise >> 16) - 32_768
}

/// A_k of 002's equation (3), the nearest whole number, a half upward: (−1)^k (N over k) times the
/// product of (D − N + n)/(D − N + k + n), n from 0 to N, in units of 1/65,536; D is d/4,096.
fn coefficient(order: u32, delay: u16, k: u32) -> i64 {
    let (mut above, mut below) = (if k.is_multiple_of(2) { 65_536i128 } else { -65_536 }, 1i128);
    for i in 0..k {
        above = above * i128::from(order - i) / i128::from(i + 1);
    }
    let past = i128::from(delay) - 4_096 * i128::from(order);
    for n in 0..=order {
        above *= past + 4_096 * i128::from(n);
        below *= past + 4_096 * i128::from(n + k);
    }
    (2 * above + below).div_euclid(2 * below) as i64
}

/// An allpass filter of any order, at rest.
pub struct Filter {
    a: Vec<i64>,
    v: Vec<i64>,
}

impl Filter {
    pub fn new(order: u32, delay: u16) -> Filter {
        let a = (1..=order).map(|k| coefficient(order, delay, k)).collect();
        Filter { a, v: vec![0; order as usize] }
    }

    /// "w = f − R(A1·v1 + A2·v2)", and so in every order; then the state moves on. Gives the number that leaves it.
    pub fn take(&mut self, f: i64) -> i64 {
        let sum: i64 = self.a.iter().zip(&self.v).map(|(a, v)| a * v).sum();
        let w = f - cut(sum);
        self.v.rotate_right(1);
        std::mem::replace(&mut self.v[0], w)
    }

    /// "clip(v2 + R(A2·w + A1·v1))", and so in every order: the state that has moved on is w, v1, ..
    pub fn output(&mut self, f: i64) -> i64 {
        let last = self.take(f);
        let sum: i64 = self.a.iter().rev().zip(&self.v).map(|(a, v)| a * v).sum();
        clip(last + cut(sum))
    }
}

#[cfg(test)]
mod tests {
    use super::*;

    /// The starred figures of document 01, and order 3 at its ends and in its middle.
    #[test]
    fn coefficients_are_the_papers() {
        for (delay, a1) in [(2_049, 21_831), (4_096, 0), (6_144, -13_107), (2_979, 10_347)] {
            assert_eq!(coefficient(1, delay, 1), a1);
        }
        for (delay, a) in [(6_145, [26_199, -1_872]), (10_240, [-18_725, 3_121]), (8_192, [0, 0])] {
            assert_eq!([1, 2].map(|k| coefficient(2, delay, k)), a);
        }
        let third = [
            (10_241, [28_071, -3_120, 284]),
            (12_288, [0, 0, 0]),
            (14_336, [-21_845, 5_958, -764]),
        ];
        for (delay, a) in third {
            assert_eq!([1, 2, 3].map(|k| coefficient(3, delay, k)), a);
        }
    }

    /// "the allpass row in document 01 becomes −199, 961, 192, 38"; and each sign, one below the divisor.
    #[test]
    fn divisions_cut_toward_zero() {
        let mut filter = Filter::new(1, 6_144);
        assert_eq!([1_000, 0, 0, 0].map(|x| filter.output(x)), [-199, 961, 192, 38]);
        assert_eq!([65_535, 65_536, -65_535, -65_536].map(cut), [0, 1, 0, -1]);
        assert_eq!([131_071, 131_072, -131_071, -131_072].map(cut_in_loop), [0, 1, 0, -1]);
    }

    /// The proved library has the same coefficients, at every delay of every order.
    #[test]
    fn coefficients_are_the_proved_ones() {
        for order in crate::tuning::ORDERS {
            for delay in crate::tuning::delays(order) {
                let own: Vec<i64> =
                    (1..=order).map(|k| coefficient(order, delay as u16, k)).collect();
                let proved = jivaszte::coefficients(order, delay).unwrap();
                assert!(
                    proved.iter().copied().map(i64::from).take(own.len()).eq(own),
                    "{order} {delay}"
                );
            }
        }
    }

    #[test]
    fn the_papers_draws() {
        let mut noise = 0;
        assert_eq!([(); 3].map(|()| draw(&mut noise)), [-17_298, -14_512, 20_940]);
    }
}
