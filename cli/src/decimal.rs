//! Numbers as they are written, kept exactly: `0.25` is 25 with two places after the point.

/// More digits than this are not read, so that every product below fits 128 bits.
const MOST_DIGITS: usize = 12;

#[derive(Clone, Copy, Debug, PartialEq, Eq)]
pub struct Decimal {
    digits: u64,
    places: u32,
}

impl Decimal {
    /// The number that a word starts with, and the rest of the word: `0.5s` and `.5s` are 0.5 and `s`.
    pub fn prefix(word: &str) -> Option<(Decimal, &str)> {
        let end = word.find(|c: char| !c.is_ascii_digit() && c != '.').unwrap_or(word.len());
        let (number, rest) = word.split_at(end);
        let (whole, fraction) = number.split_once('.').unwrap_or((number, ""));
        let digits = format!("{whole}{fraction}");
        if digits.is_empty() || number.ends_with('.') || digits.len() > MOST_DIGITS {
            return None;
        }
        let places = fraction.len() as u32;
        Some((Decimal { digits: digits.parse().ok()?, places }, rest))
    }

    /// A word that is a number and nothing else.
    pub fn parse(word: &str) -> Option<Decimal> {
        Decimal::prefix(word).and_then(|(number, rest)| rest.is_empty().then_some(number))
    }

    /// The whole number that this is, if it is one.
    pub fn whole(self) -> Option<u64> {
        let unit = 10u64.pow(self.places);
        self.digits.is_multiple_of(unit).then_some(self.digits / unit)
    }

    /// `times` over this number, to the nearest whole number, a half upward.
    pub fn under(self, times: u64) -> u128 {
        Decimal { digits: 1, places: 0 }.times_over(times, self)
    }

    pub fn is_zero(self) -> bool {
        self.digits == 0
    }

    pub fn value(self) -> f64 {
        self.digits as f64 / 10f64.powi(self.places as i32)
    }

    /// `times` × this / `over`, to the nearest whole number, a half upward.
    pub fn times(self, times: u64, over: u64) -> u128 {
        nearest(
            u128::from(self.digits) * u128::from(times),
            u128::from(over) * 10u128.pow(self.places),
        )
    }

    /// `times` × this / `over`, nearest, as `times` does it, where `over` is a number as written.
    pub fn times_over(self, times: u64, over: Decimal) -> u128 {
        nearest(
            u128::from(self.digits) * u128::from(times) * 10u128.pow(over.places),
            u128::from(over.digits) * 10u128.pow(self.places),
        )
    }
}

/// The whole number nearest to `above` / `below`, a half upward.
fn nearest(above: u128, below: u128) -> u128 {
    (2 * above + below) / (2 * below)
}

#[cfg(test)]
mod tests {
    use super::*;

    #[test]
    fn reads_what_is_a_number() {
        let half = Decimal { digits: 5, places: 1 };
        assert_eq!(Decimal::prefix("0.5s"), Some((half, "s")));
        assert_eq!(Decimal::parse("7").and_then(Decimal::whole), Some(7));
        assert_eq!(Decimal::parse("7.00").and_then(Decimal::whole), Some(7));
        assert_eq!(Decimal::parse("7.01").and_then(Decimal::whole), None);
        assert_eq!(Decimal::prefix(".5s"), Some((half, "s")));
        for wrong in
            ["", ".", "5.", ".5.", "..5", "1.2.3", "s", "-1", "+1", "1e3", "1234567890123", "٣"]
        {
            assert_eq!(Decimal::parse(wrong), None, "{wrong}");
        }
    }

    #[test]
    fn rounds_a_half_upward() {
        let of = |word| Decimal::parse(word).unwrap();
        assert_eq!(of("0.5").times(1, 1), 1);
        assert_eq!(of("0.499999").times(1, 1), 0);
        assert_eq!(of("1.5").times(1, 1), 2);
        let greatest = 999_999_999_999 * 192_000 * 60 * 10u128.pow(11);
        assert_eq!(of("999999999999").times_over(192_000 * 60, of("0.00000000001")), greatest);
    }
}
