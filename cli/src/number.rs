//! Numbers in words.

/// A whole number with a comma before every three digits: `1,000,000`.
pub fn grouped(number: u64) -> String {
    let digits = number.to_string();
    let mut words = String::new();
    for (index, digit) in digits.chars().enumerate() {
        if index > 0 && (digits.len() - index).is_multiple_of(3) {
            words.push(',');
        }
        words.push(digit);
    }
    words
}

/// A count and its noun, which takes an s where it is not one.
pub fn counted(count: u64, noun: &str) -> String {
    format!("{} {noun}{}", grouped(count), if count == 1 { "" } else { "s" })
}

/// A number of samples, and how long they last.
pub fn duration(samples: usize, rate: u32) -> String {
    let seconds = samples as f64 / f64::from(rate);
    format!("{}, {seconds:.3} s at {rate} Hz", counted(samples as u64, "sample"))
}

/// A level in decibels of a reference.
pub fn decibels(level: f64, reference: f64) -> f64 {
    20.0 * (level / reference).log10()
}

#[cfg(test)]
mod tests {
    use super::*;

    #[test]
    fn groups_by_three() {
        assert_eq!(grouped(7), "7");
        assert_eq!(grouped(999), "999");
        assert_eq!(grouped(1_000), "1,000");
        assert_eq!(grouped(25_165_824), "25,165,824");
        assert_eq!(counted(1, "sample"), "1 sample");
        assert_eq!(counted(1_200, "sample"), "1,200 samples");
    }
}
