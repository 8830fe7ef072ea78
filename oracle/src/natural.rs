//! Natural numbers of any size, as far as the twelfth-power rule of the octave needs them.

use std::cmp::Ordering;

/// A natural number: digits of base 2^32, lowest first, the highest digit not 0.
#[derive(Clone, Debug, PartialEq, Eq)]
pub struct Natural {
    digits: Vec<u32>,
}

impl Natural {
    /// The number with these digits, zeros at the high end removed.
    fn from_digits(mut digits: Vec<u32>) -> Natural {
        while digits.last() == Some(&0) {
            digits.pop();
        }
        Natural { digits }
    }

    /// A number that fits 64 bits.
    pub fn new(value: u64) -> Natural {
        Natural::from_digits(vec![value as u32, (value >> 32) as u32])
    }

    /// The product, by the multiplication of columns.
    pub fn times(&self, other: &Natural) -> Natural {
        let mut digits = vec![0; self.digits.len() + other.digits.len()];
        for (i, a) in self.digits.iter().enumerate() {
            let mut carry = 0;
            for (j, b) in other.digits.iter().enumerate() {
                let sum = u64::from(*a) * u64::from(*b) + u64::from(digits[i + j]) + carry;
                digits[i + j] = sum as u32;
                carry = sum >> 32;
            }
            digits[i + other.digits.len()] = carry as u32;
        }
        Natural::from_digits(digits)
    }

    /// The number multiplied by itself so that it stands `exponent` times in the product.
    pub fn power(&self, exponent: u32) -> Natural {
        (0..exponent).fold(Natural::new(1), |product, _| product.times(self))
    }
}

impl Ord for Natural {
    /// More digits make the greater number; with as many, the highest digit that differs decides.
    fn cmp(&self, other: &Natural) -> Ordering {
        let by_length = self.digits.len().cmp(&other.digits.len());
        by_length.then_with(|| self.digits.iter().rev().cmp(other.digits.iter().rev()))
    }
}

impl PartialOrd for Natural {
    fn partial_cmp(&self, other: &Natural) -> Option<Ordering> {
        Some(self.cmp(other))
    }
}
