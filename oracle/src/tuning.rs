//! The tuning: what a change names, and what it replaces.

use crate::allpass::Allpass;
use crate::refusal::{require, Answer, Refusal};
use crate::thiran::{test_delay, test_order};

/// Order, L and d: "The order becomes part of the tuning" (document 02, L6).
#[derive(Clone, Copy, Debug, PartialEq, Eq)]
pub struct Tuning {
    pub order: u32,
    pub length: u32,
    pub delay: u32,
}

/// "a length L (1 to 2,048)". Refusal 2.
fn test_length(length: u32) -> Answer {
    require((1..=2_048).contains(&length), Refusal::Length)
}

impl Tuning {
    /// "1 order, 2 L, 3 d ... outside the limits"; d is tested with the order beside it.
    pub fn test(self) -> Answer {
        test_order(self.order)?;
        test_length(self.length)?;
        test_delay(self.order, self.delay)
    }

    /// Its filter, or eliminator, at rest. The numbers are within the limits.
    pub fn at_rest(self) -> Allpass {
        Allpass::at_rest(self.order, self.delay)
    }
}
