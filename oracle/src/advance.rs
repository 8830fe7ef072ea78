//! The own figure of a tuning and the least advance by it (docs/CLICK.md), reckoned advance by advance.

use crate::number::M;
use crate::refusal::{require, Answer, Refusal};
use crate::thiran::{delay_range, exact_coefficients, test_delay, test_order, ORDERS};

/// "an advance Na (0 to 64)".
const MOST_ADVANCE: u32 = 64;

/// "the least whole number not below n·b/65,536".
fn share(n: i128, b: i128) -> i128 {
    let down = n * b / 65_536;
    if down * 65_536 < n * b {
        down + 1
    } else {
        down
    }
}

/// b(k) + b(k + 1) for k from 0 on, up to where it falls no more: b(0) = 2M and b(k + 1) is the share of b(k), "by
/// the sum n of a tuning's own coefficients".
pub struct OwnFigures {
    order: usize,
    by_k: Vec<i128>,
}

impl OwnFigures {
    pub fn of(order: u32, delay: u32) -> OwnFigures {
        let n: i128 = exact_coefficients(order, delay).iter().map(|a| a.abs()).sum();
        let (mut b, mut by_k) = (2 * M, Vec::new());
        loop {
            let next = share(n, b);
            by_k.push(b + next);
            if next == b {
                return OwnFigures { order: order as usize, by_k };
            }
            b = next;
        }
    }

    /// At k = floor((Na + j)/N), as in demand 3.
    pub fn figure(&self, taken: usize, j: usize) -> i128 {
        let k = (taken + j) / self.order;
        self.by_k[k.min(self.by_k.len() - 1)]
    }
}

/// The call: "the least Na from 0 to 64"; refused by 1, 3, then 32 where none is enough, with 0.
pub fn least(order: u32, delay: u32, wanted: u32) -> (Answer, u32) {
    if let refused @ Err(_) = test_order(order).and_then(|()| test_delay(order, delay)) {
        return (refused, 0);
    }
    let own = OwnFigures::of(order, delay);
    let enough = |na: &u32| own.figure(*na as usize, 0) <= i128::from(wanted);
    let found = (0..=MOST_ADVANCE).find(enough);
    (require(found.is_some(), Refusal::NoAdvance), found.unwrap_or(0))
}

/// A line `least` for every delay of every order: for 2, and for another distance.
pub fn every_delay() -> String {
    let others = [0, 1, 3, 6, 100, 98_304, 16_777_214, 25_165_824, u32::MAX];
    let mut lines = String::new();
    for order in ORDERS {
        for (index, delay) in delay_range(order).enumerate() {
            let other = others[index % others.len()];
            lines += &format!("least {order} {delay} 2\nleast {order} {delay} {other}\n");
        }
    }
    lines
}
