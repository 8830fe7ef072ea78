//! Section "The allpass filter", for any order N, and the effective length.

use crate::number::{clip, r};
use crate::refusal::Answer;
use crate::thiran::{exact_coefficients, test_delay, test_order};

/// An allpass filter with its coefficients A1 to AN and its state v1 to vN.
#[derive(Clone, Debug, PartialEq, Eq)]
pub struct Allpass {
    coefficients: Vec<i128>,
    state: Vec<i128>,
}

/// The sum of products of two lists of numbers of the same length.
fn dot<'a>(left: impl Iterator<Item = &'a i128>, right: impl Iterator<Item = &'a i128>) -> i128 {
    left.zip(right).map(|(a, b)| a * b).sum()
}

impl Allpass {
    /// "The state is v1, v2, both 0 at rest." The order and d are within the limits.
    pub fn at_rest(order: u32, d: u32) -> Allpass {
        let coefficients = exact_coefficients(order, d);
        let state = vec![0; coefficients.len()];
        Allpass { coefficients, state }
    }

    /// The filter of an order and a d within the limits, in this state.
    pub fn with_state(order: u32, d: u32, state: &[i128]) -> Allpass {
        Allpass { coefficients: exact_coefficients(order, d), state: state.to_vec() }
    }

    /// The state v1 to vN.
    pub fn state(&self) -> &[i128] {
        &self.state
    }

    /// "w = f − R(A1·v1 + A2·v2)." "A3·v3 joins the sum inside R in w" (document 02, L5).
    fn w(&self, f: i128) -> i128 {
        f - r(dot(self.coefficients.iter(), self.state.iter()))
    }

    /// "Order 1 puts out clip(v1 + R(A1·w)). Order 2 puts out clip(v2 + R(A2·w + A1·v1))." Order 3
    /// "puts out clip(v3 + R(A3·w + A2·v1 + A1·v2))" (document 02, L5). In order N:
    /// clip(vN + R(AN·w + A(N − 1)·v1 + ... + A1·v(N − 1))).
    fn output(&self, w: i128) -> i128 {
        let last = self.state[self.state.len() - 1];
        let shifted = std::iter::once(&w).chain(self.state.iter());
        clip(last + r(dot(self.coefficients.iter().rev(), shifted)))
    }

    /// "Then v2 becomes v1 and v1 becomes w. In order 1, v2 is kept at 0": it is not there.
    fn shift(&mut self, w: i128) {
        self.state.pop();
        self.state.insert(0, w);
    }

    /// The filter takes the input f and gives its output.
    pub fn filter(&mut self, f: i128) -> i128 {
        let w = self.w(f);
        let output = self.output(w);
        self.shift(w);
        output
    }

    /// "The eliminator works out w and its state only."
    pub fn eliminate(&mut self, f: i128) -> i128 {
        let w = self.w(f);
        self.shift(w);
        w
    }
}

/// "feed 1,000,000 and then 63 zeros to a resting eliminator"; "the index of the last of the 64
/// values above the threshold, plus one, or 0 where none is" (document 02, L4), "in magnitude".
/// "Effective length: 1, 3; it returns 0."
pub fn effective_length(order: u32, d: u32, threshold: u32) -> (Answer, u32) {
    let answer = test_order(order).and_then(|()| test_delay(order, d));
    if answer.is_err() {
        return (answer, 0);
    }
    let mut eliminator = Allpass::at_rest(order, d);
    let values: Vec<i128> =
        (0..64).map(|i| eliminator.eliminate(if i == 0 { 1_000_000 } else { 0 })).collect();
    let last = values.iter().rposition(|w| w.abs() > i128::from(threshold));
    (answer, last.map_or(0, |index| index as u32 + 1))
}
