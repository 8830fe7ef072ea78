//! Document 02, L12: a tube junction.
//!
//! An allpass filter of order 1 stands over what comes from the left, of delay d, and one over what comes from the
//! right, of delay 8,192 − d.

use crate::allpass::Allpass;
use crate::number::{clip, cut, is_sample, nearest};
use crate::refusal::{require, Answer, Refusal};

/// "in units of 1/32,768".
const UNIT: i128 = 32_768;

/// A number from the left, and one from the right.
type Sides = (i128, i128);

/// The filters over what comes from the left and from the right.
#[derive(Clone, Debug)]
struct Filters {
    left: Allpass,
    right: Allpass,
}

/// "A move announces a new d": its filters, and the inputs that they have taken.
#[derive(Clone, Debug)]
struct Move {
    filters: Filters,
    taken: u32,
}

/// Two areas by their r, the filters, "an advance Na", the inputs of the sample before, and a move or none.
#[derive(Clone, Debug)]
pub struct Junction {
    r: i128,
    advance: u32,
    filters: Filters,
    before: Sides,
    waiting: Option<Move>,
}

/// "r = (left − right)/(left + right), nearest in units of 1/32,768, half upward".
pub fn reflection(left: u32, right: u32) -> i128 {
    let (left, right) = (i128::from(left), i128::from(right));
    nearest(UNIT * (left - right), left + right)
}

/// "d runs from 2,049 to 6,143, order 1." Refusal 3.
fn test_delay(delay: u32) -> Answer {
    require((2_049..=6_143).contains(&delay), Refusal::Delay)
}

/// "at opening 25 an area outside its limits, then 3, 5".
fn test_open(left: u32, right: u32, delay: u32, advance: u32) -> Answer {
    let area = |area: u32| (1..=65_535).contains(&area);
    require(area(left) && area(right), Refusal::Area)?;
    test_delay(delay)?;
    require(advance <= 64, Refusal::Advance)
}

impl Filters {
    /// "the allpass of delay d", "the allpass of delay 8,192 − d".
    fn at_rest(delay: u32) -> Filters {
        Filters { left: Allpass::at_rest(1, delay), right: Allpass::at_rest(1, 8_192 - delay) }
    }

    /// Both take an input and put out.
    fn filter(&mut self, (a, b): Sides) -> Sides {
        (self.left.filter(a), self.right.filter(b))
    }

    /// Both take an input as eliminators.
    fn eliminate(&mut self, (a, b): Sides) {
        self.left.eliminate(a);
        self.right.eliminate(b);
    }
}

impl Junction {
    /// A junction at rest.
    fn at_rest(left: u32, right: u32, delay: u32, advance: u32) -> Junction {
        let (r, filters) = (reflection(left, right), Filters::at_rest(delay));
        Junction { r, advance, filters, before: (0, 0), waiting: None }
    }

    /// "A junction opens with two areas, d and an advance Na." "a refused opening gives areas 1 and 1, d 4,096,
    /// Na 0, at rest."
    pub fn open(left: u32, right: u32, delay: u32, advance: u32) -> (Junction, Answer) {
        let answer = test_open(left, right, delay, advance);
        let junction = match answer {
            Ok(()) => Junction::at_rest(left, right, delay, advance),
            Err(_) => Junction::at_rest(1, 1, 4_096, 0),
        };
        (junction, answer)
    }

    /// "two eliminators run on the next Na inputs, then both filters switch": at once where Na is 0.
    fn switch(&mut self) {
        let advance = self.advance;
        if let Some(ready) = self.waiting.take_if(|waiting| waiting.taken == advance) {
            self.filters = ready.filters;
        }
    }

    /// "for a move 3, then 6 while one waits"; "the junction is unchanged".
    pub fn move_to(&mut self, delay: u32) -> Answer {
        test_delay(delay)?;
        require(self.waiting.is_none(), Refusal::ChangeWaits)?;
        self.waiting = Some(Move { filters: Filters::at_rest(delay), taken: 0 });
        self.switch();
        Ok(())
    }

    /// "the right gets (1 + r) times a delayed one sample, less r times b through the allpass of delay 8,192 − d;
    /// the left gets r times a through the allpass of delay d, plus (1 − r) times b delayed one sample. Each sum
    /// is divided once, toward zero, and clipped." "for a sample 10; the junction is unchanged, the outputs are 0".
    /// Gives what goes to the right, and what goes to the left.
    pub fn sample(&mut self, a: i32, b: i32) -> (Answer, Sides) {
        let now = (i128::from(a), i128::from(b));
        let answer = require(is_sample(now.0) && is_sample(now.1), Refusal::Input);
        if answer.is_err() {
            return (answer, (0, 0));
        }
        let (fa, fb) = self.filters.filter(now);
        let right = (UNIT + self.r) * self.before.0 - self.r * fb;
        let left = self.r * fa + (UNIT - self.r) * self.before.1;
        if let Some(waiting) = &mut self.waiting {
            waiting.filters.eliminate(now);
            waiting.taken += 1;
        }
        self.before = now;
        self.switch();
        (answer, (clip(cut(right, UNIT)), clip(cut(left, UNIT))))
    }
}
