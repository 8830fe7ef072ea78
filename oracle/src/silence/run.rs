//! A voice that gets nothing more, run until nothing in it sounds, until what is in it comes back, or until a
//! number of samples is reached. Quick: it keeps as much of the line as it reads, in 64 bits.

use crate::number::M;
use crate::thiran::exact_coefficients;

/// What a voice is opened with and filled with: the line's samples, oldest first, written at a loss of 0.
#[derive(Clone, Debug)]
pub struct Filled {
    pub order: u32,
    pub length: u32,
    pub delay: u32,
    pub loss: u32,
    pub samples: Vec<i32>,
}

/// How a voice ends.
#[derive(Clone, Copy, Debug, PartialEq, Eq)]
pub enum End {
    /// It puts out nothing but zeros, after this many samples.
    Silent { after: u64 },
    /// What is in it was in it before, so many samples ago: it never falls silent.
    Returns { period: u64, peak: i64 },
    /// Neither, within `LIMIT` samples.
    Sounds { peak: i64 },
}

/// What goes round in a voice of order N: as much of the line as it reads, the filter state, the last output.
#[derive(Clone)]
struct Round<const N: usize> {
    line: Vec<i64>,
    at: usize,
    state: [i64; N],
    last: i64,
}

/// Document 02, L7: "cut toward zero", as division of i64 does.
fn cut(u: i64, v: i64) -> i64 {
    u / v
}

/// Document 01, before L7: to the nearest, a half upward; `v` is even.
fn rounded(u: i64, v: i64) -> i64 {
    (u + v / 2).div_euclid(v)
}

/// The numbers that no step changes.
struct Fixed<const N: usize> {
    coefficients: [i64; N],
    loss: i64,
}

impl<const N: usize> Round<N> {
    /// One sample with the caller's input: gives y(n) and s(n).
    #[inline(always)]
    fn step(
        &mut self,
        fixed: &Fixed<N>,
        divide: impl Fn(i64, i64) -> i64,
        input: i64,
    ) -> (i64, i64) {
        let clip = |u: i64| u.clamp(-(M as i64), M as i64);
        let a = &fixed.coefficients;
        let sum: i64 = a.iter().zip(&self.state).map(|(a, v)| a * v).sum();
        let w = self.line[self.at] - divide(sum, 65_536);
        let oldest = self.state[N - 1];
        self.state.copy_within(..N - 1, 1);
        self.state[0] = w;
        let sum: i64 = a.iter().rev().zip(&self.state).map(|(a, v)| a * v).sum();
        let y = clip(oldest + divide(sum, 65_536));
        let s = clip(input + divide(fixed.loss * (y + self.last), 131_072));
        self.line[self.at] = s;
        self.at = if self.at + 1 == self.line.len() { 0 } else { self.at + 1 };
        self.last = y;
        (y, s)
    }

    /// Whether nothing in it sounds.
    fn silent(&self) -> bool {
        self.last == 0 && self.state.iter().all(|v| *v == 0) && self.line.iter().all(|s| *s == 0)
    }

    /// Whether the same goes round in both.
    fn same(&self, other: &Round<N>) -> bool {
        let turned = |one: &Round<N>| [one.at..one.line.len(), 0..one.at];
        self.last == other.last && self.state == other.state && {
            let mine = turned(self).into_iter().flat_map(|part| &self.line[part]);
            mine.eq(turned(other).into_iter().flat_map(|part| &other.line[part]))
        }
    }

    fn peak(&self) -> i64 {
        self.line.iter().map(|s| s.abs()).max().unwrap_or(0)
    }
}

/// The voice that these calls leave: open at a loss of 0, a block of the samples, the loss.
fn fill<const N: usize>(
    voice: &Filled,
    divide: impl Fn(i64, i64) -> i64 + Copy,
) -> (Round<N>, Fixed<N>) {
    let exact = exact_coefficients(voice.order, voice.delay);
    let coefficients = std::array::from_fn(|k| exact[k] as i64);
    let mut fixed = Fixed { coefficients, loss: 0 };
    let mut round = Round { line: vec![0; voice.length as usize], at: 0, state: [0; N], last: 0 };
    for sample in &voice.samples {
        round.step(&fixed, divide, i64::from(*sample));
    }
    fixed.loss = i64::from(voice.loss);
    (round, fixed)
}

/// Runs it without input. What is in it is looked at after 1, 2, 4, 8 .. samples and compared from there on.
fn run<const N: usize>(voice: &Filled, divide: impl Fn(i64, i64) -> i64 + Copy, limit: u64) -> End {
    let (mut round, fixed) = fill::<N>(voice, divide);
    let (mut seen, mut seen_at) = (round.clone(), 0);
    let (mut loud, mut zeros) = (0, 0);
    for n in 0..limit {
        let (y, s) = round.step(&fixed, divide, 0);
        if y != 0 {
            loud = n + 1;
        }
        zeros = if s == 0 { zeros + 1 } else { 0 };
        if zeros >= round.line.len() && round.silent() {
            return End::Silent { after: loud };
        }
        if round.same(&seen) {
            return match round.silent() {
                true => End::Silent { after: loud },
                false => End::Returns { period: n + 1 - seen_at, peak: round.peak() },
            };
        }
        if (n + 1).is_power_of_two() {
            (seen, seen_at) = (round.clone(), n + 1);
        }
    }
    End::Sounds { peak: round.peak() }
}

/// How the voice ends by this division, where it is looked at for so many samples.
fn end_by(voice: &Filled, divide: impl Fn(i64, i64) -> i64 + Copy, limit: u64) -> End {
    match voice.order {
        1 => run::<1>(voice, divide, limit),
        2 => run::<2>(voice, divide, limit),
        3 => run::<3>(voice, divide, limit),
        order => panic!("no filter of order {order}"),
    }
}

/// How the voice ends.
pub fn end(voice: &Filled, limit: u64) -> End {
    end_by(voice, cut, limit)
}

/// How it would end by document 01's rounding.
pub fn end_rounded(voice: &Filled, limit: u64) -> End {
    end_by(voice, rounded, limit)
}

/// What the first samples put out.
pub fn outputs(voice: &Filled, count: usize) -> Vec<i64> {
    fn first<const N: usize>(voice: &Filled, count: usize) -> Vec<i64> {
        let (mut round, fixed) = fill::<N>(voice, cut);
        (0..count).map(|_| round.step(&fixed, cut, 0).0).collect()
    }
    match voice.order {
        1 => first::<1>(voice, count),
        2 => first::<2>(voice, count),
        3 => first::<3>(voice, count),
        order => panic!("no filter of order {order}"),
    }
}
