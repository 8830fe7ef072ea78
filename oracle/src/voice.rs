//! The voice: Open, loss and block, over the whole history since opening.

use crate::allpass::Allpass;
use crate::number::{clip, cut, is_sample, to_call};
use crate::pluck::Pluck;
use crate::refusal::{require, Answer, Refusal};
use crate::tuning::Tuning;

/// How a waiting change came: announced, or asked for (document 02, L3). The number is the one by
/// which the console shows it.
#[derive(Clone, Copy, Debug, PartialEq, Eq)]
pub enum Kind {
    Announced = 1,
    Asked = 2,
}

/// "a waiting change", with its eliminator and the number of samples that this has really taken. "the
/// one in force and the one waiting may differ" in their order (document 02, L6).
#[derive(Clone, Debug)]
pub struct Waiting {
    pub kind: Kind,
    pub tuning: Tuning,
    pub eliminator: Allpass,
    pub taken: u32,
}

/// "A voice has N, a length L (1 to 2,048), d, a loss G (0 to 65,535, in units of 1/65,536), an
/// advance Na (0 to 64), a filter state, the last output, a waiting change or none, the rest of a
/// pluck with its noise state, and a line". The line is the whole of s, the last output is the
/// last of y; step n is the one that puts s(n) and y(n) at their index n.
#[derive(Clone, Debug)]
pub struct Voice {
    pub tuning: Tuning,
    pub filter: Allpass,
    pub loss: u32,
    pub advance: u32,
    pub waiting: Option<Waiting>,
    pub pluck: Pluck,
    pub s: Vec<i128>,
    pub y: Vec<i128>,
}

/// "s(n) is the sample written to the line at step n; before opening it is 0."
pub fn s_at(s: &[i128], step: i128) -> i128 {
    usize::try_from(step).map_or(0, |index| s[index])
}

/// "a loss G (0 to 65,535, in units of 1/65,536)". Refusal 4.
fn test_loss(loss: u32) -> Answer {
    require(loss <= 65_535, Refusal::Loss)
}

/// "Open: 1 order, 2 L, 3 d, 4 G, 5 Na outside the limits."
fn test_open(tuning: Tuning, loss: u32, advance: u32) -> Answer {
    tuning.test()?;
    test_loss(loss)?;
    require(advance <= 64, Refusal::Advance)
}

impl Voice {
    /// A voice as it stands before step 0: at rest, "all zero when opened".
    fn at_rest(tuning: Tuning, loss: u32, advance: u32) -> Voice {
        let (waiting, pluck) = (None, Pluck::default());
        let (s, y) = (Vec::new(), Vec::new());
        Voice { tuning, filter: tuning.at_rest(), loss, advance, waiting, pluck, s, y }
    }

    /// Open. Refused, "It returns a resting voice of order 1 with L 1, d 4,096, G 0, Na 0."
    pub fn open(order: u32, length: u32, delay: u32, loss: u32, advance: u32) -> (Voice, Answer) {
        let tuning = Tuning { order, length, delay };
        let answer = test_open(tuning, loss, advance);
        let voice = match answer {
            Ok(()) => Voice::at_rest(tuning, loss, advance),
            Err(_) => Voice::at_rest(Tuning { order: 1, length: 1, delay: 4_096 }, 0, 0),
        };
        (voice, answer)
    }

    /// "Loss: 4. ... The voice is unchanged."
    pub fn set_loss(&mut self, loss: u32) -> Answer {
        test_loss(loss)?;
        self.loss = loss;
        Ok(())
    }

    /// Step n with the caller's input; gives y(n).
    fn step(&mut self, input: i128) -> i128 {
        let n = self.s.len() as i128;
        // "1. f = s(n − L). The filter gives the output y(n)."
        let f = s_at(&self.s, n - i128::from(self.tuning.length));
        let y = self.filter.filter(f);
        // "2. If a change to L', d' waits, its eliminator takes s(n − L')."
        if let Some(change) = &mut self.waiting {
            change.take(&self.s, n);
        }
        // "3. s(n) = clip(p(n) + G·(y(n) + y(n − 1))/131,072), where y(−1) = 0 and p(n) is the
        // caller's input plus the noise sample, if a pluck is sounding"; "the loop's division shall
        // cut toward zero" (document 02, L7).
        let p = input + self.pluck.noise_sample();
        let sum = y + self.last_output();
        let s = clip(p + cut(i128::from(self.loss) * sum, 131_072));
        // "4. s(n) goes into the line. If the eliminator has now taken Na samples, L', d' and its
        // state replace the voice's, from step n + 1 on." An asked change waits for its commit.
        self.s.push(s);
        self.y.push(y);
        self.put_in_force();
        y
    }

    /// "the last output", y(n − 1) before step n, "where y(−1) = 0".
    pub fn last_output(&self) -> i128 {
        self.y.last().copied().unwrap_or(0)
    }

    /// "Block: 9 input and output differ in length, 10 an input outside −M to M. Output and voice
    /// are unchanged. A block of length 0 is accepted."
    pub fn block(&mut self, input: &[i32], output: &mut [i32]) -> Answer {
        require(input.len() == output.len(), Refusal::BlockLengths)?;
        let all_samples = input.iter().all(|x| is_sample(i128::from(*x)));
        require(all_samples, Refusal::Input)?;
        for (x, y) in input.iter().zip(output) {
            *y = to_call(self.step(i128::from(*x)));
        }
        Ok(())
    }
}
