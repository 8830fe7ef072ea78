//! The calls on an open voice, as values, so that a list of calls can be kept and made again.

use crate::refusal::Answer;
use crate::tuning::Tuning;
use crate::voice::Voice;

/// What every place of a lent output holds before the call, so that untouched places show.
pub const UNTOUCHED: i32 = 77;

/// A call on a voice with its arguments. "every change names" the order (document 02, L6).
#[derive(Clone, Debug)]
pub enum Call {
    Loss { loss: u32 },
    Pluck { amplitude: u32, count: u32, seed: u32 },
    Announced { to: Tuning },
    Instant { to: Tuning },
    Asked { to: Tuning },
    Commit,
    Withdraw,
    Block { input: Vec<i32>, places: usize },
}

/// What a call gave: its answer, the count of an instant change, the lent output of a block.
#[derive(Clone, Debug)]
pub struct Made {
    pub answer: Answer,
    pub count: u32,
    pub output: Vec<i32>,
}

impl Call {
    /// "Each call gets the voice that the call before it returned or left".
    pub fn make(&self, voice: &mut Voice) -> Made {
        let mut made = Made { answer: Ok(()), count: 0, output: Vec::new() };
        match self {
            Call::Loss { loss } => made.answer = voice.set_loss(*loss),
            Call::Pluck { amplitude, count, seed } => {
                made.answer = voice.start_pluck(*amplitude, *count, *seed);
            }
            Call::Announced { to } => made.answer = voice.announced_change(*to),
            Call::Instant { to } => (made.answer, made.count) = voice.instant_change(*to),
            Call::Asked { to } => made.answer = voice.ask(*to),
            Call::Commit => made.answer = voice.commit(),
            Call::Withdraw => made.answer = voice.withdraw(),
            Call::Block { input, places } => {
                made.output = vec![UNTOUCHED; *places];
                made.answer = voice.block(input, &mut made.output);
            }
        }
        made
    }
}
