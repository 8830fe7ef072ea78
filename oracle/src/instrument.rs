//! Document 02, L11: six strings in one instrument.

use crate::number::{clip, to_call};
use crate::refusal::{require, Answer, Refusal};
use crate::voice::Voice;

/// "six voices with one output".
#[derive(Clone, Debug)]
pub struct Instrument {
    pub strings: Vec<Voice>,
}

impl Default for Instrument {
    /// "Each string starts as Open's refusal voice".
    fn default() -> Instrument {
        let (refused, _) = Voice::open(0, 0, 0, 0, 0);
        Instrument { strings: vec![refused; 6] }
    }
}

impl Instrument {
    /// A string. "24 string number above 5, ahead of the call's own tests".
    pub fn string(&mut self, string: u32) -> Result<&mut Voice, Refusal> {
        self.strings.get_mut(string as usize).ok_or(Refusal::String)
    }

    /// "a block feeds its one input to all six"; the output is "the clipped sum of the six". 9 and 10 as a voice's
    /// block has them, before anything is done.
    pub fn mix(&mut self, input: &[i32], output: &mut [i32]) -> Answer {
        require(input.len() == output.len(), Refusal::BlockLengths)?;
        let mut sums = vec![0; input.len()];
        for string in &mut self.strings {
            let mut own = vec![0; input.len()];
            string.block(input, &mut own)?;
            sums.iter_mut().zip(own).for_each(|(sum, y)| *sum += i128::from(y));
        }
        output.iter_mut().zip(sums).for_each(|(place, sum)| *place = to_call(clip(sum)));
        Ok(())
    }
}
