//! The player program of section "Checked figures".

use crate::call::UNTOUCHED;
use crate::refusal::number;
use crate::score::{run, Run};
use std::fmt::Write;

/// "reads a score from standard input (its first 32,768 bytes)".
pub const SCORE_BYTES: usize = 32_768;

/// "lends an output of 16,384 samples".
pub const OUTPUT_SAMPLES: usize = 16_384;

/// "prints each sample written on a line, then `end`, number, place, samples." Gives the text and
/// the run.
pub fn play(input: &[u8]) -> (String, Run) {
    let score = &input[..input.len().min(SCORE_BYTES)];
    let mut output = vec![UNTOUCHED; OUTPUT_SAMPLES];
    let run = run(score, &mut output);
    let mut text = String::new();
    for sample in &output[..run.written] {
        writeln!(text, "{sample}").expect("writing to a string");
    }
    let answer = number(&run.answer);
    writeln!(text, "end {answer} {} {}", run.place, run.written).expect("writing to a string");
    (text, run)
}
