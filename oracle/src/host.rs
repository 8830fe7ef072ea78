//! Document 02, L13: frames and events of a host that passes floats, as bits.

use crate::float::{delay_in, loss_in, sample_in, sample_out};
use crate::instrument::Instrument;
use crate::note::split;
use crate::number::{clip, to_call};
use crate::refusal::{require, Answer, Refusal};
use crate::tuning::Tuning;

/// "a frame holds a left and a right f32, strings 0 to 2 left and 3 to 5 right, each side clipped by itself";
/// "unless refused, it is a block of one sample for each of them"; "a refused frame is 0, 0."
pub fn frame(instrument: &mut Instrument, bits: u32) -> (Answer, [u32; 2]) {
    let sample = match sample_in(bits) {
        Ok(sample) => to_call(sample),
        Err(refusal) => return (Err(refusal), [0, 0]),
    };
    let mut outputs = [0; 6];
    for (string, y) in instrument.strings.iter_mut().zip(&mut outputs) {
        let mut lent = [0];
        string.block(&[sample], &mut lent).expect("a sample");
        *y = i128::from(lent[0]);
    }
    let side = |outputs: &[i128]| sample_out(clip(outputs.iter().sum()));
    (Ok(()), [side(&outputs[..3]), side(&outputs[3..])])
}

/// "the delay is rounded to 1/4,096 and split like a note's T"; it acts "as an announced change, order kept".
/// "after an event's 24: 26"; "a delay then meets 13 and 6".
pub fn event_delay(instrument: &mut Instrument, string: u32, bits: u32) -> Answer {
    let voice = instrument.string(string)?;
    let order = voice.tuning.order;
    let period = delay_in(bits)?.ok_or(Refusal::NoteLength)?;
    let (length, delay) = split(order, period);
    require((1..=2_048).contains(&length), Refusal::NoteLength)?;
    voice.announced_change(Tuning { order, length: length as u32, delay: delay as u32 })
}

/// "the loss call of one string".
pub fn event_loss(instrument: &mut Instrument, string: u32, bits: u32) -> Answer {
    instrument.string(string)?.set_loss(loss_in(bits)?)
}
