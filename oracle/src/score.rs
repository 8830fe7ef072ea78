//! Section "Score": the score run.

use crate::call::Call;
use crate::record::{read_record, take_byte, take_number, Record};
use crate::record::{AMPLITUDE, COUNT, DELAY, INSTANT, LENGTH, LOSS, SEED, WAIT};
use crate::refusal::{require, Answer, Refusal};
use crate::tuning::Tuning;
use crate::voice::Voice;

/// "it gives a number (0 for success), a place (the record's index from 0; on success the record
/// count; 0 for the header) and the samples written." Kept besides: what Open returned and the
/// list of calls made, since "what its records do to it, their waits as blocks, is such a list".
#[derive(Debug)]
pub struct Run {
    pub answer: Answer,
    pub place: u32,
    pub written: usize,
    pub opened: Option<Voice>,
    pub list: Vec<Call>,
}

/// "Header, 8 bytes: order and Na, a byte each, then L, d, G as 16-bit numbers, low byte first."
/// Gives order, Na, L, d, G and the records. Refusal 14 where the bytes end early.
fn take_header(score: &[u8]) -> Result<([u32; 5], &[u8]), Refusal> {
    let (order, rest) = take_byte(score)?;
    let (advance, rest) = take_byte(rest)?;
    let (length, rest) = take_number(rest)?;
    let (delay, rest) = take_number(rest)?;
    let (loss, rest) = take_number(rest)?;
    Ok(([u32::from(order), u32::from(advance), length, delay, loss], rest))
}

impl Run {
    /// Makes a call on the voice and keeps it in the list.
    fn call(&mut self, voice: &mut Voice, call: Call, output: &mut [i32]) -> Answer {
        let made = call.make(voice);
        self.list.push(call);
        output.copy_from_slice(&made.output);
        made.answer
    }

    /// "A record renders its wait with input 0". "16 the wait doesn't fit the output left".
    fn wait(&mut self, voice: &mut Voice, record: &Record, output: &mut [i32]) -> Answer {
        let places = record.fields[WAIT] as usize;
        require(places <= output.len() - self.written, Refusal::Wait)?;
        let call = Call::Block { input: vec![0; places], places };
        let end = self.written + places;
        self.call(voice, call, &mut output[self.written..end])?;
        self.written = end;
        Ok(())
    }

    /// "then sets G": "G as it was" where it is absent.
    fn set_loss(&mut self, voice: &mut Voice, record: &Record) -> Answer {
        match record.field(LOSS) {
            Some(loss) => self.call(voice, Call::Loss { loss }, &mut []),
            None => Ok(()),
        }
    }

    /// "then changes": "an absent L or d beside the other is the one in force; no bit 1 or 2, no
    /// change". "Bit 7 has no field and makes the change instant." "Score changes keep the order in force"
    /// (document 02, L6).
    fn change(&mut self, voice: &mut Voice, record: &Record) -> Answer {
        if !record.has(LENGTH) && !record.has(DELAY) {
            return Ok(());
        }
        let order = voice.tuning.order;
        let length = record.field(LENGTH).unwrap_or(voice.tuning.length);
        let delay = record.field(DELAY).unwrap_or(voice.tuning.delay);
        let to = Tuning { order, length, delay };
        let call = match record.has(INSTANT) {
            true => Call::Instant { to },
            false => Call::Announced { to },
        };
        self.call(voice, call, &mut [])
    }

    /// "then plucks": "no bit 4, no pluck; ... seed 0." An absent count "shall mean 100 samples"
    /// (document 02, L2).
    fn pluck(&mut self, voice: &mut Voice, record: &Record) -> Answer {
        let Some(amplitude) = record.field(AMPLITUDE) else {
            return Ok(());
        };
        let count = record.field(COUNT).unwrap_or(100);
        let seed = record.field(SEED).unwrap_or(0);
        self.call(voice, Call::Pluck { amplitude, count, seed }, &mut [])
    }

    /// "14 in the header, then Open's; for each record 14, 15, 16 ..., then those of change and
    /// pluck." "A run opens a voice from the header and ends with the bytes".
    fn play(&mut self, score: &[u8], output: &mut [i32]) -> Answer {
        let ([order, advance, length, delay, loss], mut rest) = take_header(score)?;
        let (mut voice, answer) = Voice::open(order, length, delay, loss, advance);
        self.opened = Some(voice.clone());
        answer?;
        while !rest.is_empty() {
            let (answer, record, after) = read_record(rest);
            answer?;
            self.wait(&mut voice, &record, output)?;
            self.set_loss(&mut voice, &record)?;
            self.change(&mut voice, &record)?;
            self.pluck(&mut voice, &record)?;
            rest = after;
            self.place += 1;
        }
        Ok(())
    }
}

/// The call. "Samples already written stand and are counted; the rest of the output is untouched."
pub fn run(score: &[u8], output: &mut [i32]) -> Run {
    let mut run = Run { answer: Ok(()), place: 0, written: 0, opened: None, list: Vec::new() };
    run.answer = run.play(score, output);
    run
}
