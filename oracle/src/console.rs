//! The text console: one answer to each line, on one voice, one junction and six strings that it
//! keeps.

use crate::advance::least;
use crate::allpass::effective_length;
use crate::answers::{answer_lent, answer_no_string, answer_on, join};
use crate::call::UNTOUCHED;
use crate::command::{commands, lines, Command};
use crate::expected::{expected, help};
use crate::gather::gather;
use crate::instrument::Instrument;
use crate::junction::Junction;
use crate::merge::merge;
use crate::noise::draw;
use crate::note::note;
use crate::record::read_record;
use crate::refusal::{number, Answer};
use crate::score::run;
use crate::stored;
use crate::thiran::coefficients;
use crate::voice::Voice;
use crate::wav;

/// The console with the voice, the junction and the strings that it keeps.
pub struct Console {
    voice: Voice,
    junction: Junction,
    instrument: Instrument,
}

/// `record R MAP WAIT L D G AMPLITUDE COUNT SEED REST`
fn answer_record(bytes: &[u8]) -> String {
    let (answer, record, rest) = read_record(bytes);
    let fields = record.fields.map(|field| field.to_string()).join(" ");
    format!("record {} {} {fields} {}", number(&answer), record.map, rest.len())
}

/// `run R PLACE WRITTEN Y1 ..`
fn answer_run(places: usize, bytes: &[u8]) -> String {
    let mut output = vec![UNTOUCHED; places];
    let run = run(bytes, &mut output);
    let start = format!("run {} {} {}", number(&run.answer), run.place, run.written);
    join(&start, output)
}

/// "Success: the length"; refused, "length 0".
fn merge_into(first: &[u8], second: &[u8], lent: &mut [u8]) -> (Answer, usize) {
    match merge(first, second, lent) {
        Ok(length) => (Ok(()), length),
        Err(refusal) => (Err(refusal), 0),
    }
}

/// `wavread R RATE COUNT Y1 Y2 ..`, the lent samples afterwards.
fn answer_wav_read(places: usize, bytes: &[u8]) -> String {
    let mut lent = vec![UNTOUCHED; places];
    let (answer, rate, count) = wav::read(bytes, &mut lent);
    join(&format!("wavread {} {rate} {count}", number(&answer)), lent)
}

/// `mix R Y1 ..`
fn answer_mix(instrument: &mut Instrument, input: &[i32], places: usize) -> String {
    let mut output = vec![UNTOUCHED; places];
    let answer = instrument.mix(input, &mut output);
    join(&format!("mix {}", number(&answer)), output)
}

impl Default for Console {
    /// "before the first `open` it is Open's refusal voice"; "one junction beside the voice, at first a refused one".
    fn default() -> Console {
        let (voice, _) = Voice::open(0, 0, 0, 0, 0);
        let (junction, _) = Junction::open(0, 0, 0, 0);
        Console { voice, junction, instrument: Instrument::default() }
    }
}

impl Console {
    /// The answer to one command.
    pub fn answer(&mut self, command: &Command) -> String {
        match command {
            Command::Open { .. }
            | Command::Call(_)
            | Command::Store { .. }
            | Command::Load { .. }
            | Command::State
            | Command::Line { .. } => answer_on(&mut self.voice, command),
            Command::String { string, command } => {
                let own = match self.instrument.string(*string) {
                    Ok(voice) => answer_on(voice, command),
                    Err(_) => answer_no_string(command),
                };
                format!("string {string} {own}")
            }
            Command::Mix { input, places } => answer_mix(&mut self.instrument, input, *places),
            Command::Coefficients { order, delay } => {
                let (answer, values) = coefficients(*order, *delay);
                join(&format!("coefficients {}", number(&answer)), values)
            }
            Command::Length { order, delay, threshold } => {
                let (answer, length) = effective_length(*order, *delay, *threshold);
                format!("length {} {length}", number(&answer))
            }
            Command::Least { order, delay, wanted } => {
                let (answer, advance) = least(*order, *delay, *wanted);
                format!("least {} {advance}", number(&answer))
            }
            Command::Note { order, rate, note: m } => {
                let (answer, values) = note(*order, *rate, *m);
                join(&format!("note {}", number(&answer)), values)
            }
            Command::Draw { state } => {
                let mut state = *state;
                let value = draw(&mut state);
                format!("draw {value} {state}")
            }
            Command::Record { bytes } => answer_record(bytes),
            Command::Run { places, bytes } => answer_run(*places, bytes),
            Command::WavWrite { rate, places, samples } => {
                answer_lent("wavwrite", *places, |lent| wav::write(*rate, samples, lent))
            }
            Command::WavRead { places, bytes } => answer_wav_read(*places, bytes),
            Command::Gather { start, bytes } => {
                format!("gather {}", gather(bytes, *start as usize))
            }
            Command::Junction { left, right, delay, advance } => {
                let (junction, answer) = Junction::open(*left, *right, *delay, *advance);
                self.junction = junction;
                format!("junction {}", number(&answer))
            }
            Command::Move { delay } => format!("move {}", number(&self.junction.move_to(*delay))),
            Command::Tube { a, b } => {
                let (answer, (right, left)) = self.junction.sample(*a, *b);
                format!("tube {} {right} {left}", number(&answer))
            }
            Command::Panel { bytes } => {
                let (answer, numbers) = stored::panel(bytes);
                join(&format!("panel {}", number(&answer)), numbers)
            }
            Command::Merge { places, first, second } => {
                answer_lent("merge", *places, |lent| merge_into(first, second, lent))
            }
            Command::Help => help(),
        }
    }
}

/// The voice, and the strings, that the console keeps after a text.
pub fn kept_voices(text: &[u8]) -> (Voice, Vec<Voice>) {
    let mut console = Console::default();
    for command in commands(text).into_iter().filter_map(|(_, command)| command) {
        console.answer(&command);
    }
    (console.voice, console.instrument.strings)
}

/// What the console prints for a text: one answer to each line that is not empty, `error LINE` and
/// what was expected for a line that is no command.
pub fn answers(text: &[u8]) -> String {
    let mut console = Console::default();
    let mut printed = String::new();
    let lines = lines(text);
    for (line, command) in commands(text) {
        match command {
            Some(command) => printed.push_str(&console.answer(&command)),
            None => {
                let expected = expected(lines[line - 1]);
                printed.push_str(&format!("error {line} {expected}"));
            }
        }
        printed.push('\n');
    }
    printed
}
