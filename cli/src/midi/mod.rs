//! MIDI files on six strings: `file` has their bytes, `clock` their time, `strings` which string plays what,
//! `bends` when a bend can be announced, `scores` what is made of it.

mod bends;
mod channel;
mod clock;
mod file;
mod reader;
mod scores;
mod strings;

use crate::note;
use crate::number::counted;
use crate::recording::LONGEST;
use crate::score::Score;
use crate::text::Instead;
use crate::tuning::DEFAULT_RATE;
use clock::Clock;
use file::{Action, Event, Song, What};
pub use reader::Damage;
use scores::{score, Setup};
use strings::{Act, Step, Strings, DRUMS};

/// The order of the strings, their loss while a key is held, 0.996, and after it, 0.95.
const ORDER: u8 = 1;
const LOSS: u16 = 65_274;
const RELEASED: u16 = 62_259;
/// With this advance a change in order 1 is within 2 units of the ideal from its first sample on.
const ADVANCE: u8 = 24;
/// So many notes that cannot be played are named.
const MOST_NAMED: usize = 3;

/// The scores of a MIDI file, one for each string that sounds, its rate, and what it does not play.
pub struct Arrangement {
    pub rate: u32,
    pub scores: Vec<Score>,
    pub remarks: Vec<String>,
}

/// Whether bytes are a MIDI file, by how they start.
pub fn is_midi(bytes: &[u8]) -> bool {
    bytes.starts_with(b"MThd")
}

/// Reads a MIDI file; a rate and an advance that are given take the place of 44,100 and 24.
pub fn arrange(bytes: &[u8], instead: Instead) -> Result<Arrangement, Damage> {
    let song = Song::read(bytes)?;
    let rate = instead.rate.unwrap_or(DEFAULT_RATE);
    let clock = Clock::new(&song, rate);
    let strings = Strings::play(&song, &clock);
    let end = clock.sample(song.events.last().map_or(0, |event| event.tick));
    if end > LONGEST {
        let words = "the song is longer than a WAV file can be";
        return Err(Damage { byte: bytes.len(), words });
    }
    let sounding = strings.steps.iter().filter(|steps| !steps.is_empty()).count();
    let advance = instead.advance.unwrap_or(ADVANCE);
    let setup =
        Setup { rate, order: ORDER, advance, loss: LOSS, released: RELEASED, strings: sounding };
    let (mut scores, mut unplayed) = (Vec::new(), Vec::new());
    for steps in &strings.steps {
        let (played, not) = score(&setup, steps, end);
        scores.extend(played);
        unplayed.extend(not);
    }
    let mut remarks = drum_words(&song);
    remarks.extend(unplayed_words(&clock, &mut unplayed));
    Ok(Arrangement { rate, scores, remarks })
}

/// Words for the notes of drums, which no string plays.
fn drum_words(song: &Song) -> Vec<String> {
    let drum = |event: &&Event| matches!(event.what, What::Channel(DRUMS, Action::On { .. }));
    match song.events.iter().filter(drum).count() as u64 {
        0 => Vec::new(),
        notes => vec![format!("channel 10 has drums: {} not played", counted(notes, "note"))],
    }
}

/// Words for the notes that have no length on a string: the first few with track, bar and beat.
fn unplayed_words(clock: &Clock, steps: &mut Vec<Step>) -> Vec<String> {
    steps.retain(|step| !matches!(step.act, Act::Release));
    steps.sort_by_key(|step| step.tick);
    let mut words: Vec<String> = steps
        .iter()
        .take(MOST_NAMED)
        .map(|step| {
            let (bar, beat) = clock.bar(step.tick);
            let what = match step.act {
                Act::Pluck { note, .. } => note::name(note.into()),
                Act::Bend { note, .. } => format!("a bend of {}", note::name(note.into())),
                Act::Release => String::new(),
            };
            format!(
                "track {}, bar {bar}, beat {beat}: {what} is out of reach and not played",
                step.track
            )
        })
        .collect();
    if steps.len() > MOST_NAMED {
        words.push(format!("so are {} more", steps.len() - MOST_NAMED));
    }
    words
}
