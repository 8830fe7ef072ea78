//! An event line: one record, as a list of what it does, in the order in which it does it.

use super::line::{Fault, Line, Spot, Word};
use super::tunings;
use super::values::{self, Settings};
use crate::score::{Change, Pluck, Record};

/// The count of a pluck that does not say one, as that of bytes without one.
pub const USUAL_COUNT: u16 = 100;
/// The words that events start with, in the order in which a record does them.
const EVENTS: [&[&str]; 4] = [&["wait"], &["loss"], &["to", "jump"], &["pluck"]];

/// A record as a line says it: its wait may be longer than a record's.
#[derive(Debug, Default, PartialEq, Eq)]
pub struct Event {
    pub wait: Option<u64>,
    pub record: Record,
    pub change: Spot,
    pub pluck: Spot,
    /// Whether the pluck leaves its seed to the program.
    pub seedless: bool,
}

impl Event {
    pub fn read(line: &mut Line, settings: &Settings) -> Result<Event, Fault> {
        let mut event = Event::default();
        if line.accept(&["nothing"]).is_some() {
            return Ok(event);
        }
        let mut allowed = 0;
        loop {
            let word = line.next("an event")?;
            let found = EVENTS.iter().position(|words| words.contains(&word.text));
            let kind = found.ok_or_else(|| word.fault(unknown(&word)))?;
            if kind < allowed {
                let order = "in one line come wait, loss, to or jump, and pluck, in this order";
                return Err(word.fault(format!("`{word}` is too late here: {order}")));
            }
            allowed = kind + 1;
            match kind {
                0 => event.wait = Some(values::time(line, settings)?),
                1 => event.record.loss = Some(values::loss(line)?),
                2 => event.change(word.text == "jump", line, settings)?,
                _ => event.pluck(line)?,
            }
            if line.accept(&[","]).is_none() {
                return Ok(event);
            }
        }
    }

    fn change(&mut self, instant: bool, line: &mut Line, with: &Settings) -> Result<(), Fault> {
        self.change = line.spot();
        let (length, delay) = tunings::parts(line, with)?;
        self.record.change = Some(Change { length, delay, instant });
        Ok(())
    }

    /// An amplitude, `for 50` or `count absent`, `seed 7` or `seed absent`, in any order; the amplitude alone
    /// must be there.
    fn pluck(&mut self, line: &mut Line) -> Result<(), Fault> {
        self.pluck = line.spot();
        let (mut amplitude, mut count, mut seed) = (None, None, None);
        while !line.ends_event() {
            let spot = line.spot();
            let again = match line.accept(&["for", "count", "seed"]).map(|word| word.text) {
                Some("for") => {
                    count.replace(Some(values::field(line, "a count", "1 to 2048")?)).is_some()
                }
                Some("count") => count.replace(line.expect("absent").map(|()| None)?).is_some(),
                Some(_) => seed.replace(self.seed(line)?).is_some(),
                None if amplitude.is_some() => break,
                None => {
                    self.pluck = spot;
                    amplitude = Some(values::field(line, "an amplitude", "0 to 255")?);
                    false
                }
            };
            if again {
                return Err(Fault::new(spot, "a pluck has one count and one seed"));
            }
        }
        let missing = || Fault::new(line.spot(), "an amplitude is missing here");
        let amplitude = amplitude.ok_or_else(missing)?;
        self.seedless = seed.is_none();
        let (count, seed) = (count.unwrap_or(Some(USUAL_COUNT)), seed.flatten());
        self.record.pluck = Some(Pluck { amplitude, count, seed });
        Ok(())
    }

    /// What follows `seed`: a number, or `absent` where the bytes name none, which means 0.
    fn seed(&self, line: &mut Line) -> Result<Option<u16>, Fault> {
        match line.accept(&["absent"]) {
            Some(_) => Ok(None),
            None => values::field(line, "a seed", "0 to 65535").map(Some),
        }
    }
}

fn unknown(word: &Word) -> String {
    let events = "wait, pluck, to, jump, slide, vibrato, loss, tempo, repeat, end or nothing";
    match word.text {
        "slide" | "vibrato" | "tempo" | "repeat" | "end" | "nothing" => {
            format!("`{word}` needs a line of its own")
        }
        _ => format!("`{word}` is no event: {events}"),
    }
}
