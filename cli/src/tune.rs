//! A score from a file, text or bytes, and the words for what a run of it refuses.

use crate::bytes::{records, Damage, Place};
use crate::failure::{Failure, Outcome};
use crate::files;
use crate::kind::{self, looks_like_text};
use crate::number::grouped;
use crate::refusal;
use crate::score::Score;
use crate::take::{self, Refused};
use crate::text::{compile_strings, compile_with, Advance, Compiled, Fault, Instead};
use crate::tuning::DEFAULT_RATE;
use jivaszte::Refusal;
use std::path::Path;

pub struct Tune {
    pub name: String,
    pub bytes: Vec<u8>,
    pub rate: u32,
    text: Option<Compiled>,
}

impl Tune {
    /// Reads a file; a rate and an advance that are given take the place of the score's own.
    pub fn load(path: &Path, instead: Instead) -> Outcome<Tune> {
        Tune::of_bytes(path, files::read(path)?, instead)
    }

    /// What stands in a file, text or bytes.
    pub fn of_bytes(path: &Path, mut bytes: Vec<u8>, instead: Instead) -> Outcome<Tune> {
        if looks_like_text(&bytes) {
            return Tune::of_text(path, bytes, instead);
        }
        let rate = instead.rate.unwrap_or(DEFAULT_RATE);
        if let (Some(place), Some(advance)) = (bytes.get_mut(1), instead.advance) {
            *place = advance;
        }
        Ok(Tune { name: files::input_name(path), bytes, rate, text: None })
    }

    pub fn of_text(path: &Path, bytes: Vec<u8>, instead: Instead) -> Outcome<Tune> {
        let name = files::input_name(path);
        if let Some(words) = kind::other(&bytes) {
            return Err(Failure::input(format!("{name}: {words}")));
        }
        let text = utf8(&name, bytes)?;
        let compiled = compile_with(&text, instead).map_err(|faults| faulty(&name, &faults))?;
        Ok(Tune::compiled(&name, compiled))
    }

    /// A text of one string or several, each with its number from 0 on.
    pub fn of_strings(
        path: &Path,
        bytes: Vec<u8>,
        instead: Instead,
    ) -> Outcome<Vec<(usize, Tune)>> {
        let name = files::input_name(path);
        if let Some(words) = kind::other(&bytes) {
            return Err(Failure::input(format!("{name}: {words}")));
        }
        let text = utf8(&name, bytes)?;
        let strings = compile_strings(&text, instead).map_err(|faults| faulty(&name, &faults))?;
        let tune = |(string, compiled)| (string, Tune::compiled(&name, compiled));
        Ok(strings.into_iter().map(tune).collect())
    }

    fn compiled(name: &str, compiled: Compiled) -> Tune {
        let (bytes, rate) = (compiled.score.encode(), compiled.rate);
        Tune { name: String::from(name), bytes, rate, text: Some(compiled) }
    }

    /// A score that was made of what a file holds.
    pub fn of_score(path: &Path, score: &Score, rate: u32) -> Tune {
        Tune { name: files::input_name(path), bytes: score.encode(), rate, text: None }
    }

    /// The header and the records, where they can be read.
    pub fn score(&self) -> Outcome<Score> {
        Score::decode(&self.bytes).map_err(|Damage { place, refusal }| {
            Failure::input(format!("{}: {place}: {}", self.name, self.words(refusal)))
        })
    }

    pub fn is_text(&self) -> bool {
        self.text.is_some()
    }

    /// Where the advance comes from.
    pub fn advance(&self) -> Advance {
        self.text.as_ref().map_or(Advance::Set, |text| text.advance)
    }

    /// What is worth a word though it can be played: the first with its place, and how many there are.
    pub fn remark(&self) -> Option<String> {
        let remarks = self.text.as_ref().map_or(&[][..], |text| &text.remarks);
        let first = located(&self.name, remarks.first()?);
        match remarks.len() - 1 {
            0 => Some(first),
            more => Some(format!("{first}; so may {more} more")),
        }
    }

    /// Runs the score by the proved library; gives the take.
    pub fn run(&self) -> Outcome<Vec<i32>> {
        let length = take::length(&self.bytes);
        let room = take::room(length).ok_or_else(|| {
            let length = grouped(length);
            Failure::input(format!("{}: a take of {length} samples is too long", self.name))
        })?;
        let take = take::run(&self.bytes, room);
        let take = take.map_err(|refused| Failure::input(self.refused(refused)))?;
        match take.is_empty() {
            true => Err(self.empty()),
            false => Ok(take),
        }
    }

    /// The samples that its waits take.
    pub fn length(&self) -> u64 {
        take::length(&self.bytes)
    }

    pub fn empty(&self) -> Failure {
        Failure::input(format!("{}: the take is empty: nothing waits", self.name))
    }

    /// What was refused, with its place: line and column of a text, index and offset of a record.
    pub fn refused(&self, Refused { refusal, record }: Refused) -> String {
        let words = self.words(refusal);
        match &self.text {
            Some(text) => located(&self.name, &Fault::new(text.spot(refusal, record), words)),
            None => format!("{}: {}: {words}", self.name, self.place(record)),
        }
    }

    fn words(&self, refusal: Refusal) -> String {
        let words = refusal::message(refusal);
        match (refusal, self.bytes.get(1)) {
            (Refusal::ChangeWaits, Some(advance)) => {
                let late = format!("{advance} samples (the advance)");
                format!("{words}: an announced change takes effect {late} after it is called")
            }
            _ => words,
        }
    }

    fn place(&self, record: Option<usize>) -> Place {
        let of = |index| Some(Place::Record { index, offset: records(&self.bytes).nth(index)?.0 });
        record.and_then(of).unwrap_or(Place::Header)
    }
}

/// All that is wrong with a text, each with its place.
fn faulty(name: &str, faults: &[Fault]) -> Failure {
    let lines: Vec<String> = faults.iter().map(|fault| located(name, fault)).collect();
    Failure::input(lines.join("\n"))
}

fn located(name: &str, fault: &Fault) -> String {
    format!("{name}:{}:{}: {}", fault.spot.line, fault.spot.column, fault.message)
}

/// The text that bytes are, or the place of the first that is none.
fn utf8(name: &str, bytes: Vec<u8>) -> Outcome<String> {
    String::from_utf8(bytes).map_err(|error| {
        let good = &error.as_bytes()[..error.utf8_error().valid_up_to()];
        let before = String::from_utf8_lossy(good);
        let line = before.matches('\n').count() + 1;
        let column = before.rsplit('\n').next().unwrap_or_default().chars().count() + 1;
        Failure::input(format!("{name}:{line}:{column}: this is no text in UTF-8"))
    })
}
