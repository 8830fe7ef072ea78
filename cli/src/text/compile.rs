//! Text to a score, with the places that its parts come from.

use super::advance::{with_least, Advance};
use super::band::Band;
use super::compiler::{Compiler, Origin};
use super::header::HeaderSpots;
use super::line::{Fault, Spot};
use super::repeat;
use super::values::Instead;
use crate::score::Score;
use jivaszte::Refusal;

/// A score, its rate, and where in the text its parts come from.
#[derive(Debug)]
pub struct Compiled {
    pub score: Score,
    pub rate: u32,
    pub advance: Advance,
    sets_advance: bool,
    header: HeaderSpots,
    origins: Vec<Origin>,
    /// What can be played, and is worth a word.
    pub remarks: Vec<Fault>,
}

/// The strings of a text, each with its number from 0 on.
pub type Strings = Vec<(usize, Compiled)>;

impl Compiled {
    /// What was read of one string, where it is opened.
    fn of(string: Compiler, sets_advance: bool) -> Option<Compiled> {
        let (header, spots) = string.header?;
        Some(Compiled {
            score: Score { header, records: string.records },
            rate: string.settings.rate,
            advance: Advance::Set,
            sets_advance,
            header: spots,
            origins: string.origins,
            remarks: string.remarks,
        })
    }

    /// The same, where the advance comes from this.
    pub(super) fn with_advance(self, advance: Advance) -> Compiled {
        Compiled { advance, ..self }
    }

    /// The place in the text of what a run refuses at a record, or at the header.
    pub fn spot(&self, refusal: Refusal, record: Option<usize>) -> Spot {
        let Some(origin) = record.and_then(|record| self.origins.get(record)) else {
            return self.header.spot(refusal);
        };
        match refusal {
            Refusal::Length | Refusal::Delay | Refusal::ChangeWaits => origin.change,
            Refusal::Amplitude | Refusal::Count => origin.pluck,
            _ => origin.start,
        }
    }
}

/// Compiles a text of one string; `rate` takes the place of the text's. All lines that are wrong are told.
pub fn compile(text: &str, rate: Option<u32>) -> Result<Compiled, Vec<Fault>> {
    compile_with(text, Instead { rate, advance: None })
}

/// Compiles a text of one string with another rate, another advance, or both.
pub fn compile_with(text: &str, instead: Instead) -> Result<Compiled, Vec<Fault>> {
    let mut strings = compile_strings(text, instead)?;
    let (_, first) = strings.remove(0);
    match strings.first() {
        None => Ok(first),
        Some((_, second)) => {
            let words = "this text has several strings: `play`, `check` and `compile` take it";
            Err(vec![Fault::new(second.header.spot(Refusal::Length), words)])
        }
    }
}

/// Compiles a text to a score for each of its strings, which are counted from 0, with another rate, another
/// advance, or both: a slide's steps take effect when they did. Where neither the text nor `instead` sets an
/// advance, it is the least that is enough.
pub fn compile_strings(text: &str, instead: Instead) -> Result<Strings, Vec<Fault>> {
    let strings = compile_once(text, instead)?;
    let set = instead.advance.is_some() || strings.iter().any(|(_, string)| string.sets_advance);
    match set {
        true => Ok(strings),
        false => with_least(text, instead),
    }
}

/// Compiles a text; where no advance is set it is 0.
pub fn compile_once(text: &str, instead: Instead) -> Result<Strings, Vec<Fault>> {
    let mut band = Band::new(instead);
    let text = text.strip_prefix('\u{FEFF}').unwrap_or(text);
    let mut faults = repeat::lines(text, &mut band);
    if !faults.is_empty() {
        faults.sort_by_key(|fault| fault.spot.line);
        return Err(faults);
    }
    let end = Spot { line: text.lines().count().max(1), column: 1 };
    let sets_advance = band.sets_advance();
    let strings = band.finish(end).map_err(|fault| vec![fault])?;
    let strings: Strings = strings
        .into_iter()
        .filter_map(|(index, string)| Some((index, Compiled::of(string, sets_advance)?)))
        .collect();
    match strings.is_empty() {
        true => Err(vec![Fault::new(end, "the text has no line `tune A4`")]),
        false => Ok(strings),
    }
}
