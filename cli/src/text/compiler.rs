//! The lines of a text, one after the other: settings, then events, whose records are gathered.

use super::event::{Event, USUAL_COUNT};
use super::header::{Draft, HeaderSpots};
use super::line::{Fault, Line, Spot, Word};
use super::seeds::chosen;
use super::slide::{Call, Slide};
use super::tunings;
use super::values::{Instead, Settings};
use super::vibrato::Vibrato;
use crate::decimal::Decimal;
use crate::number::{counted, grouped};
use crate::score::{Change, Header, Record};
use crate::tuning::Tuning;

/// A score has at most so many records, which are at most 60 MiB of bytes.
const MOST_RECORDS: u64 = 1 << 22;
/// The seeds between the first ones of two strings.
const SEEDS_APART: usize = 11;
/// What the lines after a faulty `tune` are read with.
const ANY_TUNING: Tuning = Tuning { length: 1, delay: 4_096 };

/// Where the parts of a record come from.
#[derive(Clone, Copy, Debug, Default)]
pub struct Origin {
    pub start: Spot,
    pub change: Spot,
    pub pluck: Spot,
}

/// The lines of one string, as far as they are read.
pub struct Compiler {
    instead: Instead,
    /// 0 to 5.
    string: usize,
    draft: Draft,
    pub settings: Settings,
    pub header: Option<(Header, HeaderSpots)>,
    /// The tuning of the last change.
    tuning: Tuning,
    /// Samples up to here, and those up to which an announced change waits.
    now: u64,
    waits_until: u64,
    pub records: Vec<Record>,
    pub origins: Vec<Origin>,
    /// The records whose plucks leave their seeds to the program.
    seedless: Vec<usize>,
    /// What can be played, and is worth a word.
    pub remarks: Vec<Fault>,
}

impl Compiler {
    pub fn new(instead: Instead, string: usize) -> Compiler {
        let draft = Draft::default();
        Compiler {
            instead,
            string,
            settings: draft.settings(instead.rate),
            draft,
            header: None,
            tuning: Tuning::default(),
            now: 0,
            waits_until: 0,
            records: Vec::new(),
            origins: Vec::new(),
            seedless: Vec::new(),
            remarks: Vec::new(),
        }
    }

    pub fn line(&mut self, mut line: Line) -> Result<(), Fault> {
        if line.is_empty() {
            return Ok(());
        }
        let start = line.spot();
        if let Some(word) = line.accept(&["tempo"]) {
            self.tempo(&word, &mut line)?;
        } else if let Some(word) = line.accept(&["rate", "order", "advance", "tune"]) {
            self.heading(&word, &mut line)?;
        } else if self.header.is_some() {
            match line.accept(&["slide", "vibrato"]) {
                Some(word) if word.text == "slide" => self.slide(&word, &mut line)?,
                Some(word) => self.vibrato(&word, &mut line)?,
                None => self.event(start, &mut line)?,
            }
        } else if let Some(word) = line.accept(&["loss"]) {
            self.heading(&word, &mut line)?;
        } else {
            self.open(ANY_TUNING, start);
            let tune = self.tune();
            return Err(Fault::new(start, format!("{tune} must stand before the first event")));
        }
        line.finish()
    }

    /// What opens the string, as messages say it.
    fn tune(&self) -> String {
        match self.string {
            0 => String::from("a line `tune A4`"),
            other => format!("a line `string {} tune A4`", other + 1),
        }
    }

    /// Samples up to the end of what was read.
    pub fn now(&self) -> u64 {
        self.now
    }

    /// Waits until the others are as far, so many samples from the start, where the string is opened.
    pub fn catch_up(&mut self, now: u64, start: Spot) -> Result<(), Fault> {
        let late = now - self.now;
        if self.header.is_none() || late == 0 {
            return Ok(());
        }
        self.push(Some(late), Record::default(), Origin { start, change: start, pluck: start })
    }

    fn tempo(&mut self, word: &Word, line: &mut Line) -> Result<(), Fault> {
        let value = line.next("beats a minute")?;
        let tempo = Decimal::parse(value.text).filter(|tempo| !tempo.is_zero());
        self.settings.tempo = tempo.or(self.settings.tempo);
        let wrong = || format!("`{value}` is no {word}, in beats a minute");
        tempo.map(|_| ()).ok_or_else(|| value.fault(wrong()))
    }

    fn heading(&mut self, word: &Word, line: &mut Line) -> Result<(), Fault> {
        if self.header.is_some() {
            let name = word.text;
            return Err(word.fault(match name {
                "tune" => String::from("tune is set already: `to` or `jump` changes it"),
                _ => format!("{name} must stand before `tune`"),
            }));
        }
        if word.text != "tune" {
            let done = self.draft.line(word, line);
            self.settings =
                Settings { tempo: self.settings.tempo, ..self.draft.settings(self.instead.rate) };
            return done;
        }
        let spot = line.spot();
        let tuning = tunings::tuning(line, &self.settings);
        self.open(*tuning.as_ref().unwrap_or(&ANY_TUNING), spot);
        tuning.map(|_| ())
    }

    fn open(&mut self, tuning: Tuning, spot: Spot) {
        let (header, spots) = self.draft.header(tuning, spot);
        let advance = self.instead.advance.unwrap_or(header.advance);
        self.header = Some((Header { advance, ..header }, spots));
        self.tuning = tuning;
    }

    /// Whether a line sets the advance.
    pub fn sets_advance(&self) -> bool {
        self.draft.sets_advance()
    }

    fn advance(&self) -> u64 {
        self.header.map_or(0, |(header, _)| header.advance.into())
    }

    /// Adds a record that waits; a wait of more than 65,535 samples takes records of its own.
    fn push(&mut self, wait: Option<u64>, mut record: Record, origin: Origin) -> Result<(), Fault> {
        let longest = u64::from(u16::MAX);
        let mut rest = wait.unwrap_or(0);
        if self.records.len() as u64 + rest / longest >= MOST_RECORDS {
            let most = grouped(MOST_RECORDS);
            return Err(Fault::new(origin.start, format!("a score has at most {most} records")));
        }
        self.now += rest;
        while rest > longest {
            self.records.push(Record { wait: Some(u16::MAX), ..Record::default() });
            self.origins.push(Origin { start: origin.start, ..Origin::default() });
            rest -= longest;
        }
        record.wait = wait.map(|_| rest as u16);
        if let Some(Change { length, delay, instant }) = record.change {
            self.tuning.length = length.unwrap_or(self.tuning.length);
            self.tuning.delay = delay.unwrap_or(self.tuning.delay);
            self.waits_until = if instant { self.now } else { self.now + self.advance() };
        }
        self.records.push(record);
        self.origins.push(origin);
        Ok(())
    }

    /// Gives each pluck that names no seed one of its own; strings begin at different seeds, so that two that
    /// are plucked together do not sound alike.
    pub fn choose_seeds(&mut self) {
        let plucks = self.seedless.iter().filter_map(|&index| self.records[index].pluck);
        let before = std::iter::repeat_n(USUAL_COUNT, SEEDS_APART * self.string);
        let counts = before.chain(plucks.map(|pluck| pluck.count.unwrap_or(USUAL_COUNT)));
        let seeds = chosen(&counts.collect::<Vec<u16>>()).split_off(SEEDS_APART * self.string);
        for (&index, seed) in self.seedless.iter().zip(seeds) {
            if let Some(pluck) = &mut self.records[index].pluck {
                pluck.seed = Some(seed);
            }
        }
    }

    fn event(&mut self, start: Spot, line: &mut Line) -> Result<(), Fault> {
        let Event { wait, record, change, pluck, seedless } = Event::read(line, &self.settings)?;
        self.push(wait, record, Origin { start, change, pluck })?;
        self.seedless.extend(Some(self.records.len() - 1).filter(|_| seedless));
        Ok(())
    }

    fn slide(&mut self, word: &Word, line: &mut Line) -> Result<(), Fault> {
        let slide = Slide::read(line, &self.settings, self.advance(), self.tuning)?;
        let calls = slide.calls().map_err(|message| word.fault(message))?;
        self.changes(word, calls)?;
        self.remarks.extend(slide.remark().map(|remark| word.fault(remark)));
        Ok(())
    }

    fn vibrato(&mut self, word: &Word, line: &mut Line) -> Result<(), Fault> {
        let vibrato = Vibrato::read(line, &self.settings, self.advance(), self.tuning)?;
        let calls = vibrato.calls().map_err(|message| word.fault(message))?;
        self.changes(word, calls)
    }

    /// The changes of a slide or a vibrato.
    fn changes(&mut self, word: &Word, calls: Vec<Call>) -> Result<(), Fault> {
        let first = calls.first().map_or(0, |(wait, _)| *wait);
        if let Some(late @ 1..) = self.waits_until.checked_sub(self.now + first) {
            let more = counted(late, "sample");
            return Err(word.fault(format!("the change before still waits: wait {more} more")));
        }
        let origin = Origin { start: word.spot, change: word.spot, pluck: word.spot };
        for (wait, change) in calls {
            let record = Record { change, ..Record::default() };
            self.push(Some(wait).filter(|&wait| wait > 0), record, origin)?;
        }
        Ok(())
    }
}
