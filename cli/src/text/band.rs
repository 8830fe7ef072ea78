//! Six strings on one clock: a line goes to the string that it names, to string 1 where it names none, and a
//! wait on any of them is a wait of all.

use super::compiler::Compiler;
use super::line::{Fault, Line, Spot};
use super::values::{self, Instead};

pub const STRINGS: usize = 6;
/// What holds for all strings, and stands without one.
const COMMON: [&str; 4] = ["tempo", "rate", "order", "advance"];

pub struct Band {
    strings: [Compiler; STRINGS],
    /// Samples up to here.
    now: u64,
}

impl Band {
    pub fn new(instead: Instead) -> Band {
        let strings = std::array::from_fn(|string| Compiler::new(instead, string));
        Band { strings, now: 0 }
    }

    /// Whether a string is opened.
    pub fn is_open(&self) -> bool {
        self.strings.iter().any(|string| string.header.is_some())
    }

    /// Whether a line sets the advance.
    pub fn sets_advance(&self) -> bool {
        self.strings[0].sets_advance()
    }

    pub fn line(&mut self, mut line: Line) -> Result<(), Fault> {
        if line.is_empty() {
            return Ok(());
        }
        let start = line.spot();
        if line.accept(&["string"]).is_some() {
            let string = number(&mut line)?;
            return match line.starts_with(&COMMON) {
                true => {
                    Err(Fault::new(line.spot(), "this holds for all strings: take `string` away"))
                }
                false => self.on(string, line, start),
            };
        }
        if line.starts_with(&COMMON) || (line.starts_with(&["loss"]) && !self.is_open()) {
            return self.on_all(&line);
        }
        if self.is_open() && self.strings[0].header.is_none() && line.starts_with(&["wait"]) {
            return self.wait(line);
        }
        self.on(0, line, start)
    }

    /// A line on one string, which first waits until it is as far as the others.
    fn on(&mut self, string: usize, line: Line, start: Spot) -> Result<(), Fault> {
        let string = &mut self.strings[string];
        string.catch_up(self.now, start)?;
        let done = string.line(line);
        self.now = self.now.max(string.now());
        done
    }

    /// A line for all strings; what is wrong with it is told once.
    fn on_all(&mut self, line: &Line) -> Result<(), Fault> {
        let mut done = Ok(());
        for string in &mut self.strings {
            done = done.and(string.line(line.clone()));
        }
        done
    }

    /// A wait of all strings while string 1 is not opened.
    fn wait(&mut self, mut line: Line) -> Result<(), Fault> {
        line.expect("wait")?;
        self.now += values::time(&mut line, &self.strings[0].settings)?;
        line.finish()
    }

    /// The strings that are opened, with their numbers from 0 on, all of them as long; `end` is the text's.
    pub fn finish(self, end: Spot) -> Result<Vec<(usize, Compiler)>, Fault> {
        let now = self.now;
        let opened =
            self.strings.into_iter().enumerate().filter(|(_, string)| string.header.is_some());
        opened
            .map(|(index, mut string)| {
                string.catch_up(now, end)?;
                string.choose_seeds();
                Ok((index, string))
            })
            .collect()
    }
}

/// A string's number, 1 to 6 in a text, from 0 on here.
fn number(line: &mut Line) -> Result<usize, Fault> {
    let (spot, limits) = (line.spot(), "1 to 6");
    match values::whole(line, "a string", limits, STRINGS as u64)? {
        0 => Err(Fault::new(spot, format!("`0` is not a string, {limits}"))),
        number => Ok(number as usize - 1),
    }
}
