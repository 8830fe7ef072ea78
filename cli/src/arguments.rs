//! The words of a call: its files or names, and its options.

use crate::click::MOST_ADVANCE;
use crate::decimal::Decimal;
use crate::failure::{Failure, Outcome};
use crate::options::{missing, option, takes_value, unknown};
use crate::say::quoted;
use crate::text::Instead;
use crate::tuning::{ORDERS, RATES};
use std::ffi::OsString;
use std::ops::RangeInclusive;
use std::path::{Path, PathBuf};

const ADVANCES: RangeInclusive<u32> = 0..=MOST_ADVANCE;

#[derive(Debug, Default, PartialEq, Eq)]
pub struct Arguments {
    /// The words that are no options.
    pub words: Vec<OsString>,
    values: Vec<(char, OsString)>,
    pub help: bool,
}

impl Arguments {
    /// Reads the words of a command that takes the options of these letters.
    pub fn read(command: &str, given: &[OsString], letters: &str) -> Outcome<Arguments> {
        let mut arguments = Arguments::default();
        let mut given = given.iter();
        let mut plain = false;
        while let Some(word) = given.next() {
            match word.to_str() {
                Some("--") if !plain => plain = true,
                Some("--help" | "-h") if !plain => arguments.help = true,
                Some(text) if !plain && text.starts_with('-') && text != "-" => {
                    let (letter, value) = option(command, text, letters)?;
                    let value = match (takes_value(letter), value) {
                        (true, None) => {
                            given.next().cloned().ok_or_else(|| missing(text, letter))?
                        }
                        (true, Some(value)) => value,
                        (false, None) => OsString::new(),
                        (false, Some(_)) => return Err(unknown(command, text)),
                    };
                    if arguments.values.iter().any(|(before, _)| *before == letter) {
                        return Err(Failure::call(format!("{} is given twice", quoted(text))));
                    }
                    arguments.values.push((letter, value));
                }
                _ => arguments.words.push(word.clone()),
            }
        }
        Ok(arguments)
    }

    fn value(&self, letter: char) -> Option<&OsString> {
        self.values.iter().find(|(given, _)| *given == letter).map(|(_, value)| value)
    }

    /// The only word, a file.
    pub fn file(&self, command: &str, what: &str) -> Outcome<&Path> {
        match &self.words[..] {
            [file] => Ok(Path::new(file)),
            [] => Err(Failure::call(format!("{command} needs {what}"))),
            _ => Err(Failure::call(format!("{command} takes one file"))),
        }
    }

    pub fn output(&self, command: &str, what: &str) -> Outcome<PathBuf> {
        let output = self.value('o').map(PathBuf::from);
        output.ok_or_else(|| Failure::call(format!("{command} needs -o {what}")))
    }

    pub fn rate(&self) -> Outcome<Option<u32>> {
        self.number('r', "the rate", RATES)
    }

    pub fn order(&self) -> Outcome<Option<u32>> {
        self.number('n', "the order", ORDERS)
    }

    /// What takes the place of a score's own rate and advance.
    pub fn instead(&self) -> Outcome<Instead> {
        let advance = self.number('a', "the advance", ADVANCES)?.map(|advance| advance as u8);
        Ok(Instead { rate: self.rate()?, advance })
    }

    /// Advances with commas between them, in place of the score's own.
    pub fn advances(&self) -> Outcome<Vec<Option<u8>>> {
        let Some(value) = self.value('a') else { return Ok(vec![None]) };
        let text = value.to_string_lossy();
        let read = |part| ranged(part, "the advance", ADVANCES).map(|advance| Some(advance as u8));
        text.split(',').map(read).collect()
    }

    /// The most samples that a string may ring after the score, from seconds.
    pub fn ring(&self, rate: u32) -> Outcome<Option<u64>> {
        let Some(value) = self.value('R') else { return Ok(None) };
        let value = value.to_string_lossy();
        let samples = Decimal::parse(&value).map(|seconds| seconds.times(rate.into(), 1));
        let samples = samples.and_then(|samples| u64::try_from(samples).ok());
        let wrong = || format!("--ring takes seconds, as 5 or 2.5, not `{}`", quoted(&value));
        samples.map(Some).ok_or_else(|| Failure::call(wrong()))
    }

    /// The recording that comes into the string.
    pub fn through(&self) -> Option<PathBuf> {
        self.value('t').map(PathBuf::from)
    }

    pub fn json(&self) -> bool {
        self.value('j').is_some()
    }

    pub fn click(&self) -> bool {
        self.value('c').is_some()
    }

    pub fn table(&self) -> bool {
        self.value('T').is_some()
    }

    pub fn delay(&self, delays: RangeInclusive<u32>) -> Outcome<Option<u32>> {
        self.number('d', "the delay", delays)
    }

    fn number(&self, letter: char, what: &str, range: RangeInclusive<u32>) -> Outcome<Option<u32>> {
        let Some(value) = self.value(letter) else { return Ok(None) };
        ranged(&value.to_string_lossy(), what, range).map(Some)
    }
}

fn ranged(value: &str, what: &str, range: RangeInclusive<u32>) -> Outcome<u32> {
    let number = value.parse().ok().filter(|number| range.contains(number));
    let (low, high) = (range.start(), range.end());
    number
        .ok_or_else(|| Failure::call(format!("{what} is {low} to {high}, not `{}`", quoted(value))))
}

#[cfg(test)]
mod tests {
    use super::*;

    fn read(words: &[&str]) -> Outcome<Arguments> {
        let words: Vec<OsString> = words.iter().map(OsString::from).collect();
        Arguments::read("play", &words, "or")
    }

    #[test]
    fn options_stand_anywhere_and_in_every_form() {
        let forms: [&[&str]; 5] = [
            &["tune", "-o", "a", "-r", "48000"],
            &["-oa", "-r48000", "tune"],
            &["--output", "a", "--rate", "48000", "tune"],
            &["--rate=48000", "--output=a", "--", "tune"],
            &["-r", "48000", "tune", "-o", "a"],
        ];
        for form in forms {
            let call = read(form).unwrap();
            assert_eq!(call.file("play", "a tune").unwrap(), Path::new("tune"));
            assert_eq!(call.output("play", "TAKE.wav").unwrap(), Path::new("a"));
            assert_eq!(call.rate().unwrap(), Some(48_000));
        }
        assert_eq!(read(&["--", "-o"]).unwrap().words, ["-o"]);
        assert_eq!(read(&["-", "-h"]).unwrap().words, ["-"]);
    }

    #[test]
    fn wrong_calls() {
        for wrong in [&["-x"][..], &["-n", "1"], &["-o"], &["-o", "a", "-ob"], &["--out", "a"]] {
            assert_eq!(read(wrong).unwrap_err().status, 2, "{wrong:?}");
        }
        assert_eq!(read(&["-r", "7999"]).unwrap().rate().unwrap_err().status, 2);
        assert_eq!(read(&["a", "b"]).unwrap().file("play", "a tune").unwrap_err().status, 2);
    }
}
