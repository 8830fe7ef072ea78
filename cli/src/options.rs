//! The options that commands take, by letter and by long name.

use crate::failure::{Failure, Outcome};
use crate::say::quoted;
use std::ffi::OsString;

/// The options: the letter, the long name, and what follows it, if anything does.
pub const OPTIONS: [(char, &str, &str); 10] = [
    ('o', "output", "a file"),
    ('r', "rate", "a rate"),
    ('a', "advance", "an advance"),
    ('n', "order", "an order"),
    ('d', "delay", "a delay"),
    ('c', "click", ""),
    ('T', "table", ""),
    ('R', "ring", "seconds"),
    ('t', "through", "a WAV file"),
    ('j', "json", ""),
];
/// The letter of an option, and its value where the same word has it: `-r48000`, `--rate=48000`.
pub fn option(command: &str, text: &str, letters: &str) -> Outcome<(char, Option<OsString>)> {
    let found = OPTIONS.iter().filter(|(letter, ..)| letters.contains(*letter));
    let read = |letter: char, long: &str| {
        let (name, value) = match text.strip_prefix("--") {
            Some(rest) => {
                (rest.split('=').next() == Some(long), text.split_once('=').map(|(_, v)| v))
            }
            None => {
                (text[1..].starts_with(letter), text.get(2..).filter(|value| !value.is_empty()))
            }
        };
        name.then(|| (letter, value.map(OsString::from)))
    };
    let mut found = found.filter_map(|(letter, long, _)| read(*letter, long));
    found.next().ok_or_else(|| unknown(command, text))
}

pub fn unknown(command: &str, text: &str) -> Failure {
    Failure::call(format!("{command} has no option {}", quoted(text)))
}

pub fn takes_value(letter: char) -> bool {
    OPTIONS.iter().any(|(name, _, what)| *name == letter && !what.is_empty())
}

pub fn missing(text: &str, letter: char) -> Failure {
    let what = OPTIONS.iter().find(|(name, ..)| *name == letter).map_or("a value", |found| found.2);
    Failure::call(format!("{} needs {what}", quoted(text)))
}
