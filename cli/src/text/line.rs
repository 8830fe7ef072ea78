//! A line of text: its words, each with its column, read one after the other.

use crate::say::quoted;
use std::fmt;

/// A place in a text; both count from 1, columns in characters.
#[derive(Clone, Copy, Debug, Default, PartialEq, Eq)]
pub struct Spot {
    pub line: usize,
    pub column: usize,
}

/// What is wrong with a text, and where.
#[derive(Clone, Debug, PartialEq, Eq)]
pub struct Fault {
    pub spot: Spot,
    pub message: String,
}

impl Fault {
    pub fn new(spot: Spot, message: impl Into<String>) -> Fault {
        Fault { spot, message: message.into() }
    }
}

#[derive(Clone, Copy, Debug, PartialEq, Eq)]
pub struct Word<'a> {
    pub text: &'a str,
    pub spot: Spot,
}

/// As messages quote it.
impl fmt::Display for Word<'_> {
    fn fmt(&self, f: &mut fmt::Formatter) -> fmt::Result {
        f.write_str(&quoted(self.text))
    }
}

impl Word<'_> {
    pub fn fault(&self, message: impl Into<String>) -> Fault {
        Fault::new(self.spot, message)
    }
}

/// The words of a line that are still to be read.
#[derive(Clone)]
pub struct Line<'a> {
    words: std::iter::Peekable<std::vec::IntoIter<Word<'a>>>,
    end: Spot,
}

impl<'a> Line<'a> {
    pub fn new(number: usize, text: &'a str) -> Line<'a> {
        let words = split(number, text);
        let after = |word: &Word| word.spot.column + word.text.chars().count();
        let end = Spot { line: number, column: words.last().map_or(1, after) };
        Line { words: words.into_iter().peekable(), end }
    }

    pub fn is_empty(&mut self) -> bool {
        self.words.peek().is_none()
    }

    /// Whether the next word is one of these.
    pub fn starts_with(&mut self, texts: &[&str]) -> bool {
        self.words.peek().is_some_and(|word| texts.contains(&word.text))
    }

    /// Where the next word stands, or the end of the line.
    pub fn spot(&mut self) -> Spot {
        self.words.peek().map_or(self.end, |word| word.spot)
    }

    /// Whether the event ends here: at the end of the line, or at a comma.
    pub fn ends_event(&mut self) -> bool {
        self.words.peek().is_none_or(|word| word.text == ",")
    }

    /// The next word; where there is none, the fault says what is missing.
    pub fn next(&mut self, expected: &str) -> Result<Word<'a>, Fault> {
        self.words.next().ok_or_else(|| Fault::new(self.end, format!("{expected} is missing here")))
    }

    /// The next word, if it is one of these.
    pub fn accept(&mut self, texts: &[&str]) -> Option<Word<'a>> {
        self.words.next_if(|word| texts.contains(&word.text))
    }

    /// A word that must stand here.
    pub fn expect(&mut self, text: &str) -> Result<(), Fault> {
        let word = self.next(&format!("`{text}`"))?;
        match word.text == text {
            true => Ok(()),
            false => Err(word.fault(format!("`{text}` must stand here, not `{word}`"))),
        }
    }

    /// The line must end here.
    pub fn finish(&mut self) -> Result<(), Fault> {
        match self.words.next() {
            Some(word) => Err(word.fault(format!("`{word}` is too much here"))),
            None => Ok(()),
        }
    }
}

/// Words end at spaces and commas; a comma is a word; a `#` that begins a word begins a comment.
fn split(line: usize, text: &str) -> Vec<Word<'_>> {
    let mut words = Vec::new();
    let mut open: Option<(usize, Spot)> = None;
    let characters = text.char_indices().chain([(text.len(), ' ')]).enumerate();
    for (index, (offset, character)) in characters {
        let spot = Spot { line, column: index + 1 };
        let ends = character == ',' || character.is_whitespace();
        match open {
            Some((start, from)) if ends => {
                words.push(Word { text: &text[start..offset], spot: from });
                open = None;
            }
            None if character == '#' => break,
            None if !ends => open = Some((offset, spot)),
            _ => {}
        }
        if character == ',' {
            words.push(Word { text: &text[offset..offset + 1], spot });
        }
    }
    words
}

#[cfg(test)]
mod tests {
    use super::*;

    #[test]
    fn words_have_their_columns() {
        let columns = |text| -> Vec<(usize, String)> {
            split(1, text).iter().map(|word| (word.spot.column, word.text.to_string())).collect()
        };
        let wanted = |words: &[(usize, &str)]| -> Vec<(usize, String)> {
            words.iter().map(|(column, text)| (*column, text.to_string())).collect()
        };
        assert_eq!(columns(""), wanted(&[]));
        assert_eq!(columns("# all of it"), wanted(&[]));
        assert_eq!(columns(" wait\t0.5s,to C#4 # to"), {
            wanted(&[(2, "wait"), (7, "0.5s"), (11, ","), (12, "to"), (15, "C#4")])
        });
        assert_eq!(columns("D♭4 x\r"), wanted(&[(1, "D♭4"), (5, "x")]));
    }
}
