//! Words on standard error. Nothing here fails: where they cannot be written, nobody reads them.

use std::io::{self, Write};

/// A word of a message is cut after so many characters.
const LONGEST_WORD: usize = 60;

/// A line on standard error.
pub fn say(words: &str) {
    let _ = writeln!(io::stderr(), "{words}");
}

/// Whether a terminal would obey a character, or turn the writing round, in place of showing it.
fn unsafe_to_show(letter: char) -> bool {
    letter.is_control()
        || matches!(letter, '\u{200E}' | '\u{200F}' | '\u{2028}'..='\u{202E}' | '\u{2066}'..='\u{2069}')
}

/// A name as a message has it: control characters are written as `\u{7}`.
pub fn plain(name: &str) -> String {
    let mut safe = String::new();
    for letter in name.chars() {
        match unsafe_to_show(letter) {
            true => safe.extend(letter.escape_default()),
            false => safe.push(letter),
        }
    }
    safe
}

/// A word as a message quotes it: plain, and cut where it is long.
pub fn quoted(word: &str) -> String {
    let safe = plain(word);
    match safe.char_indices().nth(LONGEST_WORD) {
        Some((end, _)) => format!("{}..", &safe[..end]),
        None => safe,
    }
}

#[cfg(test)]
mod tests {
    use super::*;

    #[test]
    fn words_are_safe_and_short() {
        assert_eq!(quoted("C♯4"), "C♯4");
        assert_eq!(quoted("a\u{1b}[2Jb\n\u{202E}"), "a\\u{1b}[2Jb\\n\\u{202e}");
        assert_eq!(quoted(&"x".repeat(60)), "x".repeat(60));
        assert_eq!(quoted(&"♯".repeat(61)), format!("{}..", "♯".repeat(60)));
        assert_eq!(plain(&"x".repeat(99)), "x".repeat(99));
    }
}
