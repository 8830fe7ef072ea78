//! Notes by name: a letter, sharps or flats, an octave, and cents if there are any.

use crate::decimal::Decimal;

/// The letters with their half tones above C, and the names that notes are given.
const LETTERS: [(char, i32); 7] =
    [('C', 0), ('D', 2), ('E', 4), ('F', 5), ('G', 7), ('A', 9), ('B', 11)];
const NAMES: [&str; 12] = ["C", "C#", "D", "D#", "E", "F", "F#", "G", "G#", "A", "A#", "B"];
/// How many notes there are; they are numbered as in MIDI, so that A4, 440 Hz, is 69.
pub const NOTES: u32 = 128;
const MOST_CENTS: f64 = 1_200.0;

/// The number and the cents of a name: `A4`, `Bb3`, `C#5-12.5c`.
pub fn read(word: &str) -> Option<(u32, f64)> {
    let mut rest = word.chars();
    let letter = rest.next()?.to_ascii_uppercase();
    let mut half_tones = LETTERS.iter().find(|(name, _)| *name == letter)?.1;
    let mut tail = rest.as_str();
    loop {
        half_tones += match rest.next()? {
            '#' | '♯' => 1,
            'b' | '♭' => -1,
            _ => break,
        };
        tail = rest.as_str();
    }
    let end = tail.get(1..)?.find(['+', '-']).map_or(tail.len(), |at| at + 1);
    let (octave, cents) = tail.split_at(end);
    let note = 12 * (whole(octave)? + 1) + half_tones;
    let note = u32::try_from(note).ok().filter(|&note| note < NOTES)?;
    Some((note, if cents.is_empty() { 0.0 } else { signed_cents(cents)? }))
}

/// The name of a number.
pub fn name(note: u32) -> String {
    format!("{}{}", NAMES[note as usize % 12], note as i32 / 12 - 1)
}

/// A whole number of one or two digits, with a minus or without a sign.
fn whole(word: &str) -> Option<i32> {
    let digits = word.strip_prefix('-').unwrap_or(word);
    let plain = (1..=2).contains(&digits.len()) && digits.bytes().all(|b| b.is_ascii_digit());
    plain.then(|| word.parse().ok()).flatten()
}

/// `+15c` or `-7.5c`.
fn signed_cents(word: &str) -> Option<f64> {
    let size = Decimal::parse(word.get(1..)?.strip_suffix('c')?)?.value();
    (size <= MOST_CENTS).then_some(if word.starts_with('-') { -size } else { size })
}

#[cfg(test)]
mod tests {
    use super::*;

    #[test]
    fn reads_names() {
        for (word, number) in [
            ("A4", 69),
            ("a4", 69),
            ("C4", 60),
            ("C-1", 0),
            ("G9", 127),
            ("C#4", 61),
            ("Db4", 61),
            ("D♭4", 61),
            ("bb3", 58),
            ("B#3", 60),
            ("Cb4", 59),
            ("F##4", 67),
            ("Ebb4", 62),
        ] {
            assert_eq!(read(word), Some((number, 0.0)), "{word}");
        }
        assert_eq!(read("A4+15c"), Some((69, 15.0)));
        assert_eq!(read("C-1-7.5c"), Some((0, -7.5)));
        for wrong in [
            "", "H4", "A", "A#", "4", "A4c", "A4+", "A4+c", "A4+15", "A+15c", "A4++1c", "A--1",
            "G#9",
        ] {
            assert_eq!(read(wrong), None, "{wrong}");
        }
    }

    #[test]
    fn every_note_has_a_name_that_is_read_back() {
        for number in 0..NOTES {
            assert_eq!(read(&name(number)), Some((number, 0.0)));
        }
    }
}
