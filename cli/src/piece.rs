//! What is played: one string, or up to six of them, from a text, from bytes or from a MIDI file.

use crate::failure::{Failure, Outcome};
use crate::files;
use crate::kind::looks_like_text;
use crate::midi;
use crate::number::grouped;
use crate::player::{Player, Stop, Studio};
use crate::recording::LONGEST;
use crate::text::Instead;
use crate::tune::Tune;
use std::path::Path;

pub struct Piece {
    pub name: String,
    pub rate: u32,
    /// The scores, each with its string, counted from 0.
    pub strings: Vec<(usize, Tune)>,
    remarks: Vec<String>,
}

impl Piece {
    /// Reads a file; a rate and an advance that are given take the place of its own.
    pub fn load(path: &Path, instead: Instead) -> Outcome<Piece> {
        Piece::of_bytes(path, files::read(path)?, instead)
    }

    fn of_bytes(path: &Path, bytes: Vec<u8>, instead: Instead) -> Outcome<Piece> {
        match midi::is_midi(&bytes) {
            true => Piece::of_midi(path, &bytes, instead),
            false if looks_like_text(&bytes) => Piece::of_text(path, bytes, instead),
            false => {
                let tune = Tune::of_bytes(path, bytes, instead)?;
                Ok(Piece::of(path, tune.rate, vec![(0, tune)], Vec::new()))
            }
        }
    }

    /// A text, or a MIDI file, and no bytes.
    pub fn of_words(path: &Path, instead: Instead) -> Outcome<Piece> {
        let bytes = files::read(path)?;
        match midi::is_midi(&bytes) {
            true => Piece::of_midi(path, &bytes, instead),
            false => Piece::of_text(path, bytes, instead),
        }
    }

    fn of_text(path: &Path, bytes: Vec<u8>, instead: Instead) -> Outcome<Piece> {
        let strings = Tune::of_strings(path, bytes, instead)?;
        let remarks = strings.iter().filter_map(|(_, tune)| tune.remark()).collect();
        let rate = strings[0].1.rate;
        Ok(Piece::of(path, rate, strings, remarks))
    }

    fn of_midi(path: &Path, bytes: &[u8], instead: Instead) -> Outcome<Piece> {
        let name = files::input_name(path);
        let arranged = midi::arrange(bytes, instead).map_err(|damage| {
            Failure::input(format!(
                "{name}: byte {}: {}",
                grouped(damage.byte as u64),
                damage.words
            ))
        })?;
        let tune = |score: &crate::score::Score| Tune::of_score(path, score, arranged.rate);
        let strings: Vec<_> = arranged.scores.iter().map(tune).enumerate().collect();
        let remarks = arranged.remarks.iter().map(|words| format!("{name}: {words}")).collect();
        match strings.is_empty() {
            true => Err(Failure::input(format!("{name}: no note that a string can play"))),
            false => Ok(Piece::of(path, arranged.rate, strings, remarks)),
        }
    }

    fn of(path: &Path, rate: u32, strings: Vec<(usize, Tune)>, remarks: Vec<String>) -> Piece {
        Piece { name: files::input_name(path), rate, strings, remarks }
    }

    /// What is worth a word though it can be played.
    pub fn remarks(&self) -> &[String] {
        &self.remarks
    }

    /// The samples that the waits of the longest string take.
    pub fn length(&self) -> u64 {
        self.strings.iter().map(|(_, tune)| tune.length()).max().unwrap_or(0)
    }

    /// Plays all strings block by block; then lets them ring until they are quiet, at most so many samples.
    pub fn play(&self, studio: &mut dyn Studio, ring: Option<u64>) -> Outcome {
        let length = self.length() + ring.unwrap_or(0);
        if length > LONGEST {
            let (length, most) = (grouped(length), grouped(LONGEST));
            let words = format!("a take of {length} samples is too long: a WAV file holds {most}");
            return Err(Failure::input(format!("{}: {words}", self.name)));
        }
        let scores: Vec<(usize, &[u8])> =
            self.strings.iter().map(|(string, tune)| (*string, &tune.bytes[..])).collect();
        match Player::play(&scores, studio) {
            Ok(mut player) => ring.map_or(Ok(()), |most| player.ring(most, self.rate, studio)),
            Err(Stop::Refused(index, refused)) => {
                Err(Failure::input(self.strings[index].1.refused(refused)))
            }
            Err(Stop::Failed(failure)) => Err(failure),
        }
    }

    pub fn empty(&self) -> Failure {
        Failure::input(format!("{}: the take is empty: nothing waits", self.name))
    }
}
