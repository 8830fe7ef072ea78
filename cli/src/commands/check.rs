//! `check`: what a run would refuse.

use crate::arguments::Arguments;
use crate::enough;
use crate::failure::{Failure, Outcome};
use crate::files::{self, print};
use crate::json::{list, object, string};
use crate::meter::Meter;
use crate::number::duration;
use crate::piece::Piece;
use crate::player::Studio;
use crate::say::say;
use crate::text::Instead;
use std::path::Path;

impl Studio for Meter {
    fn pluck(&mut self, amplitude: u16) {
        Meter::pluck(self, amplitude);
    }

    fn samples(&mut self, samples: &[i32]) -> Outcome {
        self.hear(samples);
        Ok(())
    }
}

/// Plays a tune and writes nothing.
fn checked(file: &Path, instead: Instead) -> Outcome<(Piece, Meter)> {
    let piece = Piece::load(file, instead)?;
    let mut meter = Meter::new(piece.rate);
    piece.play(&mut meter, None)?;
    match meter.samples {
        0 => Err(piece.empty()),
        _ => Ok((piece, meter)),
    }
}

pub fn run(arguments: &Arguments) -> Outcome {
    let file = arguments.file("check", "a score")?;
    let (name, done) = (files::input_name(file), checked(file, arguments.instead()?));
    if arguments.json() {
        return json(&name, done);
    }
    let (piece, meter) = done?;
    piece.remarks().iter().chain(&meter.words()).for_each(|words| say(words));
    let length = duration(meter.samples as usize, piece.rate);
    let mut words = format!("{name}: {length}, nothing refused\n");
    for (string, tune) in &piece.strings {
        let string = match piece.strings.len() {
            1 => String::new(),
            _ => format!("string {}: ", string + 1),
        };
        words.push_str(&format!("{name}: {string}{}\n", enough::words(tune)?));
    }
    print(&words)
}

/// What was found as JSON; the status is that of the words.
fn json(name: &str, done: Outcome<(Piece, Meter)>) -> Outcome {
    let (fields, end) = match done {
        Ok((piece, meter)) => {
            let words = piece.remarks().iter().cloned().chain(meter.words());
            let fields = vec![
                ("accepted", String::from("true")),
                ("samples", meter.samples.to_string()),
                ("rate", piece.rate.to_string()),
                ("clipped", meter.clipped.to_string()),
                ("messages", list(words.map(|words| string(&words)))),
            ];
            (fields, Ok(()))
        }
        Err(Failure { message, status }) => {
            let fields = vec![
                ("accepted", String::from("false")),
                ("messages", list(message.lines().map(string))),
            ];
            (fields, Err(Failure { message: String::new(), status }))
        }
    };
    let fields = [vec![("file", string(name))], fields].concat();
    print(&format!("{}\n", object(&fields)))?;
    end
}
