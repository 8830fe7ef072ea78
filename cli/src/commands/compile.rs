//! `compile`: a text or a MIDI file to bytes, a score for each string.

use crate::arguments::Arguments;
use crate::failure::{Failure, Outcome};
use crate::files;
use crate::piece::Piece;
use crate::say::say;
use crate::tune::Tune;
use crate::tuning::DEFAULT_RATE;
use std::path::{Path, PathBuf};

pub fn run(arguments: &Arguments) -> Outcome {
    let file = arguments.file("compile", "a text")?;
    let output = arguments.output("compile", "TUNE.score")?;
    files::refuse_same(file, &output)?;
    let piece = Piece::of_words(file, arguments.instead()?)?;
    piece.remarks().iter().for_each(|remark| say(remark));
    match &piece.strings[..] {
        [(_, tune)] => write(&output, tune),
        _ if files::is_standard(&output) => {
            Err(Failure::call("several strings are several files: name the first, as TUNE.score"))
        }
        strings => strings.iter().try_for_each(|(string, tune)| {
            let output = of_string(&output, string + 1);
            files::refuse_same(file, &output)?;
            say(&format!("{}: string {}", files::output_name(&output), string + 1));
            write(&output, tune)
        }),
    }
}

/// The name of a string's score: `TUNE-2.score` beside `TUNE.score`.
fn of_string(output: &Path, string: usize) -> PathBuf {
    let mut name = output.file_stem().unwrap_or_default().to_os_string();
    name.push(format!("-{string}"));
    if let Some(end) = output.extension() {
        name.push(".");
        name.push(end);
    }
    output.with_file_name(name)
}

fn write(output: &Path, tune: &Tune) -> Outcome {
    files::write(output, &tune.bytes)?;
    let name = files::output_name(output);
    if tune.rate != DEFAULT_RATE {
        say(&format!("{name} does not keep the rate: play it with -r {}", tune.rate));
    }
    if let Err(refused) = tune.run() {
        say(&format!("{name} is written, but cannot be played:\n{}", refused.message));
    }
    Ok(())
}
