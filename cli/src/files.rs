//! Files and the standard streams, read and written whole.

use crate::failure::{Failure, Outcome};
use crate::new_file::NewFile;
use crate::say::plain;
use std::fs::{self, File};
use std::io::{self, Read, Write};
use std::path::Path;

/// The name that stands for standard input and standard output.
const STANDARD: &str = "-";

/// A score is at most so many bytes, text or not.
pub const MOST_BYTES: u64 = 64 << 20;

/// Reads a score.
pub fn read(path: &Path) -> Outcome<Vec<u8>> {
    let mut bytes = Vec::new();
    let limit = MOST_BYTES + 1;
    let done = match is_standard(path) {
        true => io::stdin().lock().take(limit).read_to_end(&mut bytes),
        false => File::open(path).and_then(|file| file.take(limit).read_to_end(&mut bytes)),
    };
    done.map_err(|error| Failure::file("read", path, &error))?;
    match bytes.len() as u64 > MOST_BYTES {
        true => Err(Failure::input(format!(
            "{}: this is no score: it has more than {} MiB",
            input_name(path),
            MOST_BYTES >> 20
        ))),
        false => Ok(bytes),
    }
}

/// What messages call a file that is read.
pub fn input_name(path: &Path) -> String {
    named(path, "standard input")
}

/// What messages call a file that is written.
pub fn output_name(path: &Path) -> String {
    named(path, "standard output")
}

fn named(path: &Path, standard: &str) -> String {
    match is_standard(path) {
        true => String::from(standard),
        false => plain(&path.to_string_lossy()),
    }
}

/// A score is not overwritten by what is made of it.
pub fn refuse_same(input: &Path, output: &Path) -> Outcome {
    match (fs::canonicalize(input), fs::canonicalize(output)) {
        (Ok(from), Ok(to)) if from == to && to.is_file() => {
            Err(Failure::input(format!("{} would be overwritten: name another", input_name(input))))
        }
        _ => Ok(()),
    }
}

/// Endings of what a program like this might be asked for, and does not write.
const SOUNDS: [&str; 12] =
    ["flac", "mp3", "ogg", "oga", "opus", "m4a", "aac", "aif", "aiff", "au", "wma", "mid"];
const PICTURES: [&str; 7] = ["png", "jpg", "jpeg", "gif", "webp", "pdf", "bmp"];

/// Refuses a name whose ending promises another form than the one that is written.
pub fn refuse_form(output: &Path, form: &str) -> Outcome {
    let end = output.extension().unwrap_or_default().to_string_lossy().to_lowercase();
    let name = output_name(output);
    match (SOUNDS.contains(&end.as_str()), PICTURES.contains(&end.as_str())) {
        (true, _) if form == "WAV" => Err(Failure::call(format!(
            "{name}: play writes WAV, not {end}: name it TAKE.wav, then `sox TAKE.wav {name}`"
        ))),
        (true, _) | (_, true) => {
            Err(Failure::call(format!("{name}: what is written is {form}, not {end}")))
        }
        _ => Ok(()),
    }
}

/// Writes to standard output; a reader that has gone away ends the program without a word.
pub fn print(text: &str) -> Outcome {
    print_bytes(text.as_bytes())
}

pub fn print_bytes(bytes: &[u8]) -> Outcome {
    let mut out = io::stdout().lock();
    match out.write_all(bytes).and_then(|()| out.flush()) {
        Err(error) if error.kind() == io::ErrorKind::BrokenPipe => Err(Failure::input("")),
        done => done.map_err(|error| Failure::file("write", Path::new("standard output"), &error)),
    }
}

/// Whether what is written takes the place of a file at once, or not at all.
pub fn is_replaced(path: &Path) -> bool {
    !is_standard(path) && fs::metadata(path).map_or(true, |found| found.is_file() || found.is_dir())
}

pub fn is_standard(path: &Path) -> bool {
    path == Path::new(STANDARD)
}

/// Writes a whole file, or to standard output.
pub fn write(path: &Path, bytes: &[u8]) -> Outcome {
    if is_standard(path) {
        return print_bytes(bytes);
    }
    let mut file = NewFile::create(path)?;
    file.write(bytes)?;
    file.keep()
}
