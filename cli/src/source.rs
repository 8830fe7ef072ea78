//! A recording that comes into the string, read by the proved reader, a million samples at a time.

use crate::failure::{Failure, Outcome};
use crate::files::input_name;
use crate::recording::{header, HEADER_BYTES};
use crate::refusal::message;
use jivaszte::{wav_read, Refusal, MOST_SAMPLES};
use std::fs::File;
use std::io::Read;
use std::path::{Path, PathBuf};

pub struct Source {
    path: PathBuf,
    file: File,
    rate: u32,
    /// Samples of the file that are not read yet.
    left: u64,
    bytes: Vec<u8>,
    samples: Vec<i32>,
    /// The first of the samples that has not come in yet.
    next: usize,
    block: Vec<i32>,
}

/// A number of so many bytes, low byte first.
fn number(bytes: &[u8], at: usize, size: usize) -> Option<u64> {
    let bytes = bytes.get(at..at + size)?;
    Some(bytes.iter().rev().fold(0, |number, byte| number << 8 | u64::from(*byte)))
}

/// The body of a chunk of a WAV file, by its letters.
fn chunk<'a>(bytes: &'a [u8], name: &[u8]) -> Option<&'a [u8]> {
    let mut rest = bytes.get(12..)?;
    while let Some(size) = number(rest, 4, 4) {
        let body = rest.get(8..)?;
        if rest.starts_with(name) {
            return Some(&body[..body.len().min(size as usize)]);
        }
        rest = body.get(size as usize + size as usize % 2..)?;
    }
    None
}

/// What a file has that is not of the form that is read.
fn differences(bytes: &[u8]) -> String {
    if !bytes.starts_with(b"RIFF") || bytes.get(8..12) != Some(b"WAVE") {
        return String::from("it is no WAV file");
    }
    let Some(format) = chunk(bytes, b"fmt ") else {
        return String::from("it does not say its format");
    };
    let field = |at, size| number(format, at, size).unwrap_or(0);
    let channels = match field(2, 2) {
        1 => None,
        count => Some(format!("{count} channels, not 1")),
    };
    let bits = match field(14, 2) {
        24 => None,
        bits => Some(format!("{bits} bits a sample, not 24")),
    };
    let kind = match field(0, 2) {
        1 => None,
        3 => Some(String::from("numbers with a point")),
        0xFFFE => Some(String::from("a format chunk of the extensible form")),
        kind => Some(format!("format {kind}, not PCM")),
    };
    let found: Vec<String> = [channels, bits, kind].into_iter().flatten().collect();
    match found.is_empty() {
        true => String::from("it has other chunks, or is cut short"),
        false => format!("it has {}", found.join(", ")),
    }
}

impl Source {
    /// Opens a recording for a tune of this rate.
    pub fn open(path: &Path, rate: u32) -> Outcome<Source> {
        let failed = |error| Failure::file("read", path, &error);
        let mut file = File::open(path).map_err(failed)?;
        let mut bytes = Vec::new();
        (&mut file).take(HEADER_BYTES as u64).read_to_end(&mut bytes).map_err(failed)?;
        let found = number(&bytes, 24, 4).unwrap_or(0) as u32;
        let data = number(&bytes, 40, 4).unwrap_or(0);
        let size = file.metadata().map_err(failed)?;
        let whole = HEADER_BYTES as u64 + data + data % 2;
        let fits = !size.is_file() || size.len() == whole;
        let form = header(found, data / 3).is_ok_and(|header| header[..] == bytes[..]);
        if !form || data % 3 != 0 || !fits {
            (&mut file).take(1 << 16).read_to_end(&mut bytes).map_err(failed)?;
            let differs = differences(&bytes);
            let words = format!("{} ({differs})", message(Refusal::FileForm));
            return Err(convertible(path, rate, &words));
        }
        if found != rate {
            let words = format!("it has {found} samples a second, and the tune {rate}");
            return Err(convertible(path, rate, &words));
        }
        Ok(Source {
            path: path.into(),
            file,
            rate,
            left: data / 3,
            bytes,
            samples: Vec::new(),
            next: 0,
            block: Vec::new(),
        })
    }

    /// The next samples, with zeros after the last of the file; `None` where it has ended.
    pub fn next(&mut self, count: usize) -> Outcome<Option<&[i32]>> {
        self.block.clear();
        while self.block.len() < count {
            if self.next == self.samples.len() && !self.read()? {
                break;
            }
            let last = self.samples.len().min(self.next + count - self.block.len());
            self.block.extend(&self.samples[self.next..last]);
            self.next = last;
        }
        if self.block.is_empty() {
            return Ok(None);
        }
        self.block.resize(count, 0);
        Ok(Some(&self.block))
    }

    /// Samples that have not come in.
    pub fn rest(&self) -> u64 {
        self.left + (self.samples.len() - self.next) as u64
    }

    /// Reads a million samples at most, as a file of their own; says whether there were any.
    fn read(&mut self) -> Outcome<bool> {
        let count = self.left.min(MOST_SAMPLES as u64);
        if count == 0 {
            return Ok(false);
        }
        let pad = usize::from(count % 2 == 1);
        let size = HEADER_BYTES + 3 * count as usize;
        self.bytes.clear();
        self.bytes.extend(header(self.rate, count)?);
        self.bytes.resize(size, 0);
        let failed = |error| Failure::file("read", &self.path, &error);
        self.file.read_exact(&mut self.bytes[HEADER_BYTES..]).map_err(failed)?;
        self.bytes.resize(size + pad, 0);
        self.samples.resize(count as usize, 0);
        self.next = 0;
        self.left -= count;
        let name = input_name(&self.path);
        let read = wav_read(&self.bytes, &mut self.samples);
        read.map_err(|refusal| Failure::input(format!("{name}: {}", message(refusal))))?;
        Ok(true)
    }
}

/// What is wrong with a recording, and how to convert it.
fn convertible(path: &Path, rate: u32, words: &str) -> Failure {
    let name = input_name(path);
    let line = format!("sox {name} -c 1 -b 24 -r {rate} -t wavpcm IN24.wav");
    Failure::input(format!("{name}: {words}\nto convert it: {line}"))
}
