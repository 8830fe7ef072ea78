//! `play`: a score to a WAV file, written as it is played.

use crate::arguments::Arguments;
use crate::failure::{Failure, Outcome};
use crate::files;
use crate::meter::Meter;
use crate::number::{counted, duration};
use crate::piece::Piece;
use crate::player::Studio;
use crate::progress::Progress;
use crate::recording::Recording;
use crate::say::say;
use crate::source::Source;
use std::path::Path;

/// Where a take is measured, and written if it is not the first of two passes.
struct Desk {
    meter: Meter,
    source: Option<Source>,
    recording: Option<Recording>,
    progress: Progress,
}

impl Studio for Desk {
    fn input(&mut self, samples: usize) -> Outcome<Option<&[i32]>> {
        match &mut self.source {
            Some(source) => source.next(samples),
            None => Ok(None),
        }
    }

    fn pluck(&mut self, amplitude: u16) {
        self.meter.pluck(amplitude);
    }

    fn samples(&mut self, samples: &[i32]) -> Outcome {
        self.meter.hear(samples);
        self.progress.advance(samples.len());
        self.recording.as_mut().map_or(Ok(()), |recording| recording.write(samples))
    }
}

/// A piece that is played, with what comes into it and how long it may ring.
struct Take {
    piece: Piece,
    through: Option<std::path::PathBuf>,
    ring: Option<u64>,
}

impl Take {
    fn play(&self, recording: Option<Recording>, length: u64) -> Outcome<Desk> {
        let through = self.through.as_ref();
        let source = through.map(|path| Source::open(path, self.piece.rate)).transpose()?;
        let meter = Meter::new(self.piece.rate);
        let mut desk = Desk { meter, source, recording, progress: Progress::new(length as usize) };
        self.piece.play(&mut desk, self.ring)?;
        desk.progress.end();
        Ok(desk)
    }

    /// Plays into a file whose header has the count of samples: where that is not known before, or where what
    /// is written cannot be taken back, the take is played twice.
    fn record(&self, output: &Path) -> Outcome<Desk> {
        let mut length = self.piece.length();
        if self.ring.is_some() || !files::is_replaced(output) {
            length = self.play(None, length)?.meter.samples;
        }
        if length == 0 {
            return Err(self.piece.empty());
        }
        let recording = Recording::create(output, self.piece.rate, length)?;
        let mut desk = self.play(Some(recording), length)?;
        desk.recording.take().map_or(Ok(()), Recording::finish)?;
        Ok(desk)
    }
}

pub fn run(arguments: &Arguments) -> Outcome {
    let file = arguments.file("play", "a score")?;
    let output = arguments.output("play", "TAKE.wav")?;
    let through = arguments.through();
    files::refuse_same(file, &output)?;
    through.iter().try_for_each(|through| files::refuse_same(through, &output))?;
    files::refuse_form(&output, "WAV")?;
    let piece = Piece::load(file, arguments.instead()?)?;
    if through.is_some() && piece.strings.len() > 1 {
        return Err(Failure::call("--through takes a tune of one string"));
    }
    let ring = arguments.ring(piece.rate)?;
    piece.remarks().iter().for_each(|remark| say(remark));
    let take = Take { piece, through, ring };
    let desk = take.record(&output)?;
    report(&output, &desk, &take);
    Ok(())
}

/// Says on standard error what was written, how it ends, and what was clipped.
fn report(output: &Path, Desk { meter, source, .. }: &Desk, take: &Take) {
    let (name, rate) = (files::output_name(output), take.piece.rate);
    let length = duration(meter.samples as usize, rate);
    say(&format!("{name}: {length}; {}", meter.end()));
    if meter.ends_in_a_click() {
        say(match take.ring {
            None => "it ends in a click while the string sounds: --ring 5 lets it ring out",
            Some(_) => "it ends in a click while the string sounds: let it ring longer",
        });
    }
    meter.words().iter().for_each(|words| say(words));
    if let Some(rest @ 1..) = source.as_ref().map(Source::rest) {
        say(&format!("the tune ends {} before the recording", counted(rest, "sample")));
    }
}
