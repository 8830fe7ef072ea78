//! `plot`: a take as a picture, or several of the same score with other advances.

use crate::arguments::Arguments;
use crate::failure::Outcome;
use crate::files;
use crate::number::duration;
use crate::plot::{draw, greatest, in_words, Take};
use crate::say::say;
use crate::text::Instead;
use crate::tune::Tune;
use std::path::Path;

pub fn run(arguments: &Arguments) -> Outcome {
    let file = arguments.file("plot", "a score")?;
    let output = arguments.output("plot", "TAKE.svg")?;
    files::refuse_same(file, &output)?;
    files::refuse_form(&output, "SVG")?;
    let (rate, advances) = (arguments.rate()?, arguments.advances()?);
    let bytes = files::read(file)?;
    let takes = advances.iter().map(|&advance| {
        let tune = Tune::of_bytes(file, bytes.clone(), Instead { rate, advance })?;
        Take::of(&name(file), &tune, arguments.click())
    });
    let mut takes: Vec<Take> = takes.collect::<Outcome<_>>()?;
    if let [_, _, ..] = &takes[..] {
        for (letter, take) in ('a'..='z').zip(&mut takes) {
            take.title = format!("{letter}) {}", take.title);
        }
    }
    files::write(&output, draw(&takes).document().as_bytes())?;
    takes.iter().for_each(|take| report(&output, take));
    Ok(())
}

fn name(file: &Path) -> String {
    match file.file_name() {
        Some(name) if !files::is_standard(file) => name.to_string_lossy().into_owned(),
        _ => files::input_name(file),
    }
}

/// Says on standard error what was drawn.
fn report(output: &Path, take: &Take) {
    let (plucks, changes) = (take.timeline.plucks.len(), take.timeline.changes.len());
    let length = duration(take.samples.len(), take.rate);
    let name = files::output_name(output);
    let advance = take.timeline.advance;
    say(&format!("{name}: {length}; plucks {plucks}, changes {changes}, Na {advance}"));
    if let Some(distances) = &take.distances {
        let most = greatest(distances);
        let (measured, proved) = (in_words(most.measured), in_words(most.proved));
        say(&format!("off the ideal by at most {measured}; proved: {proved}"));
    }
}
