//! `merge`: two scores into one.

use crate::arguments::Arguments;
use crate::bytes::records;
use crate::failure::{Failure, Outcome};
use crate::files;
use crate::merge::merge;
use crate::number::{counted, duration};
use crate::say::say;
use crate::score::Score;
use crate::text::{show, Advance, Instead};
use crate::tune::Tune;
use crate::tuning::DEFAULT_RATE;
use std::path::{Path, PathBuf};

/// The two scores of a call; a text that sets no advance takes the other's, or the greater one of both.
fn pair(paths: [&Path; 2], instead: Instead) -> Outcome<[Tune; 2]> {
    let [first, second] = paths;
    if files::is_standard(first) && files::is_standard(second) {
        return Err(Failure::call("merge reads standard input once"));
    }
    let bytes = [files::read(first)?, files::read(second)?];
    let load = |index: usize, instead| Tune::of_bytes(paths[index], bytes[index].clone(), instead);
    let tunes = [load(0, instead)?, load(1, instead)?];
    let own = tunes.each_ref().map(|tune| tune.bytes.get(1).copied().unwrap_or(0));
    let sets = tunes.each_ref().map(|tune| tune.advance() == Advance::Set);
    let common = match sets {
        [true, true] => return Ok(tunes),
        [true, false] => own[0],
        [false, true] => own[1],
        [false, false] => own[0].max(own[1]),
    };
    let instead = Instead { advance: Some(common), ..instead };
    let [first, second] = tunes;
    Ok([
        if sets[0] { first } else { load(0, instead)? },
        if sets[1] { second } else { load(1, instead)? },
    ])
}

/// The rate of a merge: that of its texts.
fn rate(tunes: &[Tune; 2]) -> Outcome<u32> {
    match tunes.each_ref().map(|tune| tune.is_text().then_some(tune.rate)) {
        [Some(one), Some(other)] if one != other => {
            let names = tunes.each_ref().map(|tune| tune.name.as_str()).join(" and ");
            let words = format!("{names} have {one} and {other} samples a second");
            Err(Failure::input(format!("{words}: -r {one} gives both the same")))
        }
        [Some(rate), _] | [None, Some(rate)] => Ok(rate),
        [None, None] => Ok(tunes[0].rate),
    }
}

pub fn run(arguments: &Arguments) -> Outcome {
    let paths: Vec<PathBuf> = arguments.words.iter().map(PathBuf::from).collect();
    let [first, second] = &paths[..] else { return Err(Failure::call("merge needs two scores")) };
    let output = arguments.output("merge", "BOTH.score")?;
    files::refuse_same(first, &output)?;
    files::refuse_same(second, &output)?;
    let tunes = pair([first, second], arguments.instead()?)?;
    let (rate, bytes) = (rate(&tunes)?, merge(&tunes[0], &tunes[1])?);
    let name = files::output_name(&output);
    let text = output.extension().is_some_and(|end| end.eq_ignore_ascii_case("txt"));
    match (text, Score::decode(&bytes)) {
        (true, Ok(score)) => files::write(&output, show(&score, rate).as_bytes())?,
        _ => files::write(&output, &bytes)?,
    }
    let count = counted(records(&bytes).count() as u64, "record");
    let length = duration(crate::take::length(&bytes) as usize, rate);
    say(&format!("{name}: {count}, {length}"));
    if !text && rate != DEFAULT_RATE {
        say(&format!("{name} does not keep the rate: play it with -r {rate}"));
    }
    Ok(())
}
