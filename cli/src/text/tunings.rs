//! The tunings of a text: notes by name, with cents, hertz, and lengths with delays.

use super::line::{Fault, Line, Word};
use super::values::{field, Settings};
use crate::decimal::Decimal;
use crate::pitch::Pitch;
use crate::refusal::message;
use crate::tuning::Tuning;
use jivaszte::Refusal;

/// The forms of a tuning, for messages.
pub const FORMS: &str = "A4, A4+15c, 441Hz, or L 99 d 2979";
const DELAYS: &str = "2049 to 6144 in order 1, and 4096 more for each further order";

/// A pitch by its name, with cents or without, or in hertz.
pub fn pitch<'a>(line: &mut Line<'a>) -> Result<(Word<'a>, Pitch), Fault> {
    let word = line.next("a note")?;
    let Some((number, unit)) = Decimal::prefix(word.text) else {
        let unknown = || word.fault(format!("no note is called {word}"));
        return Ok((word, Pitch::named(word.text).ok_or_else(unknown)?));
    };
    let unit = if unit.is_empty() { line.next("`Hz`")?.text } else { unit };
    match unit.eq_ignore_ascii_case("Hz") && !number.is_zero() {
        true => Ok((word, Pitch::Hertz(number))),
        false => Err(word.fault(format!("`{word}` is no pitch: {FORMS}"))),
    }
}

/// A tuning with its length, its delay or both given: `L 99 d 2979`, `L 99`, `d 2979`, or a pitch.
pub fn parts(line: &mut Line, settings: &Settings) -> Result<(Option<u16>, Option<u16>), Fault> {
    let length = line.accept(&["L"]).map(|_| field(line, "a length", "1 to 2048")).transpose()?;
    let delay = line.accept(&["d"]).map(|_| field(line, "a delay", DELAYS)).transpose()?;
    if length.is_some() || delay.is_some() {
        return Ok((length, delay));
    }
    let (word, pitch) = pitch(line)?;
    let tuning = pitch.tuning(settings.order.into(), settings.rate);
    let Tuning { length, delay } = tuning.map_err(|refusal| refused(refusal, &word, settings))?;
    Ok((Some(length), Some(delay)))
}

/// A pitch that the voice does not have, or an order that there is not.
fn refused(refusal: Refusal, word: &Word, settings: &Settings) -> Fault {
    let (rate, words) = (settings.rate, message(refusal));
    match (refusal, settings.order_spot) {
        (Refusal::Order, Some(spot)) => Fault::new(spot, words),
        _ => word.fault(format!("{word} is out of reach at {rate} samples a second: {words}")),
    }
}

/// A tuning with both its parts.
pub fn tuning(line: &mut Line, settings: &Settings) -> Result<Tuning, Fault> {
    let spot = line.spot();
    match parts(line, settings)? {
        (Some(length), Some(delay)) => Ok(Tuning { length, delay }),
        _ => Err(Fault::new(spot, "both a length and a delay are needed here")),
    }
}

/// A text that is a tuning and nothing else, with the hertz that it asks for.
pub fn asked(text: &str, order: u8, rate: u32) -> Result<(Tuning, f64), Fault> {
    let settings = Settings { rate, order, order_spot: None, tempo: None };
    let named = pitch(&mut Line::new(1, text)).map(|(_, pitch)| pitch.hertz());
    let mut line = Line::new(1, text);
    let tuning = tuning(&mut line, &settings)?;
    line.finish()?;
    Ok((tuning, named.unwrap_or_else(|_| tuning.hertz(rate))))
}
