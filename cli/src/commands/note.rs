//! `note`: the length and the delay of a note, and the pitch at which the voice sounds it.

use crate::arguments::Arguments;
use crate::failure::{Failure, Outcome};
use crate::files::print;
use crate::json::object;
use crate::pitch::cents_above;
use crate::refusal::message;
use crate::sounding;
use crate::text::{asked, FORMS};
use crate::tuning::DEFAULT_RATE;

/// How far a pitch is off; what would be written as 0.00 cents is in tune.
fn off(cents: f64) -> String {
    let size = format!("{:.2}", cents.abs());
    match (size.as_str(), cents < 0.0) {
        ("0.00", _) => String::from("in tune"),
        (_, true) => format!("{size} cents flat"),
        (_, false) => format!("{size} cents sharp"),
    }
}

pub fn run(arguments: &Arguments) -> Outcome {
    let words: Vec<_> = arguments.words.iter().map(|word| word.to_string_lossy()).collect();
    if words.is_empty() {
        return Err(Failure::call(format!("note needs a note: {FORMS}")));
    }
    let rate = arguments.rate()?.unwrap_or(DEFAULT_RATE);
    let order = arguments.order()?.unwrap_or(1);
    let (tuning, hertz) = asked(&words.join(" "), order as u8, rate)
        .map_err(|fault| Failure::input(fault.message))?;
    let sounds =
        sounding::hertz(order, rate, tuning).map_err(|refusal| Failure::input(message(refusal)))?;
    let cents = cents_above(sounds, hertz);
    if arguments.json() {
        let fields = [
            ("length", tuning.length.to_string()),
            ("delay", tuning.delay.to_string()),
            ("asked_Hz", format!("{hertz:.3}")),
            ("sounds_Hz", format!("{sounds:.3}")),
            ("cents", format!("{:.3}", cents + 0.0)),
        ];
        return print(&format!("{}\n", object(&fields)));
    }
    print(&format!(
        "L {} d {}\nasked {hertz:.3} Hz, sounds {sounds:.3} Hz: {}\n",
        tuning.length,
        tuning.delay,
        off(cents)
    ))
}
