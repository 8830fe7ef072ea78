//! `show`: bytes to text.

use crate::arguments::Arguments;
use crate::bytes::Damage;
use crate::failure::{Failure, Outcome};
use crate::files;
use crate::kind;
use crate::refusal;
use crate::say::say;
use crate::score::Score;
use crate::text::show;
use crate::tuning::{DEFAULT_RATE, ORDERS};
use jivaszte::Refusal;

pub fn run(arguments: &Arguments) -> Outcome {
    let file = arguments.file("show", "a score in bytes")?;
    let rate = arguments.rate()?.unwrap_or(DEFAULT_RATE);
    let bytes = files::read(file)?;
    let name = files::input_name(file);
    if let Some(words) = kind::no_bytes(&bytes) {
        return Err(Failure::input(format!("{name}: {words}")));
    }
    let score = Score::decode(&bytes).map_err(|Damage { place, refusal }| {
        let damaged = || format!("{place}: {}", refusal::message(refusal));
        Failure::input(format!("{name}: {}", kind::no_order(&bytes).unwrap_or_else(damaged)))
    })?;
    files::print(&show(&score, rate))?;
    if !ORDERS.contains(&score.header.order.into()) {
        say(&format!("{name} cannot be played: {}", refusal::message(Refusal::Order)));
    }
    Ok(())
}
