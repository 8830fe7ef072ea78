//! The numbers of a text: whole ones, times and losses.

use super::line::{Fault, Line, Spot};
use crate::decimal::Decimal;
use crate::number::grouped;
use crate::say::quoted;

/// The longest time, in samples.
const LONGEST: u64 = u32::MAX as u64;
/// Units of a loss.
const ONE: u64 = 65_536;

/// What the lines before have set.
#[derive(Clone, Copy, Debug)]
pub struct Settings {
    pub rate: u32,
    pub order: u8,
    /// Where the order was set.
    pub order_spot: Option<Spot>,
    pub tempo: Option<Decimal>,
}

/// What takes the place of a score's own rate and advance.
#[derive(Clone, Copy, Debug, Default)]
pub struct Instead {
    pub rate: Option<u32>,
    pub advance: Option<u8>,
}

/// A whole number up to `most`; `limits` says in words which ones a voice takes.
pub fn whole(line: &mut Line, what: &str, limits: &str, most: u64) -> Result<u64, Fault> {
    let word = line.next(what)?;
    let number = Decimal::parse(word.text).and_then(Decimal::whole);
    number
        .filter(|&number| number <= most)
        .ok_or_else(|| word.fault(format!("`{word}` is not {what}, {limits}")))
}

/// A number that a record or the header keeps in 16 bits.
pub fn field(line: &mut Line, what: &str, limits: &str) -> Result<u16, Fault> {
    whole(line, what, limits, u16::MAX.into()).map(|number| number as u16)
}

/// A time in samples: `0.5s`, `200ms`, `300 samples` or `1.5 beats`.
pub fn time(line: &mut Line, settings: &Settings) -> Result<u64, Fault> {
    let word = line.next("a time")?;
    let number = Decimal::prefix(word.text);
    let (number, unit) = number.ok_or_else(|| word.fault(format!("`{word}` is no time")))?;
    let unit = if unit.is_empty() { line.next("s, ms, samples or beats")?.text } else { unit };
    let rate = u64::from(settings.rate);
    let samples = match unit {
        "s" => number.times(rate, 1),
        "ms" => number.times(rate, 1_000),
        "samples" | "sample" => {
            let whole = number.whole().ok_or_else(|| word.fault("samples are whole numbers"))?;
            whole.into()
        }
        "beats" | "beat" => match settings.tempo {
            Some(tempo) => number.times_over(60 * rate, tempo),
            None => return Err(word.fault("beats need a line `tempo 96` before them")),
        },
        _ => {
            return Err(word
                .fault(format!("`{}` is no unit of time: s, ms, samples or beats", quoted(unit))))
        }
    };
    u64::try_from(samples)
        .ok()
        .filter(|&samples| samples <= LONGEST)
        .ok_or_else(|| word.fault(format!("a time is at most {} samples", grouped(LONGEST))))
}

/// A loss: 0 to 1, or `64880 units`.
pub fn loss(line: &mut Line) -> Result<u16, Fault> {
    let word = line.next("a loss")?;
    let number = Decimal::parse(word.text);
    let units = match line.accept(&["units", "unit"]) {
        Some(_) => number.and_then(Decimal::whole).filter(|&units| units < ONE).map(u128::from),
        None => number.map(|number| number.times(ONE, 1)).filter(|&units| units <= ONE.into()),
    };
    units
        .map(|units| units.min(u128::from(ONE) - 1) as u16)
        .ok_or_else(|| word.fault(format!("`{word}` is no loss: 0 to 1, or 0 to 65535 `units`")))
}
