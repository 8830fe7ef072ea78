//! A score to text, which compiles to the same score.

use crate::pitch::Pitch;
use crate::score::{Change, Pluck, Record, Score};
use crate::tuning::Tuning;
use std::fmt::Write;

/// The order and rate by which tunings are given names and waits are given times.
struct Names {
    order: u32,
    rate: u32,
}

/// What a tuning or a change is called, with a comment where that is no name.
struct Named {
    words: String,
    comment: Option<String>,
}

/// A score in words, for takes of this rate.
pub fn show(score: &Score, rate: u32) -> String {
    let header = &score.header;
    let names = Names { order: header.order.into(), rate };
    let mut text = format!(
        "rate {rate}\norder {}\nadvance {}\nloss {}\n",
        header.order,
        header.advance,
        loss(header.loss)
    );
    let tune = names.tuning(header.tuning);
    let _ = writeln!(text, "tune {}{}", tune.words, remark(tune.comment));
    for record in &score.records {
        let _ = writeln!(text, "{}", names.record(record));
    }
    text
}

impl Names {
    fn record(&self, record: &Record) -> String {
        let change = record.change.map(|change| self.change(&change));
        let parts: Vec<String> = [
            record.wait.map(|wait| format!("wait {}", self.time(wait))),
            record.loss.map(|units| format!("loss {}", loss(units))),
            change.as_ref().map(|change| change.words.clone()),
            record.pluck.map(|plucked| pluck(&plucked)),
        ]
        .into_iter()
        .flatten()
        .collect();
        let comment = remark(change.and_then(|change| change.comment));
        match parts.is_empty() {
            true => String::from("nothing"),
            false => format!("{}{comment}", parts.join(", ")),
        }
    }

    /// In seconds or milliseconds, where it is a whole number of these.
    fn time(&self, samples: u16) -> String {
        let (thousands, rate) = (u64::from(samples) * 1_000, u64::from(self.rate));
        match (thousands % rate, thousands / rate) {
            (0, 1..) if thousands / rate % 100 == 0 => {
                format!("{}s", thousands as f64 / rate as f64 / 1_000.0)
            }
            (0, milliseconds @ 1..) => format!("{milliseconds}ms"),
            _ => format!("{samples} sample{}", if samples == 1 { "" } else { "s" }),
        }
    }

    fn change(&self, change: &Change) -> Named {
        let Named { words, comment } = match (change.length, change.delay) {
            (Some(length), Some(delay)) => self.tuning(Tuning { length, delay }),
            (length, delay) => {
                let part = |name, value: Option<u16>| value.map(|value| format!("{name} {value}"));
                let words = part("L", length).or(part("d", delay)).unwrap_or_default();
                Named { words, comment: None }
            }
        };
        let verb = if change.instant { "jump" } else { "to" };
        Named { words: format!("{verb} {words}"), comment }
    }

    /// A note, a note with whole cents, or length and delay with the nearest note beside them.
    fn tuning(&self, tuning: Tuning) -> Named {
        let nearest = Pitch::nearest(tuning.hertz(self.rate));
        let Some(Pitch::Note { note, cents }) = nearest else {
            return Named { words: raw(tuning), comment: None };
        };
        let is_it = |pitch: &Pitch| pitch.tuning(self.order, self.rate) == Ok(tuning);
        let candidates = [0.0, cents.round()].map(|cents| Pitch::Note { note, cents });
        match candidates.iter().find(|pitch| is_it(pitch)) {
            Some(pitch) => Named { words: pitch.to_string(), comment: None },
            None => {
                let note = Pitch::Note { note, cents: (10.0 * cents).round() / 10.0 };
                Named { words: raw(tuning), comment: Some(note.to_string()) }
            }
        }
    }
}

fn remark(comment: Option<String>) -> String {
    comment.map_or(String::new(), |comment| format!("  # {comment}"))
}

fn raw(tuning: Tuning) -> String {
    format!("L {} d {}", tuning.length, tuning.delay)
}

/// The shortest decimal below 1 that is read as so many units.
fn loss(units: u16) -> String {
    let exact = f64::from(units) / 65_536.0;
    let shortest = (0..=5).map(|places| format!("{exact:.places$}")).find(|decimal| {
        let read = crate::decimal::Decimal::parse(decimal).map(|number| number.times(65_536, 1));
        read == Some(units.into())
    });
    shortest.unwrap_or_else(|| format!("{units} units"))
}

fn pluck(pluck: &Pluck) -> String {
    let count = match pluck.count {
        Some(count) => format!("for {count}"),
        None => String::from("count absent"),
    };
    let seed = pluck.seed.map_or(String::from("absent"), |seed| seed.to_string());
    format!("pluck {} {count} seed {seed}", pluck.amplitude)
}

#[cfg(test)]
mod tests {
    use super::*;

    #[test]
    fn every_loss_is_a_decimal() {
        for units in 0..=u16::MAX {
            let words = loss(units);
            let number = crate::decimal::Decimal::parse(&words).expect(&words);
            assert_eq!(number.times(65_536, 1), units.into());
        }
        assert_eq!(
            (loss(0), loss(65_274), loss(65_535)),
            ("0".into(), "0.996".into(), "0.99998".into())
        );
    }
}
