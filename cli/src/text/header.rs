//! The lines before the first event: rate, order, advance, loss, and tune, which ends them.

use super::line::{Fault, Line, Spot, Word};
use super::values::{self, Settings};
use crate::score::Header;
use crate::tuning::{Tuning, DEFAULT_RATE, ORDERS, RATES};
use jivaszte::Refusal;
use std::ops::RangeInclusive;

const DEFAULT_ORDER: u8 = 1;
/// 0.996
const DEFAULT_LOSS: u16 = 65_274;

/// What was set, and where.
#[derive(Debug, Default)]
pub struct Draft {
    rate: Option<(u32, Spot)>,
    order: Option<(u8, Spot)>,
    advance: Option<(u8, Spot)>,
    loss: Option<(u16, Spot)>,
}

/// Where the numbers of a header come from.
#[derive(Clone, Copy, Debug, Default)]
pub struct HeaderSpots {
    order: Spot,
    advance: Spot,
    tune: Spot,
}

impl HeaderSpots {
    /// The place to which a refusal of the opening points.
    pub fn spot(&self, refusal: Refusal) -> Spot {
        match refusal {
            Refusal::Order => self.order,
            Refusal::Advance => self.advance,
            _ => self.tune,
        }
    }
}

/// Keeps a value; a second one of the same name is a fault.
fn set<T>(place: &mut Option<(T, Spot)>, word: &Word, spot: Spot, value: T) -> Result<(), Fault> {
    if let Some((_, before)) = place {
        let (name, line) = (word.text, before.line);
        return Err(word.fault(format!("{name} is set already, in line {line}")));
    }
    *place = Some((value, spot));
    Ok(())
}

impl Draft {
    /// A line that starts with `rate`, `order`, `advance` or `loss`.
    pub fn line(&mut self, word: &Word, line: &mut Line) -> Result<(), Fault> {
        let spot = line.spot();
        match word.text {
            "rate" => set(&mut self.rate, word, spot, rate(line)?),
            "order" => set(&mut self.order, word, spot, byte(line, "an order", &limits(ORDERS))?),
            "advance" => set(&mut self.advance, word, spot, byte(line, "an advance", "0 to 64")?),
            _ => set(&mut self.loss, word, spot, values::loss(line)?),
        }
    }

    fn order(&self) -> u8 {
        self.order.map_or(DEFAULT_ORDER, |(order, _)| order)
    }

    pub fn sets_advance(&self) -> bool {
        self.advance.is_some()
    }

    /// The header of a voice with this tuning, which was given at `tune`; its advance is 0 where none is set.
    pub fn header(&self, tuning: Tuning, tune: Spot) -> (Header, HeaderSpots) {
        let order = self.order();
        let advance = self.advance.map_or(0, |(advance, _)| advance);
        let loss = self.loss.map_or(DEFAULT_LOSS, |(loss, _)| loss);
        let spots = HeaderSpots {
            order: self.order.map_or(tune, |(_, spot)| spot),
            advance: self.advance.map_or(tune, |(_, spot)| spot),
            tune,
        };
        (Header { order, advance, tuning, loss }, spots)
    }

    pub fn settings(&self, rate: Option<u32>) -> Settings {
        let order_spot = self.order.map(|(_, spot)| spot);
        let rate = rate.unwrap_or(self.rate.map_or(DEFAULT_RATE, |(rate, _)| rate));
        Settings { rate, order: self.order(), order_spot, tempo: None }
    }
}

fn limits(range: RangeInclusive<u32>) -> String {
    format!("{} to {}", range.start(), range.end())
}

fn byte(line: &mut Line, what: &str, limits: &str) -> Result<u8, Fault> {
    values::whole(line, what, limits, u8::MAX.into()).map(|number| number as u8)
}

fn rate(line: &mut Line) -> Result<u32, Fault> {
    let spot = line.spot();
    let rate = values::whole(line, "a rate", &limits(RATES), u32::MAX.into())? as u32;
    match RATES.contains(&rate) {
        true => Ok(rate),
        false => Err(Fault::new(spot, Refusal::Rate.words())),
    }
}
