//! Lines of a console text with random arguments.

use super::field;
use super::random::Random;
use crate::number::{to_call, M};
use crate::thiran::ORDERS;
use crate::voice::Voice;

/// Lines of a console text, with what is known of the voice that the console then keeps.
pub struct Text {
    pub random: Random,
    pub lines: Vec<String>,
    /// One argument in so many is put on a limit or beyond it; 0 for none.
    pub odd: u64,
    /// Whether lengths are near to 2,048.
    pub long: bool,
    /// The order of the opened voice, or the one that the last change named.
    pub order: u32,
    advance: u32,
}

impl Text {
    /// An empty text; the voice is Open's refusal voice.
    pub fn new(random: Random, odd: u64, long: bool) -> Text {
        Text { random, lines: Vec::new(), odd, long, order: 1, advance: 0 }
    }

    /// Adds a line.
    pub fn line(&mut self, line: String) {
        self.lines.push(line);
    }

    /// Whether this argument is put on a limit or beyond it.
    pub fn is_odd(&mut self) -> bool {
        self.odd > 0 && self.random.one_in(self.odd)
    }

    /// The usual value, or an odd one.
    pub fn value(&mut self, usual: u32, lowest: u32, highest: u32) -> u32 {
        match self.is_odd() {
            true => field::boundary(&mut self.random, lowest, highest, u32::MAX),
            false => usual,
        }
    }

    /// A length.
    pub fn length(&mut self) -> u32 {
        let usual = match self.long {
            true => field::long_length(&mut self.random),
            false => field::length(&mut self.random),
        };
        self.value(usual, 1, 2_048)
    }

    /// A delay for this order.
    pub fn delay(&mut self, order: u32) -> u32 {
        match self.is_odd() {
            true => field::boundary_delay(&mut self.random, order, u32::MAX),
            false => field::delay(&mut self.random, order),
        }
    }

    /// `open`, with an advance or a random one.
    pub fn open(&mut self, advance: Option<u32>) {
        let order = field::order(&mut self.random);
        let (length, delay) = (self.length(), self.delay(order));
        let loss = field::loss(&mut self.random);
        let loss = self.value(loss, 0, 65_535);
        let usual = advance.unwrap_or_else(|| field::advance(&mut self.random));
        let advance = self.value(usual, 0, 64);
        let order = self.value(order, *ORDERS.start(), *ORDERS.end());
        let (voice, _) = Voice::open(order, length, delay, loss, advance);
        (self.order, self.advance) = (voice.tuning.order, voice.advance);
        self.line(format!("open {order} {length} {delay} {loss} {advance}"));
    }

    /// `loss`.
    pub fn loss(&mut self) {
        let usual = field::loss(&mut self.random);
        let loss = self.value(usual, 0, 65_535);
        self.line(format!("loss {loss}"));
    }

    /// `pluck`.
    pub fn pluck(&mut self) {
        let (amplitude, count) =
            (field::amplitude(&mut self.random), field::count(&mut self.random));
        let (amplitude, count) = (self.value(amplitude, 0, 255), self.value(count, 1, 2_048));
        let seed = field::seed(&mut self.random, u32::MAX);
        self.line(format!("pluck {amplitude} {count} {seed}"));
    }

    /// `announce`, `instant` or `ask`, to this order; an odd one names another.
    pub fn change_to(&mut self, name: &str, order: u32) {
        self.order = order;
        let (length, delay) = (self.length(), self.delay(order));
        let order = self.value(order, *ORDERS.start(), *ORDERS.end());
        self.line(format!("{name} {order} {length} {delay}"));
    }

    /// The same, to any order, or to the one named before.
    pub fn change(&mut self, name: &str) {
        let order = field::order(&mut self.random);
        let order = if self.random.one_in(3) { self.order } else { order };
        self.change_to(name, order);
    }

    /// One input sample; `kind` is the kind of signal.
    fn input(&mut self, kind: u64) -> i32 {
        let greatest = to_call(M);
        if kind < 7 && self.odd > 0 && self.random.one_in(150 * self.odd) {
            return self.random.pick(&[greatest + 1, -greatest - 1, i32::MAX, i32::MIN]);
        }
        let any = self.random.between(0, 2 * greatest as u32) as i32 - greatest;
        match kind {
            0 => self.random.pick(&[greatest, -greatest]),
            1..=2 => any,
            3 => any / 65_536,
            4 => any * i32::from(self.random.one_in(8)),
            _ => 0,
        }
    }

    /// `block` of so many samples; an odd one has another number of places for the output.
    pub fn block(&mut self, count: usize) {
        let kind = self.random.below(9);
        let odd_places = [0, count.saturating_sub(1), count + 1];
        let places = if self.is_odd() { self.random.pick(&odd_places) } else { count };
        let mut line = format!("block {places}");
        for _ in 0..count {
            line.push_str(&format!(" {}", self.input(kind)));
        }
        self.line(line);
    }

    /// A block whose length has to do with the advance, or is random and short.
    pub fn short_block(&mut self) {
        let advance = self.advance as usize;
        let random = self.random.below(100) as usize;
        let counts =
            [0, 1, advance, advance + 1, advance.saturating_sub(1), random, random, random];
        let count = self.random.pick(&counts);
        self.block(count);
    }

    /// `state` and `line`.
    pub fn inspect(&mut self) {
        let count = self.random.below(30);
        self.line("state".to_string());
        self.line(format!("line {count}"));
    }

    /// The text.
    pub fn bytes(&self) -> Vec<u8> {
        self.lines.iter().flat_map(|line| format!("{line}\n").into_bytes()).collect()
    }
}
