//! Console texts of changes of the order: document 02, L6.

use super::field;
use super::random::Random;
use super::text::Text;
use crate::thiran::ORDERS;

/// The three changes.
const CHANGES: [&str; 3] = ["announce", "instant", "ask"];

/// Orders outside 1 to 3; the low bits of the last four are within.
const OUTSIDE: [u32; 7] = [0, 4, u32::MAX, 257, 65_538, (1 << 31) + 1, u32::MAX - 4_092];

/// An order other than this one.
fn other(random: &mut Random, order: u32) -> u32 {
    let others: Vec<u32> = ORDERS.filter(|other| *other != order).collect();
    random.pick(&others)
}

/// A change of a voice of this order that names numbers outside the limits: the order alone, or with L and
/// d; L, or L and d; a d of the order in force, which is not that of the order named; a d of another order.
fn refused(text: &mut Text, order: u32) {
    let (name, outside) = (text.random.pick(&CHANGES), text.random.pick(&OUTSIDE));
    let (length, far) = (text.length(), text.random.pick(&[0, 2_049, u32::MAX]));
    let to = other(&mut text.random, order);
    let mut delay = |order| field::delay(&mut text.random, order);
    let (here, there) = (delay(order), delay(to));
    let (named, length, delay) = text.random.pick(&[
        (outside, length, here),
        (outside, far, here),
        (outside, far, 0),
        (to, far, there),
        (to, far, here),
        (to, length, here),
        (order, length, there),
    ]);
    text.line(format!("{name} {named} {length} {delay}"));
}

/// Some samples past the advance, and then the commit or the withdrawal of what was asked. True of a commit.
fn released(text: &mut Text) -> bool {
    let late = text.random.pick(&[0, 0, 1, 2, 64, 100]);
    text.block(late);
    let name = text.random.pick(&["commit", "commit", "withdraw"]);
    text.line(name.to_string());
    name == "commit"
}

/// Changes of each kind that go up and down in order, with those that are refused before them and while they
/// wait; the voice is shown while one waits, where it takes effect, and some samples later.
pub fn orders(mut random: Random) -> Text {
    let long = random.one_in(8);
    let mut text = Text::new(random, 0, long);
    let advance = text.random.pick(&[64, 24, 3, 2, 1, 0, 0]);
    text.open(Some(advance));
    text.pluck();
    let mut order = text.order;
    for _ in 0..4 + text.random.below(5) {
        text.short_block();
        refused(&mut text, order);
        let (name, to) = (text.random.pick(&CHANGES), other(&mut text.random, order));
        text.change_to(name, to);
        text.inspect();
        if name == "ask" || (name == "announce" && advance > 0) {
            let before = text.random.below(u64::from(advance).max(1)) as usize;
            text.block(before);
            refused(&mut text, order);
            text.change(name);
            text.inspect();
            text.block(advance as usize - before);
        }
        if name != "ask" || released(&mut text) {
            order = to;
        }
        text.inspect();
    }
    text.short_block();
    text.inspect();
    text
}
