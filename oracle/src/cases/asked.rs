//! Console texts of asked changes: document 02, L3.

use super::random::Random;
use super::text::Text;

/// A commit, a withdrawal, a change or an ask, of a voice on which some of them are refused.
fn interferes(text: &mut Text) {
    let name = text.random.pick(&["commit", "withdraw", "announce", "instant", "ask"]);
    match name {
        "commit" | "withdraw" => text.line(name.to_string()),
        name => text.change(name),
    }
}

/// Asked changes: committed early, on the sample and late, withdrawn, or left to wait; commits and
/// withdrawals of announced changes and of none; changes and asks while one waits.
pub fn asked(mut random: Random) -> Text {
    let long = random.one_in(8);
    let mut text = Text::new(random, 0, long);
    let advance = text.random.pick(&[64, 64, 24, 3, 2, 1, 0, 0]);
    text.open(Some(advance));
    text.pluck();
    for _ in 0..3 + text.random.below(4) {
        text.short_block();
        let name = text.random.pick(&["ask", "ask", "ask", "announce"]);
        text.change(name);
        let before = text.random.below(u64::from(advance) + 1) as usize;
        text.block(before);
        interferes(&mut text);
        text.inspect();
        text.block(advance as usize - before);
        if text.random.one_in(2) {
            let late = text.random.pick(&[1, 2, 63, 64, 65, 300]);
            text.block(late);
            text.inspect();
        }
        let name = text.random.pick(&["commit", "commit", "withdraw"]);
        text.line(name.to_string());
        if text.random.one_in(2) {
            text.inspect();
        }
        interferes(&mut text);
    }
    text.short_block();
    text.inspect();
    text
}
