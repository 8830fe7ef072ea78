//! Console texts that are lists of calls on a voice.

use super::random::Random;
use super::text::Text;

/// One random call, or a line that shows the voice.
pub fn any_call(text: &mut Text) {
    match text.random.below(18) {
        0..=5 => text.short_block(),
        6..=7 => text.pluck(),
        8 => text.loss(),
        9 => text.change("announce"),
        10..=11 => text.change("instant"),
        12..=13 => text.change("ask"),
        14..=15 => text.line("commit".to_string()),
        16 => text.line("withdraw".to_string()),
        _ => text.inspect(),
    }
}

/// One or two lists of random calls; one argument in `odd` is on a limit or beyond it. Some texts
/// begin without an open.
pub fn any_list(random: Random, odd: u64) -> Text {
    let mut text = Text::new(random, odd, false);
    for _ in 0..1 + text.random.below(2) {
        if !text.random.one_in(8) {
            text.open(None);
        }
        for _ in 0..5 + text.random.below(20) {
            any_call(&mut text);
        }
        text.inspect();
    }
    text
}

/// Changes while one waits, of both kinds, and changes at the step at which one takes effect.
pub fn waiting(random: Random) -> Text {
    let mut text = Text::new(random, 0, false);
    let advance = text.random.pick(&[64, 64, 1, 2, 3, 0]);
    text.open(Some(advance));
    text.pluck();
    for _ in 0..2 + text.random.below(4) {
        text.short_block();
        text.change("announce");
        let before = text.random.below(u64::from(advance) + 1) as usize;
        text.block(before);
        let name = text.random.pick(&["announce", "instant"]);
        text.change(name);
        text.inspect();
        text.block(advance as usize - before);
        let name = text.random.pick(&["announce", "instant", "state"]);
        match name {
            "state" => text.inspect(),
            name => text.change(name),
        }
    }
    text.short_block();
    text.inspect();
    text
}

/// Instant changes with an advance of 64 that reach back before opening, over zeros or not.
pub fn early(random: Random) -> Text {
    let mut text = Text::new(random, 0, false);
    for _ in 0..3 {
        text.open(Some(64));
        if text.random.one_in(2) {
            text.pluck();
        }
        let mut steps = 0;
        while steps < 64 {
            let count = text.random.below(40);
            text.block(count as usize);
            text.change("instant");
            text.inspect();
            steps += count + 1;
        }
        text.block(70);
        text.inspect();
    }
    text
}

/// Plucks replaced while they sound, of amplitude 0 too, and plucks that end within a block.
pub fn replaced(random: Random) -> Text {
    let mut text = Text::new(random, 0, false);
    text.open(None);
    for _ in 0..6 {
        let count = 1 + text.random.below(60);
        let seed = text.random.number() as u32;
        let amplitude = text.random.pick(&[0, 1, 2, 128, 254, 255]);
        text.line(format!("pluck {amplitude} {count} {seed}"));
        let steps = text.random.pick(&[count / 2, count - 1, count, count + 1, count + 20]);
        text.block(steps as usize);
        text.inspect();
    }
    text
}

/// Lengths near to 2,048 and an advance of 64, so that the oldest samples of the line are read.
pub fn long(random: Random) -> Text {
    let mut text = Text::new(random, 0, true);
    text.open(Some(64));
    text.line("pluck 255 2048 1".to_string());
    let count = text.random.pick(&[2_047, 2_048, 2_049, 2_111, 2_112, 2_113, 2_150]);
    text.block(count);
    for _ in 0..2 {
        text.change("instant");
        text.inspect();
        text.block(70);
        text.change("announce");
        text.block(64);
        text.inspect();
    }
    text.block(2_100);
    text.inspect();
    text.line("line 2112".to_string());
    text
}
