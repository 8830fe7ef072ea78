//! Console texts of six strings: document 02, L11.

use super::lines::hex;
use super::random::Random;
use super::text::Text;
use crate::console::kept_voices;
use crate::stored::stored;

/// The lines that `make` adds, each as a call on a string.
fn on(text: &mut Text, string: u32, make: impl Fn(&mut Text)) {
    let from = text.lines.len();
    make(text);
    for line in &mut text.lines[from..] {
        *line = format!("string {string} {line}");
    }
}

/// A string, one in eight times none.
fn string(text: &mut Text) -> u32 {
    let any = text.random.between(0, 5);
    let none = text.random.pick(&[6, 7, 255, 256, u32::MAX]);
    if text.random.one_in(8) {
        none
    } else {
        any
    }
}

/// A mix of so many samples; an odd one has another number of places.
fn mix(text: &mut Text, count: usize) {
    text.block(count);
    let last = text.lines.last_mut().expect("a line");
    *last = last.replace("block", "mix");
}

/// What a string stores, loaded on another or on the kept voice.
fn load(text: &mut Text) {
    let (voice, strings) = kept_voices(&text.bytes());
    let from = text.random.below(7) as usize;
    let bytes = stored(strings.get(from).unwrap_or(&voice));
    let to = string(text);
    match from {
        0..=5 => text.line(format!("string {from} store {}", bytes.len())),
        _ => text.line(format!("store {}", bytes.len())),
    }
    match text.random.one_in(8) {
        true => text.line(format!("load{}", hex(&bytes))),
        false => text.line(format!("string {to} load{}", hex(&bytes))),
    }
    text.line(format!("string {to} store {}", text.lines.len() % 40));
}

/// One call on some string.
fn call(text: &mut Text) {
    let string = string(text);
    match text.random.below(12) {
        0 => on(text, string, |text| text.open(None)),
        1..=2 => on(text, string, Text::pluck),
        3 => on(text, string, Text::loss),
        4..=7 => {
            let name = text.random.pick(&["announce", "instant", "ask"]);
            on(text, string, |text| text.change(name));
        }
        8 => on(text, string, |text| text.line("commit".to_string())),
        9 => on(text, string, |text| text.line("withdraw".to_string())),
        10 => on(text, string, Text::inspect),
        _ => on(text, string, |text| text.line("load 02 ff ff 00".to_string())),
    }
}

/// Strings opened at different moments, that retune together; one argument in `odd` is on a limit or beyond it.
pub fn strings(random: Random, odd: u64) -> Text {
    let mut text = Text::new(random, odd, false);
    let advance = text.random.pick(&[24, 8, 3, 1, 0]);
    for string in 0..6 {
        if !text.random.one_in(4) {
            on(&mut text, string, |text| text.open(Some(advance)));
            on(&mut text, string, Text::pluck);
        }
        let count = text.random.below(12) as usize;
        mix(&mut text, count);
    }
    for _ in 0..4 {
        for _ in 0..text.random.below(6) {
            call(&mut text);
        }
        let count = text.random.below(40) as usize;
        mix(&mut text, count);
        if text.random.one_in(2) {
            load(&mut text);
        }
    }
    let string = text.random.between(0, 5);
    on(&mut text, string, Text::inspect);
    text.inspect();
    text
}
