//! Random texts: what compiles is shown as a text that compiles to the same; nothing else happens.

mod common;

use common::Random;
use jivaszte_cli::text::{compile, show, Compiled};

const HEADINGS: [&str; 8] =
    ["rate 48000", "order 2", "order 3", "order 1", "advance 10", "loss 0.99", "tempo 90", ""];
const NOTES: [&str; 10] = [
    "A4",
    "C#4",
    "Bb3",
    "e5",
    "A4+15c",
    "G3-7.5c",
    "441Hz",
    "220.5 Hz",
    "L 99 d 2979",
    "L 98 d 7075",
];
const TIMES: [&str; 7] =
    ["0.5s", "20ms", "300 samples", "1 beat", "0.25 beats", "1.75s", "70000 samples"];
const LOSSES: [&str; 5] = ["0", "1", "0.996", "0.12345", "65000 units"];
const PLUCKS: [&str; 5] =
    ["200", "255 for 7", "0 seed 9", "90 for 2048 seed 65535", "7 count absent"];
/// Words that stand anywhere in a wrong text.
const WORDS: [&str; 27] = [
    "wait", "pluck", "to", "jump", "slide", "loss", "tune", "rate", "order", "advance", "tempo",
    "over", "steps", "for", "seed", "L", "d", ",", "#", "A4", "0.5s", "7", "♯", "nothing",
    "vibrato", "repeat", "end",
];

fn event(random: &mut Random) -> String {
    let mut parts = Vec::new();
    if random.one_in(2) {
        parts.push(format!("wait {}", random.pick(&TIMES)));
    }
    if random.one_in(4) {
        parts.push(format!("loss {}", random.pick(&LOSSES)));
    }
    if random.one_in(3) {
        parts.push(format!("{} {}", random.pick(&["to", "jump"]), random.pick(&NOTES)));
    }
    if random.one_in(2) {
        parts.push(format!("pluck {}", random.pick(&PLUCKS)));
    }
    match parts.is_empty() {
        true => String::from("nothing"),
        false => parts.join(random.pick(&[", ", ",", " ,\t"])),
    }
}

fn line(random: &mut Random) -> String {
    match random.below(8) {
        0 => String::from("# a comment, with pluck 300"),
        1 => format!("tempo {}", 60 + random.below(100)),
        2 => {
            let steps = random.pick(&["", " steps 3", " steps 1"]);
            format!("slide {} over {}{steps}", random.pick(&NOTES), random.pick(&TIMES))
        }
        _ => event(random),
    }
}

fn text(random: &mut Random) -> String {
    let mut lines: Vec<String> = HEADINGS.iter().map(|line| line.to_string()).collect();
    lines.retain(|_| random.one_in(2));
    lines.retain(|line| line != "order 1" || random.one_in(2));
    lines.push(format!("tune {}", random.pick(&NOTES)));
    for _ in 0..random.below(12) {
        lines.push(line(random));
    }
    lines.join(random.pick(&["\n", "\r\n"]))
}

fn shown(compiled: &Compiled, seed: u64) {
    let text = show(&compiled.score, compiled.rate);
    let again = compile(&text, None).unwrap_or_else(|faults| panic!("{seed}: {faults:?}\n{text}"));
    assert_eq!(again.score.encode(), compiled.score.encode(), "seed {seed}:\n{text}");
}

#[test]
fn texts_to_bytes_and_back() {
    let mut compiled = 0;
    for seed in 0..3_000 {
        if let Ok(score) = compile(&text(&mut Random::new(seed)), None) {
            compiled += 1;
            shown(&score, seed);
        }
    }
    assert!(compiled > 1_000, "{compiled}");
}

/// Words in any order: a score, or faults that have places in the text.
#[test]
fn any_words() {
    for seed in 0..3_000 {
        let mut random = Random::new(seed);
        let mut text = String::from("tempo 60\ntune A4\n");
        for _ in 0..random.below(30) {
            text.push_str(random.pick(&WORDS));
            text.push_str(random.pick(&[" ", " ", " ", "", "\n"]));
        }
        match compile(&text, None) {
            Ok(score) => shown(&score, seed),
            Err(faults) => {
                for fault in faults {
                    let line = text.lines().nth(fault.spot.line - 1).unwrap();
                    assert!(fault.spot.column <= line.chars().count() + 1, "{fault:?}\n{text}");
                    assert!(!fault.message.is_empty());
                }
            }
        }
    }
}
