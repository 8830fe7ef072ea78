//! Texts of several strings.

use jivaszte_cli::failure::Outcome;
use jivaszte_cli::player::{Player, Studio};
use jivaszte_cli::score::Score;
use jivaszte_cli::text::{compile_strings, Instead};

const SCORES: &str = include_str!("../../docs/SCORES.md");

fn strings(text: &str) -> Vec<(usize, Score)> {
    let strings = compile_strings(text, Instead::default());
    let strings = strings.unwrap_or_else(|faults| panic!("{faults:?}\n{text}"));
    strings.into_iter().map(|(string, compiled)| (string, compiled.score)).collect()
}

/// The first fault: its line and its words.
fn fault(text: &str) -> (usize, String) {
    let faults = compile_strings(text, Instead::default()).unwrap_err();
    (faults[0].spot.line, faults[0].message.clone())
}

struct Tape(Vec<i32>);

impl Studio for Tape {
    fn samples(&mut self, samples: &[i32]) -> Outcome {
        self.0.extend(samples);
        Ok(())
    }
}

fn played(strings: &[(usize, Score)]) -> Vec<i32> {
    let bytes: Vec<(usize, Vec<u8>)> =
        strings.iter().map(|(string, score)| (*string, score.encode())).collect();
    let scores: Vec<(usize, &[u8])> =
        bytes.iter().map(|(string, bytes)| (*string, &bytes[..])).collect();
    let mut tape = Tape(Vec::new());
    assert!(Player::play(&scores, &mut tape).is_ok());
    tape.0
}

/// What the proved run of each string's score puts out, summed and clipped.
fn summed(strings: &[(usize, Score)]) -> Vec<i32> {
    let mut sum = Vec::new();
    for (_, score) in strings {
        let bytes = score.encode();
        let mut take = vec![0; jivaszte_cli::take::length(&bytes) as usize];
        jivaszte::run(&bytes, &mut take).unwrap();
        sum.resize(take.len(), 0i64);
        sum.iter_mut().zip(take).for_each(|(sum, sample)| *sum += i64::from(sample));
    }
    sum.into_iter().map(|sum| sum.clamp(-8_388_607, 8_388_607) as i32).collect()
}

#[test]
fn the_documents_text_plays() {
    let part =
        SCORES.split("## Six strings").nth(1).unwrap().split("## MIDI files").next().unwrap();
    let text: Vec<&str> = part.lines().filter_map(|line| line.strip_prefix("    ")).collect();
    let strings = strings(&text.join("\n"));
    assert_eq!(strings.len(), 3);
    let take = played(&strings);
    assert_eq!(take.len(), 44_100 * 33 / 10);
    assert_eq!(take, summed(&strings));
}

#[test]
fn a_chord_that_clips() {
    let text = "tune E2\nstring 2 tune B2\nstring 6 tune E3\npluck 255\nstring 2 pluck 255\nstring 6 pluck 255\nwait 0.2s";
    let strings = strings(text);
    let take = played(&strings);
    assert_eq!(take, summed(&strings));
    assert!(take.iter().any(|sample| sample.abs() == 8_388_607));
}

/// A wait on any string, or on none, is a wait of all.
#[test]
fn one_clock() {
    let text =
        "string 2 tune A3\nwait 1s\nstring 2 wait 1s\nstring 3 tune E3\nstring 3 pluck 9, \n";
    assert!(compile_strings(text, Instead::default()).is_err());
    let text = "string 2 tune A3\nwait 1s\nstring 2 wait 1s\nstring 3 tune E3\nstring 3 pluck 9\nwait 500 samples";
    let strings = strings(text);
    assert_eq!(strings.iter().map(|(string, _)| *string).collect::<Vec<_>>(), [1, 2]);
    for (_, score) in &strings {
        let length: u64 =
            score.records.iter().map(|record| u64::from(record.wait.unwrap_or(0))).sum();
        assert_eq!(length, 88_700);
    }
    assert!(played(&strings)[..88_200].iter().all(|sample| *sample == 0));
}

/// Strings that are plucked together do not get the same noise.
#[test]
fn seeds_differ() {
    let text = "tune A3\nstring 2 tune A3\npluck 9\nstring 2 pluck 9\nwait 1s";
    let seeds: Vec<Option<u16>> = strings(text)
        .iter()
        .map(|(_, score)| score.records.iter().find_map(|record| record.pluck).unwrap().seed)
        .collect();
    assert_ne!(seeds[0], seeds[1]);
}

#[test]
fn faults() {
    assert_eq!(fault("string 7 tune A3"), (1, String::from("`7` is not a string, 1 to 6")));
    assert_eq!(fault("string 0 tune A3"), (1, String::from("`0` is not a string, 1 to 6")));
    assert_eq!(
        fault("tune A3\nstring 2 order 2").1,
        "this holds for all strings: take `string` away"
    );
    assert_eq!(
        fault("tune A3\nstring 2 pluck 9"),
        (2, String::from("a line `string 2 tune A4` must stand before the first event"))
    );
    assert_eq!(fault("string 2 tune A3\npluck 9").0, 2);
    assert_eq!(fault("tune A3\nstring 2 tune B3\norder 2").0, 3);
    assert_eq!(fault("").1, "the text has no line `tune A4`");
}

/// A text whose lines all name string 1 is the text without them.
#[test]
fn string_1_is_the_string() {
    let text = "tune A3\npluck 99\nwait 0.1s\nslide E4 over 100ms\nwait 0.1s\n";
    let named: String = text.lines().map(|line| format!("string 1 {line}\n")).collect();
    assert_eq!(strings(text), strings(&named));
}
