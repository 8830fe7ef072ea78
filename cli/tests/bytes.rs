//! Random scores in bytes: `show` gives a text that compiles to the same bytes, or says what is wrong.

mod common;

use common::Random;
use jivaszte_cli::failure::Outcome;
use jivaszte_cli::player::{Player, Stop, Studio};
use jivaszte_cli::score::{Change, Header, Pluck, Record, Score};
use jivaszte_cli::take;
use jivaszte_cli::text::{compile, show};
use jivaszte_cli::tuning::{delays, Tuning, ORDERS};

/// A number that a voice takes, or now and then any number.
fn number(random: &mut Random, low: u32, high: u32) -> u16 {
    match random.below(8) {
        0 => random.below(65_536) as u16,
        1 => *random.pick(&[&0, &1, &2_048, &2_049, &65_535]),
        _ => (u64::from(low) + random.below((high - low + 1).into())) as u16,
    }
}

fn maybe<T>(random: &mut Random, make: impl FnOnce(&mut Random) -> T) -> Option<T> {
    random.one_in(2).then(|| make(random))
}

/// A tuning of the order, a note's as often as not.
fn tuning(random: &mut Random, order: u32, rate: u32) -> Tuning {
    let note = 40 + random.below(50) as u32;
    match jivaszte::note(order, rate, note) {
        Ok((length, delay)) if random.one_in(2) => {
            Tuning { length: length as u16, delay: delay as u16 }
        }
        _ => {
            let range = delays(order.clamp(*ORDERS.start(), *ORDERS.end()));
            let length = number(random, 1, 2_048);
            Tuning { length, delay: number(random, *range.start(), *range.end()) }
        }
    }
}

fn change(random: &mut Random, order: u32, rate: u32) -> Change {
    let Tuning { length, delay } = tuning(random, order, rate);
    let (length, delay) = match random.below(4) {
        0 => (Some(length), None),
        1 => (None, Some(delay)),
        _ => (Some(length), Some(delay)),
    };
    Change { length, delay, instant: random.one_in(2) }
}

fn pluck(random: &mut Random) -> Pluck {
    let amplitude = number(random, 0, 255);
    let count = maybe(random, |random| number(random, 1, 2_048));
    Pluck { amplitude, count, seed: maybe(random, |random| random.below(65_536) as u16) }
}

fn wait(random: &mut Random, rate: u32) -> u16 {
    match random.below(3) {
        0 => (u64::from(rate) * random.below(800) / 1_000).min(65_535) as u16,
        1 => random.below(300) as u16,
        _ => random.below(65_536) as u16,
    }
}

fn score(random: &mut Random, rate: u32) -> Score {
    let order = if random.one_in(10) { random.below(9) } else { 1 + random.below(3) } as u32;
    let advances = if random.one_in(8) { 256 } else { 65 };
    let header = Header {
        order: order as u8,
        advance: random.below(advances) as u8,
        tuning: tuning(random, order, rate),
        loss: random.below(65_536) as u16,
    };
    let record = |random: &mut Random| Record {
        wait: maybe(random, |random| wait(random, rate)),
        loss: maybe(random, |random| random.below(65_536) as u16),
        change: maybe(random, |random| change(random, order, rate)),
        pluck: maybe(random, pluck),
    };
    let count = random.below(20);
    Score { header, records: (0..count).map(|_| record(random)).collect() }
}

/// What a studio gets.
#[derive(Default)]
struct Tape(Vec<i32>);

impl Studio for Tape {
    fn samples(&mut self, samples: &[i32]) -> Outcome {
        self.0.extend(samples);
        Ok(())
    }
}

/// Block by block on a kept voice, a score gives the samples of its proved run, or is refused as it is.
#[test]
fn played_as_it_runs() {
    let (mut played, mut refused) = (0, 0);
    for seed in 0..600 {
        let mut random = Random::new(seed);
        let mut score = score(&mut random, 44_100);
        score.records.iter_mut().for_each(|record| record.wait = record.wait.map(|w| w % 20_000));
        let mut bytes = score.encode();
        if random.one_in(4) {
            bytes.truncate(random.below(bytes.len() as u64) as usize);
        }
        let run = take::run(&bytes, take::room(take::length(&bytes)).unwrap());
        let mut tape = Tape::default();
        match (Player::play(&[(0, &bytes)], &mut tape), run) {
            (Ok(_), Ok(samples)) => {
                assert!(tape.0 == samples, "seed {seed}");
                played += samples.len();
            }
            (Err(Stop::Refused(_, by)), Err(run)) => {
                assert_eq!(by, run, "seed {seed}");
                refused += 1;
            }
            (_, run) => panic!("seed {seed}: {run:?}"),
        }
    }
    assert!(played > 500_000 && refused > 100, "{played} {refused}");
}

#[test]
fn bytes_to_text_and_back() {
    for seed in 0..3_000 {
        let mut random = Random::new(seed);
        let rate = *random.pick(&[&8_000, &22_050, &44_100, &48_000, &96_000, &192_000]);
        let score = score(&mut random, rate);
        let bytes = score.encode();
        assert_eq!(Score::decode(&bytes).as_ref(), Ok(&score), "seed {seed}");
        let text = show(&score, rate);
        match compile(&text, None) {
            Ok(compiled) => {
                assert_eq!(compiled.score, score, "seed {seed}:\n{text}");
                assert_eq!(compiled.rate, rate);
                assert_eq!(compiled.score.encode(), bytes);
            }
            Err(faults) => panic!("seed {seed}: {faults:?}\n{text}"),
        }
    }
}

/// Any bytes: read to the end and shown, or refused by 14 or 15, and then a run refuses them too.
#[test]
fn any_bytes() {
    let (mut read, mut refused) = (0, 0);
    for seed in 0..3_000 {
        let mut random = Random::new(seed);
        let count = random.below(40);
        let bytes: Vec<u8> = (0..count).map(|_| random.below(256) as u8).collect();
        match Score::decode(&bytes) {
            Ok(score) => {
                read += 1;
                let compiled = compile(&show(&score, 44_100), None).unwrap();
                assert_eq!(compiled.score.encode(), bytes, "seed {seed}");
            }
            Err(damage) => {
                refused += 1;
                assert!([14, 15].contains(&damage.refusal.number()), "seed {seed}");
                let room = take::room(take::length(&bytes)).unwrap();
                assert!(take::run(&bytes, room).is_err(), "seed {seed}");
            }
        }
    }
    assert!(read > 50 && refused > 50, "{read} {refused}");
}
