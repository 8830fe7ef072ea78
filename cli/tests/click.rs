//! The click figure, held to the samples: after every change of a random score no sample is further from
//! the ideal filter's than is proved, and before the first none is off at all.

mod common;

use common::Random;
use jivaszte_cli::ideal::distances;
use jivaszte_cli::take;
use jivaszte_cli::text::{compile_with, Instead};
use jivaszte_cli::timeline::Timeline;
use jivaszte_cli::tuning::ORDERS;

const NOTES: [&str; 6] = ["A3", "E4", "G4", "C5+30c", "A6", "L 3 d "];

fn tuning(random: &mut Random, order: u64) -> String {
    match random.pick(&NOTES) {
        "L 3 d " => format!("L 3 d {}", 4_096 * order - 2_047 + random.below(4_096)),
        note => note.to_string(),
    }
}

fn text(random: &mut Random) -> String {
    let order = u64::from(*ORDERS.start()) + random.below(u64::from(*ORDERS.end()));
    let mut text = format!("order {order}\nloss 0.99\ntune {}\n", tuning(random, order));
    for _ in 0..12 {
        let to = tuning(random, order);
        text += &match random.below(6) {
            0 => format!("slide {to} over {} samples\n", 64 + random.below(900)),
            1 => format!("jump {to}\nwait {} samples\n", random.below(200)),
            2 => format!("to {to}\nwait {} samples\n", 64 + random.below(200)),
            3 => format!("loss 0.9{}\n", random.below(10)),
            _ => format!("pluck 255 for {} seed {}\n", 1 + random.below(300), random.below(65_536)),
        };
        if random.one_in(2) {
            text += &format!("wait {} samples\n", random.below(60));
        }
    }
    text
}

#[test]
fn no_sample_is_further_than_is_proved() {
    let (mut off, mut greatest, mut changed) = (0, 0, 0);
    for seed in 0..300 {
        let random = &mut Random::new(seed);
        let text = text(random);
        let advance = Some(random.below(65) as u8);
        let score = compile_with(&text, Instead { rate: None, advance }).unwrap().score;
        let bytes = score.encode();
        let samples = take::run(&bytes, take::room(take::length(&bytes)).unwrap()).unwrap();
        for (step, distance) in distances(&samples, &Timeline::of(&score)).iter().enumerate() {
            assert!(
                distance.measured <= distance.proved,
                "seed {seed}, {step}: {distance:?}\n{text}"
            );
            off += usize::from(distance.measured > 2);
            changed += usize::from(distance.proved > 0);
            greatest = greatest.max(distance.measured);
        }
    }
    assert!(off > 1_000 && greatest > 1_000_000 && changed > 50_000, "{off} {greatest} {changed}");
}
