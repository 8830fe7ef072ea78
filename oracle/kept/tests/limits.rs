//! Forms of every bit map and every length, with every byte changed, and with every number at its limits and one past
//! them: the library loads and shows them as the reference does, and what was loaded goes on.

#[allow(dead_code)]
mod pair;

use oracle::call::Call;
use oracle::cases::random::Random;
use oracle::stored::{form, parts, stored, Parts};
use oracle::tuning::Tuning;
use oracle::voice::Voice as Reference;
use pair::cases::any_call;
use pair::Pair;

/// Voices with nothing waiting, an announced change and an asked one, of each order; all parts differ from the refusal
/// voice's, but for a change that is not there.
fn voices() -> Vec<Reference> {
    let tunings = [(1, 7, 3_000), (2, 9, 8_000), (3, 11, 12_000)];
    let mut all = Vec::new();
    for (i, (order, length, delay)) in tunings.into_iter().enumerate() {
        for kind in 0..3 {
            let (mut voice, _) = Reference::open(order, length, delay, 65_000, 5);
            let (order, length, delay) = tunings[(i + kind) % 3];
            let to = Tuning { order, length: length + 1, delay };
            Call::Pluck { amplitude: 200, count: 60, seed: 9 }.make(&mut voice);
            Call::Block { input: vec![1_000; 40], places: 40 }.make(&mut voice);
            match kind {
                0 => None,
                1 => Some(Call::Announced { to }.make(&mut voice)),
                _ => Some(Call::Asked { to }.make(&mut voice)),
            };
            Call::Block { input: vec![-3; 4], places: 4 }.make(&mut voice);
            all.push(voice);
        }
    }
    all
}

#[test]
fn every_bit_map_and_every_length() {
    let mut pair = Pair::open([1, 1, 4_096, 0, 0]);
    for voice in voices() {
        let parts = parts(&voice);
        for map in 0..=255 {
            pair.load(&form(map, &parts));
        }
        // needless: a bit for each part, whatever it holds
        assert_eq!(pair.load(&form(255, &parts)), 0);
    }
    let bytes = [form(255, &parts(&voices()[8])), vec![0]].concat();
    for length in 0..=bytes.len() {
        assert_eq!(pair.load(&bytes[..length]), if length == 8_529 { 0 } else { 22 });
    }
}

#[test]
fn every_byte_changed() {
    let mut pair = Pair::open([1, 1, 4_096, 0, 0]);
    let bytes = form(255, &parts(&voices()[8]));
    for at in 0..bytes.len() {
        let mut changed = bytes.clone();
        changed[at] ^= if at % 4 == 0 { 0x80 } else { 1 << (at % 8) };
        pair.load(&changed);
    }
}

/// The numbers at which a limit of some part lies.
const EDGES: [i64; 25] = [
    0, 1, 2, 3, 4, 5, 6, 64, 65, 255, 256, 2_048, 2_049, 6_144, 6_145, 10_240, 10_241, 14_336,
    14_337, 65_535, 65_536, 8_388_607, 8_388_608, 16_777_214, 16_777_215,
];

#[test]
fn every_number_at_its_limits() {
    let (mut pair, mut numbers) = (Pair::open([1, 1, 4_096, 0, 0]), [0, 0]);
    for voice in voices() {
        let whole: Parts = parts(&voice);
        for part in 0..8 {
            for at in (0..whole[part].len()).filter(|at| *at < 8 || at % 700 == 11) {
                for edge in EDGES.into_iter().flat_map(|edge| [edge, -edge]) {
                    let mut changed = whole.clone();
                    changed[part][at] = edge as u32;
                    let loaded = pair.load(&form(255, &changed));
                    assert!(loaded == 0 || loaded == 23);
                    numbers[usize::from(loaded == 0)] += 1;
                }
            }
        }
        // and a voice that was loaded goes on
        pair.load(&stored(&voice));
        let mut random = Random::new(11, numbers[0]);
        for _ in 0..6 {
            pair.make(&any_call(&mut random));
        }
    }
    assert!(numbers.iter().all(|times| *times > 500), "{numbers:?}");
}
