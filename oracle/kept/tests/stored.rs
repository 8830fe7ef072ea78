//! Stored voices of the library against the reference: random lists with stores and loads among the calls, and forms
//! whose bytes were changed.

#[allow(dead_code)]
mod pair;

use oracle::cases::random::Random;
use oracle::stored::stored;
use pair::cases::{any_call, any_opening};
use pair::Pair;
use std::collections::BTreeMap;

/// A list of calls, a store once in three of them and a load once in six.
fn list(random: &mut Random, numbers: &mut BTreeMap<u32, u32>) -> Pair {
    let mut pair = Pair::open(any_opening(random));
    for _ in 0..5 + random.below(30) {
        pair.make(&any_call(random));
        let bytes = stored(&pair.reference);
        if random.one_in(3) {
            let room = random.pick(&[0, bytes.len() - 1, bytes.len(), bytes.len() + 5]);
            *numbers.entry(pair.store(room)).or_insert(0) += 1;
        }
        if random.one_in(6) {
            let mut bytes = bytes;
            if random.one_in(8) {
                let at = random.below(bytes.len().min(60) as u64) as usize;
                bytes[at] ^= 1 << random.below(8);
            }
            *numbers.entry(pair.load(&bytes)).or_insert(0) += 1;
        }
    }
    pair
}

#[test]
fn lists_with_stores_and_loads() {
    let mut numbers = BTreeMap::new();
    for index in 0..400 {
        list(&mut Random::new(10, index), &mut numbers);
    }
    assert_eq!(numbers.keys().copied().collect::<Vec<u32>>(), [0, 18, 22, 23], "{numbers:?}");
}
