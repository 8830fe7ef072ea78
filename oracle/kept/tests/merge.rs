//! The library's merge of two scores against the oracle's, over random pairs: equal moments, both kinds of change in
//! both, Na 0 and above, damaged and short scores, room short by one. Every byte lent is compared.

use std::collections::BTreeMap;

/// A generator of its own, so that a seed repeats a case.
struct Random(u64);

impl Random {
    fn below(&mut self, n: u64) -> u64 {
        self.0 =
            self.0.wrapping_mul(6_364_136_223_846_793_005).wrapping_add(1_442_695_040_888_963_407);
        (self.0 >> 33) % n
    }

    fn one_in(&mut self, n: u64) -> bool {
        self.below(n) == 0
    }

    fn record(&mut self, bytes: &mut Vec<u8>) {
        let mut map = self.below(128) as u8;
        if map >> 4 & 1 == 0 {
            map &= 0x9f;
        }
        if self.one_in(2) {
            map &= 0xf9;
        }
        if map & 6 != 0 && self.one_in(2) {
            map |= 0x80;
        }
        bytes.push(map);
        let fields = [
            [0, 0, 1, 3, 5, 64, 300][self.below(7) as usize],
            40 + self.below(20),
            4_000 + self.below(200),
            self.below(65_536),
            self.below(256),
            1 + self.below(50),
            self.below(3),
        ];
        for (bit, field) in fields.iter().enumerate() {
            if map >> bit & 1 == 1 {
                bytes.extend((*field as u16).to_le_bytes());
            }
        }
    }

    fn score(&mut self, advance: u8) -> Vec<u8> {
        let mut bytes = vec![1, advance, 50, 0, 0, 16, 232, 253];
        for _ in 0..self.below(6) {
            self.record(&mut bytes);
        }
        if self.one_in(20) {
            let at = self.below(bytes.len() as u64) as usize;
            bytes[at] ^= 1 << self.below(8);
        }
        if self.one_in(20) {
            bytes.truncate(self.below(bytes.len() as u64 + 1) as usize);
        }
        bytes
    }
}

/// The library and the oracle on one pair; gives the number that both returned.
fn compare(first: &[u8], second: &[u8], room: usize) -> u32 {
    let (mut got, mut wanted) = (vec![0x4d; room], vec![0x4d; room]);
    let answer = jivaszte::merge(first, second, &mut got);
    let expected = oracle::merge::merge(first, second, &mut wanted);
    let number = answer.err().map_or(0, |refusal| refusal.number());
    let same = answer.ok() == expected.ok()
        && number == oracle::refusal::number(&expected)
        && got == wanted;
    assert!(same, "{first:?} / {second:?} in {room}: {answer:?} {got:?}, {expected:?} {wanted:?}");
    number
}

#[test]
fn random_pairs() {
    let mut random = Random(14);
    let mut numbers = BTreeMap::new();
    for case in 0..3_000 {
        let advance = [0, 4, 64][case % 3];
        let (first, second) = (random.score(advance), random.score(advance));
        *numbers.entry(compare(&first, &second, 512)).or_insert(0) += 1;
        if let Ok(length) = jivaszte::merge(&first, &second, &mut [0; 512]) {
            assert_eq!(compare(&first, &second, length), 0);
            assert_eq!(compare(&first, &second, length - 1), 30);
        }
    }
    assert_eq!(numbers.keys().copied().collect::<Vec<u32>>(), [0, 28, 29, 30], "{numbers:?}");
}

#[test]
fn nothing_lent_and_nothing_given() {
    assert_eq!(compare(&[], &[], 0), 29);
    assert_eq!(compare(&[1], &[], 0), 28);
}
