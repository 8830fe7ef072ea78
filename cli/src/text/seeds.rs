//! Seeds for plucks that name none. The loop keeps the mean of what is plucked into it, so that noise with a
//! mean adds up to a drift from pluck to pluck. Of the 65,536 seeds those are taken whose draws add up to
//! nearly nothing, and each pluck gets another one.

use jivaszte::draw;
use std::collections::{BTreeMap, BTreeSet};
use std::sync::{Mutex, PoisonError};

/// So many seeds are taken in turn for each count.
const CHOICES: usize = 64;
/// The mean square of a draw, 32,768² / 3: a seed is taken if its draws are at least as loud as that.
const MEAN_SQUARE: u64 = (1 << 30) / 3;
/// The counts that a voice takes.
const MOST_COUNT: u16 = 2_048;

/// The draws of each seed so far: the state, their sum, and the sum of their squares.
struct Draws {
    state: u32,
    sum: i32,
    squares: u64,
}

impl Draws {
    fn add(&mut self) {
        let draw = draw(&mut self.state);
        self.sum += draw;
        self.squares += u64::from(draw.unsigned_abs()).pow(2);
    }
}

/// The seeds of a count, the one whose draws add up to the least first; of two alike the lower.
fn choices(draws: &[Draws], count: u16) -> Vec<u16> {
    let loud = |(_, draws): &(usize, &Draws)| draws.squares >= u64::from(count) * MEAN_SQUARE;
    let mut found: Vec<(u32, u16)> = draws
        .iter()
        .enumerate()
        .filter(loud)
        .map(|(seed, draws)| (draws.sum.unsigned_abs(), seed as u16))
        .collect();
    if found.len() > CHOICES {
        found.select_nth_unstable(CHOICES);
        found.truncate(CHOICES);
    }
    found.sort_unstable();
    found.into_iter().map(|(_, seed)| seed).collect()
}

/// A seed for each pluck of a text that names none, from their counts, in their order. The n-th of them, from
/// 0 on, gets the n-th seed of its count, and the 64th the first again.
pub fn chosen(counts: &[u16]) -> Vec<u16> {
    let mut tables = TABLES.lock().unwrap_or_else(PoisonError::into_inner);
    let taken = |count: &u16| (1..=MOST_COUNT).contains(count);
    let wanted: BTreeSet<u16> = counts.iter().copied().filter(taken).collect();
    add(&mut tables, wanted.into_iter());
    let seed = |(index, count): (usize, &u16)| match tables.get(count) {
        Some(found) => found[index % found.len()],
        None => 0,
    };
    counts.iter().enumerate().map(seed).collect()
}

/// The seeds of the counts that were asked for so far.
static TABLES: Mutex<BTreeMap<u16, Vec<u16>>> = Mutex::new(BTreeMap::new());

/// Works out the seeds of counts, which come in their order: the draws of a count go on from those of the one
/// before it.
fn add(tables: &mut BTreeMap<u16, Vec<u16>>, counts: impl Iterator<Item = u16>) {
    let start = |seed| Draws { state: seed, sum: 0, squares: 0 };
    let (mut draws, mut done) = (Vec::new(), 0);
    for count in counts {
        if tables.contains_key(&count) {
            continue;
        }
        if draws.is_empty() {
            draws.extend((0..=u16::MAX.into()).map(start));
        }
        draws.iter_mut().for_each(|draws| (done..count).for_each(|_| draws.add()));
        done = count;
        tables.insert(count, choices(&draws, count));
    }
}

#[cfg(test)]
mod tests {
    use super::*;

    fn sum(seed: u16, count: u16) -> i64 {
        let mut state = seed.into();
        (0..count).map(|_| i64::from(draw(&mut state))).sum()
    }

    #[test]
    fn draws_add_up_to_nearly_nothing() {
        for (count, most) in [(20, 300), (50, 500), (100, 700), (400, 1_200), (2_048, 3_000)] {
            for seed in chosen(&[count; 64]) {
                assert!(sum(seed, count).abs() <= most, "{count} {seed}: {}", sum(seed, count));
            }
        }
    }

    #[test]
    fn each_pluck_gets_another() {
        let mut seeds = chosen(&[100; 65]);
        assert_eq!(seeds[0], seeds[64]);
        seeds.truncate(64);
        seeds.sort_unstable();
        seeds.dedup();
        assert_eq!(seeds.len(), 64);
    }

    /// A seed goes by the place and the count of its own pluck, not by the other plucks.
    #[test]
    fn the_others_do_not_matter() {
        let mixed = chosen(&[300, 100, 1, 2_048, 100, 0, 9_999]);
        assert_eq!(mixed[1], chosen(&[5, 100])[1]);
        assert_eq!(mixed[4], chosen(&[100; 5])[4]);
        assert_eq!((mixed[5], mixed[6]), (0, 0));
    }
}
