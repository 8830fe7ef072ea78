//! Random console texts.

use super::random::Random;
use super::{asked, junctions, lines, lists, merges, orders, recordings, stores, strings, words};

/// The number of kinds of text; case `index` has the kind `index` modulo this.
const KINDS: u64 = 34;

/// The same lines, with a carriage return before each line feed.
fn with_returns(text: &[u8]) -> Vec<u8> {
    text.split(|byte| *byte == b'\n').collect::<Vec<_>>().join(&b"\r\n"[..])
}

/// The console text of case `index`; one in eight has a carriage return before each line feed.
pub fn text(seed: u64, index: u64) -> Vec<u8> {
    match Random::new(!seed, index).one_in(8) {
        true => with_returns(&plain(seed, index)),
        false => plain(seed, index),
    }
}

/// A text of the kind of this case.
fn plain(seed: u64, index: u64) -> Vec<u8> {
    let mut random = Random::new(seed, index);
    match index % KINDS {
        0..=4 => lists::any_list(random, 0).bytes(),
        5..=7 => lists::any_list(random, 8).bytes(),
        8 => {
            let mut bytes = lists::any_list(random.clone(), 40).bytes();
            bytes.truncate(random.below(bytes.len() as u64) as usize);
            bytes
        }
        9..=10 => lists::waiting(random).bytes(),
        11 => lists::early(random).bytes(),
        12 => lists::replaced(random).bytes(),
        13 => lists::long(random).bytes(),
        14 => lines::routines(random).bytes(),
        15 => lines::records(random).bytes(),
        16 => lines::runs(random).bytes(),
        17 => lines::full_runs(random).bytes(),
        18 => {
            let cut = random.one_in(4);
            lines::broken(random, cut)
        }
        19 => recordings::written(random).bytes(),
        20 => recordings::damaged(random).bytes(),
        21..=22 => asked::asked(random).bytes(),
        23..=24 => orders::orders(random).bytes(),
        25 => junctions::moving(random).bytes(),
        26 => junctions::limits(random).bytes(),
        27 => stores::resumed(random).bytes(),
        28 => stores::on_limits(random).bytes(),
        29 => match random.one_in(2) {
            true => stores::damaged(random).bytes(),
            false => merges::damaged(random).bytes(),
        },
        30 => merges::pairs(random).bytes(),
        31 => strings::strings(random, 0).bytes(),
        32 => strings::strings(random, 12).bytes(),
        _ => words::words(random).bytes(),
    }
}
