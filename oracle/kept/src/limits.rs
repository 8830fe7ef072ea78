//! The limits of a voice's parts by document 02 (L10), over its 27 words; and `check` held to them.

use crate::lent::Lent;
use oracle::cases::random::Random;
use oracle::thiran::{delay_range, exact_coefficients, ORDERS};

/// "a signed number stands 2^31 higher".
const ZERO: i64 = 1 << 31;
const MOST: i64 = 8_388_607;

fn signed(word: u32) -> i64 {
    i64::from(word) - ZERO
}

/// "Tuning is order, L, d; a state is v1, v2, v3, zero past the order"; "Each number of either state lies within −2M to
/// 2M"; A1 to A3 are those of order and d, zero past the order.
fn filter(words: &[u32]) -> bool {
    let [order, length, delay] = [words[0], words[1], words[2]];
    if !ORDERS.contains(&order)
        || !(1..=2_048).contains(&length)
        || !delay_range(order).contains(&delay)
    {
        return false;
    }
    let mut coefficients = exact_coefficients(order, delay);
    coefficients.resize(3, 0);
    let exact =
        coefficients.iter().zip(&words[3..6]).all(|(a, word)| *a == i128::from(signed(*word)));
    let state = words[6..9].iter().zip(1..).all(|(word, k)| {
        let most = if k <= order { 2 * MOST } else { 0 };
        signed(*word).abs() <= most
    });
    exact && state
}

/// "samples taken (counted to Na, below it in kind 1)"
fn waiting(words: &[u32; 27]) -> bool {
    let (advance, taken) = (words[10], words[22]);
    match words[12] {
        0 => true,
        1 => taken < advance && filter(&words[13..22]),
        _ => taken <= advance && filter(&words[13..22]),
    }
}

/// "a pluck is amplitude, steps left, noise state"; "no steps left, is all zeros"
fn pluck(words: &[u32; 27]) -> bool {
    let [amplitude, left, noise] = [words[23], words[24], words[25]];
    amplitude <= 255 && left <= 2_048 && (left > 0 || (amplitude == 0 && noise == 0))
}

fn is_voice(voice: &Lent) -> bool {
    let words = &voice.head;
    filter(&words[..9])
        && words[9] <= 65_535
        && words[10] <= 64
        && signed(words[11]).abs() <= MOST
        && waiting(words)
        && pluck(words)
        && words[26] < 2_112
        && voice.line.iter().all(|s| i64::from(*s).abs() <= MOST)
}

/// Numbers at which a limit of some word lies.
const EDGES: [i64; 24] = [
    0,
    1,
    2,
    3,
    4,
    64,
    65,
    255,
    256,
    2_048,
    2_049,
    2_111,
    2_112,
    6_144,
    6_145,
    65_535,
    65_536,
    ZERO,
    ZERO + MOST,
    ZERO - MOST - 1,
    ZERO + 2 * MOST,
    ZERO - 2 * MOST,
    ZERO + 2 * MOST + 1,
    ZERO - 2 * MOST - 1,
];

fn compare(voice: &Lent, what: impl Fn() -> String) -> Result<u64, String> {
    match (voice.check(), is_voice(voice)) {
        (1, true) => Ok(1),
        (0, false) => Ok(0),
        (got, _) => Err(format!("check gave {got} with {}", what())),
    }
}

/// What was left is a voice, and each word and some samples are changed by turns. How often `check` was asked, and how
/// often it held.
pub fn agree(voice: &Lent, random: &mut Random) -> Result<(u64, u64), String> {
    let (mut asked, mut held) = (1, compare(voice, || String::from("what the calls left"))?);
    if held == 0 {
        return Err(String::from("what the calls left is no voice"));
    }
    let mut changed = voice.clone();
    for place in 0..27 {
        let word = voice.head[place];
        let near = [word.wrapping_add(1), word.wrapping_sub(1), random.number() as u32];
        for value in EDGES.iter().map(|edge| *edge as u32).chain(near) {
            changed.head[place] = value;
            held += compare(&changed, || {
                format!("word {place} {value} in place of {word}: {:?}", voice.head)
            })?;
            asked += 1;
        }
        changed.head[place] = word;
    }
    for _ in 0..8 {
        let place = random.below(2_112) as usize;
        changed.line[place] =
            random.pick(&[8_388_607, -8_388_607, 8_388_608, -8_388_608, i32::MIN]);
        held += compare(&changed, || format!("sample {place} {}", changed.line[place]))?;
        asked += 1;
        changed.line[place] = voice.line[place];
    }
    Ok((asked, held))
}
