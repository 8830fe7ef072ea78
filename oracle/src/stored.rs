//! Document 02, L10: a stored voice, and a panel that reads part of it.
//!
//! A voice is eight parts, each a list of numbers. The stored form is a bit map byte and the parts that differ from
//! those of Open's refusal voice.

use crate::allpass::Allpass;
use crate::number::{is_sample, M};
use crate::pluck::Pluck;
use crate::refusal::{require, Answer, Refusal};
use crate::tuning::Tuning;
use crate::voice::{s_at, Kind, Voice, Waiting};

/// The samples of the line.
pub const LINE: usize = 2_112;

/// How many numbers each part has: "tuning, loss, advance, last output, filter state, waiting change, pluck, line".
pub const SIZES: [usize; 8] = [3, 1, 1, 1, 3, 8, 3, LINE];

const TUNING: usize = 0;
const LOSS: usize = 1;
const ADVANCE: usize = 2;
const LAST: usize = 3;
const STATE: usize = 4;
const CHANGE: usize = 5;
const PLUCK: usize = 6;
const SAMPLES: usize = 7;

/// The numbers of each part, "32 bits" each.
pub type Parts = [Vec<u32>; 8];

/// The 32 bits of a number that may be below zero: two's complement.
fn word(number: i128) -> u32 {
    i32::try_from(number).expect("a number of 32 bits") as u32
}

/// The number that 32 bits are in two's complement.
fn value(word: u32) -> i128 {
    i128::from(word as i32)
}

/// "a state is v1, v2, v3, zero past the order".
fn three(state: &[i128]) -> Vec<u32> {
    (0..3).map(|index| state.get(index).copied().map_or(0, word)).collect()
}

/// "a waiting change is kind (0 none, 1 announced, 2 asked), tuning, samples taken (counted to Na ..) and state";
/// "No change ... is all zeros."
fn change(voice: &Voice) -> Vec<u32> {
    let Some(waiting) = &voice.waiting else { return vec![0; 8] };
    let Tuning { order, length, delay } = waiting.tuning;
    let taken = waiting.counted(voice.advance);
    let mut numbers = vec![waiting.kind as u32, order, length, delay, taken];
    numbers.extend(three(waiting.eliminator.state()));
    numbers
}

/// "a pluck is amplitude, steps left, noise state"; "no steps left, is all zeros."
fn pluck(pluck: &Pluck) -> Vec<u32> {
    match pluck.left {
        0 => vec![0; 3],
        left => vec![pluck.amplitude, left, pluck.noise],
    }
}

/// The parts of a voice; "the line runs oldest first".
pub fn parts(voice: &Voice) -> Parts {
    let Tuning { order, length, delay } = voice.tuning;
    let n = voice.s.len() as i128;
    [
        vec![order, length, delay],
        vec![voice.loss],
        vec![voice.advance],
        vec![word(voice.last_output())],
        three(voice.filter.state()),
        change(voice),
        pluck(&voice.pluck),
        (1..=LINE as i128).rev().map(|k| word(s_at(&voice.s, n - k))).collect(),
    ]
}

/// The parts of Open's refusal voice.
pub fn usual() -> Parts {
    parts(&Voice::open(0, 0, 0, 0, 0).0)
}

/// A bit map and the parts that it names: "each number is 32 bits, low byte first".
pub fn form(map: u8, parts: &Parts) -> Vec<u8> {
    let mut bytes = vec![map];
    for (_, part) in parts.iter().enumerate().filter(|(bit, _)| map >> bit & 1 == 1) {
        bytes.extend(part.iter().flat_map(|number| number.to_le_bytes()));
    }
    bytes
}

/// The form of a voice: "A part is absent when it equals that of Open's refusal voice".
pub fn stored(voice: &Voice) -> Vec<u8> {
    let (parts, usual) = (parts(voice), usual());
    let map = (0..8).fold(0, |map, bit| map | u8::from(parts[bit] != usual[bit]) << bit);
    form(map, &parts)
}

/// "Storing returns the length and touches nothing past it; a lent slice too short is 18, untouched, with length 0."
pub fn store(voice: &Voice, lent: &mut [u8]) -> (Answer, usize) {
    let bytes = stored(voice);
    let answer = require(bytes.len() <= lent.len(), Refusal::Room);
    if answer.is_err() {
        return (answer, 0);
    }
    lent[..bytes.len()].copy_from_slice(&bytes);
    (answer, bytes.len())
}

/// The parts that bytes hold, absent ones as Open's refusal voice has them. "22 bytes missing or left over".
fn read(bytes: &[u8]) -> Result<Parts, Refusal> {
    let (map, mut rest) = bytes.split_first().ok_or(Refusal::StoredLength)?;
    let mut parts = usual();
    for (bit, size) in SIZES.into_iter().enumerate().filter(|(bit, _)| map >> bit & 1 == 1) {
        require(4 * size <= rest.len(), Refusal::StoredLength)?;
        let (part, after) = rest.split_at(4 * size);
        let number = |four: &[u8]| u32::from_le_bytes(four.try_into().expect("four bytes"));
        parts[bit] = part.chunks(4).map(number).collect();
        rest = after;
    }
    require(rest.is_empty(), Refusal::StoredLength)?;
    Ok(parts)
}

/// The tuning that three numbers are.
fn tuning(numbers: &[u32]) -> Tuning {
    Tuning { order: numbers[0], length: numbers[1], delay: numbers[2] }
}

/// A filter of a tuning with three numbers for its state. "Each number of either state lies within −2M to 2M", and
/// is zero past the order.
fn filter(tuning: Tuning, state: &[u32]) -> Option<Allpass> {
    tuning.test().ok()?;
    let state: Vec<i128> = state.iter().map(|number| value(*number)).collect();
    let (own, past) = state.split_at(tuning.order as usize);
    let good = own.iter().all(|v| v.abs() <= 2 * M) && past.iter().all(|v| *v == 0);
    good.then(|| Allpass::with_state(tuning.order, tuning.delay, own))
}

/// A change of eight numbers, "samples taken (counted to Na, below it in kind 1)": `None` where they are not in form.
fn waiting(numbers: &[u32], advance: u32) -> Option<Option<Waiting>> {
    let (kind, most) = match numbers[0] {
        0 => return numbers.iter().all(|number| *number == 0).then_some(None),
        1 => (Kind::Announced, advance.checked_sub(1)?),
        2 => (Kind::Asked, advance),
        _ => return None,
    };
    let (tuning, taken) = (tuning(&numbers[1..4]), numbers[4]);
    let eliminator = filter(tuning, &numbers[5..])?;
    (taken <= most).then_some(Some(Waiting { kind, tuning, eliminator, taken }))
}

/// The rest of a pluck.
fn rest_of_pluck(numbers: &[u32]) -> Option<Pluck> {
    let pluck = Pluck { amplitude: numbers[0], left: numbers[1], noise: numbers[2] };
    let none = pluck.left > 0 || (pluck.amplitude == 0 && pluck.noise == 0);
    (pluck.amplitude <= 255 && pluck.left <= 2_048 && none).then_some(pluck)
}

/// The samples that numbers are.
fn samples(numbers: &[u32]) -> Option<Vec<i128>> {
    let samples: Vec<i128> = numbers.iter().map(|number| value(*number)).collect();
    samples.iter().all(|sample| is_sample(*sample)).then_some(samples)
}

/// The voice of these parts: `None` where one is "outside its limits or not in this form".
fn voice(parts: &Parts) -> Option<Voice> {
    let (loss, advance) = (parts[LOSS][0], parts[ADVANCE][0]);
    let tuning = tuning(&parts[TUNING]);
    let filter = filter(tuning, &parts[STATE])?;
    let waiting = waiting(&parts[CHANGE], advance)?;
    let pluck = rest_of_pluck(&parts[PLUCK])?;
    let (s, y) = (samples(&parts[SAMPLES])?, samples(&parts[LAST])?);
    let good = loss <= 65_535 && advance <= 64;
    good.then_some(Voice { tuning, filter, loss, advance, waiting, pluck, s, y })
}

/// "22 bytes missing or left over; 23 a part outside its limits or not in this form; 22 first."
fn take_up(bytes: &[u8]) -> Result<Voice, Refusal> {
    voice(&read(bytes)?).ok_or(Refusal::StoredPart)
}

/// "Nothing is loaded: Open's refusal voice comes back".
pub fn load(bytes: &[u8]) -> (Voice, Answer) {
    match take_up(bytes) {
        Ok(voice) => (voice, Ok(())),
        Err(refusal) => (Voice::open(0, 0, 0, 0, 0).0, Err(refusal)),
    }
}

/// "the wall panel is given length, delay and loss only"; refused, those of Open's refusal voice.
pub fn panel(bytes: &[u8]) -> (Answer, [u32; 3]) {
    let (voice, answer) = load(bytes);
    (answer, [voice.tuning.length, voice.tuning.delay, voice.loss])
}
