//! Six strings in one instrument: opened at different moments, one refused, retuned together, one loaded from what
//! another stored, mixed with an input that makes the sum clip. Six voices that get the same calls and the same blocks,
//! summed and clipped here, must give the same samples. Prints examples/strings.txt, as strings.c does.

use jivaszte::{Instrument, Opening, Refusal, Voice, STORED_MOST};

const STRINGS: u32 = jivaszte::STRINGS;
const BLOCK: usize = 100;
const BLOCKS: u32 = 30;
const MOST: i32 = 8_388_607;

/// The number of what a call returned, 0 where it was done.
fn number<T>(result: Result<T, Refusal>) -> u32 {
    result.err().map_or(0, |refusal| refusal.number())
}

/// Opens string k, of order k / 2 + 1, on both; the last one names a length that is refused.
fn open_string(instrument: &mut Instrument, voice: &mut Voice, k: u32) {
    let order = k / 2 + 1;
    let length = if k == 5 { 4_096 } else { 99 + 20 * k };
    let delay = 4_096 * order + 300 * k - 1_000;
    let opening = Opening { order, length, delay, loss: 65_000, advance: 64 };
    let (one, other) = (instrument.open(k, opening), voice.reopen(opening));
    println!("open {k}: {}, {}", number(one), number(other));
    let (one, other) = (instrument.pluck(k, 255, 100, k + 1), voice.pluck(255, 100, k + 1));
    println!("pluck {k}: {}, {}", number(one), number(other));
}

/// Announces a change on strings 0, 2 and 4, which all take effect at one moment.
fn retune(instrument: &mut Instrument, voices: &mut [Voice]) {
    for k in (0..STRINGS).step_by(2) {
        let order = k / 2 + 1;
        let one = instrument.announce(k, order, 80 + k, 4_096 * order);
        let other = voices[k as usize].announce(order, 80 + k, 4_096 * order);
        println!("announce {k}: {}, {}", number(one), number(other));
    }
}

/// Stores string 0 and its voice, and loads string 5 and its voice from those bytes.
fn resume(instrument: &mut Instrument, voices: &mut [Voice]) {
    let (mut bytes, mut others) = ([0; STORED_MOST], [0; STORED_MOST]);
    let (one, other) = (instrument.store(0, &mut bytes), voices[0].store(&mut others));
    let alike = if one == other && bytes == others { "equal" } else { "other" };
    println!("store 0: {}, {}, {alike} bytes", number(one), number(other));
    let stored = &bytes[..one.unwrap_or(0)];
    let (one, other) = (instrument.load(5, stored), voices[5].load(stored));
    println!("load 5: {}, {}", number(one), number(other));
}

fn main() {
    let at_rest = Opening { order: 1, length: 1, delay: 4_096, loss: 0, advance: 0 };
    let mut instrument = Instrument::new();
    let mut voices: Vec<Voice> = (0..STRINGS).map(|_| Voice::open(at_rest).expect("it is within the limits")).collect();
    let (mut alike, mut clips) = (0, 0);
    for b in 0..BLOCKS {
        if b < STRINGS {
            open_string(&mut instrument, &mut voices[b as usize], b);
        }
        if b == 12 {
            retune(&mut instrument, &mut voices);
        }
        if b == 16 {
            resume(&mut instrument, &mut voices);
        }
        let loud = |i: usize| if i % 2 == 1 { -MOST } else { MOST };
        let input: [i32; BLOCK] = std::array::from_fn(|i| if (20..25).contains(&b) { loud(i) } else { 0 });
        let (mut mix, mut part, mut sums) = ([0; BLOCK], [0; BLOCK], [0; BLOCK]);
        instrument.mix(&input, &mut mix).expect("the input is as long, and of samples");
        for voice in &mut voices {
            voice.block(&input, &mut part).expect("the input is as long, and of samples");
            for (sum, y) in sums.iter_mut().zip(part) {
                *sum += y;
            }
        }
        for (y, sum) in mix.into_iter().zip(sums) {
            alike += u32::from(y == sum.clamp(-MOST, MOST));
            clips += u32::from(sum != sum.clamp(-MOST, MOST));
        }
    }
    let some = if clips > 0 { "some" } else { "none" };
    println!("mixed: {alike} of {} samples alike, {some} clipped", BLOCKS * BLOCK as u32);
    println!(
        "string 6: {}, {} and 0: {}",
        number(instrument.pluck(6, 256, 0, 1)),
        number(instrument.instant(6, 1, 99, 2_979)),
        Refusal::String
    );
}
