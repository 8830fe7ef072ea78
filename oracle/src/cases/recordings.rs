//! Console texts about WAV files: written, read back, and damaged at every place.

use super::field;
use super::lines::hex;
use super::random::Random;
use super::text::Text;
use crate::wav::file;

/// Rates on the limits, usual ones, and those from which the byte rate does not fit on.
const RATES: &[u32] =
    &[7_999, 8_000, 44_100, 192_000, 192_001, 0, 1, 1_431_655_765, 1_431_655_766, u32::MAX];

/// A rate: most often one that is accepted.
fn rate(random: &mut Random) -> u32 {
    match random.below(3) {
        0 => random.pick(RATES),
        1 => field::boundary(random, 8_000, 192_000, u32::MAX),
        _ => random.between(8_000, 192_000),
    }
}

/// So many samples; −8,388,608 among them where `lowest`, numbers beyond where `beyond`.
fn samples(random: &mut Random, count: usize, lowest: bool, beyond: bool) -> Vec<i32> {
    let mut one = || match random.below(12) {
        0 if lowest => -8_388_608,
        1 if beyond => random.pick(&[8_388_608, -8_388_608, i32::MAX, i32::MIN]),
        2 => random.pick(&[8_388_607, -8_388_607, 0, 1, -1, 255, 256, -256, 65_535, -65_536]),
        _ => (random.number() as i32) >> 8,
    };
    let mut samples: Vec<i32> = (0..count).map(|_| one()).collect();
    if !lowest && !beyond {
        samples.iter_mut().for_each(|sample| *sample = (*sample).max(-8_388_607));
    }
    samples
}

/// Numbers as words.
fn words(samples: &[i32]) -> String {
    samples.iter().map(|sample| format!(" {sample}")).collect()
}

/// Written with room to spare, just enough, too little; and read back with as many places, one
/// less, one more. Odd and even counts; one text in eight has the most samples that a line takes.
pub fn written(random: Random) -> Text {
    let mut text = Text::new(random, 0, false);
    for count in [0, 1, 2, 3, 4, 5, 8, 9] {
        let random = &mut text.random;
        let beyond = random.one_in(4);
        let (rate, samples) = (rate(random), samples(random, count, false, beyond));
        let file = file(rate, &samples);
        let size = file.len();
        for room in [size, size - 1, size + 1, 0, 44] {
            text.line(format!("wavwrite {rate} {room}{}", words(&samples)));
        }
        for room in [count, count.saturating_sub(1), count + 1] {
            text.line(format!("wavread {room}{}", hex(&file)));
        }
    }
    if text.random.one_in(8) {
        for count in [4_095, 4_096, 4_097] {
            let samples = samples(&mut text.random, count, false, false);
            text.line(format!("wavwrite 48000 16384{}", words(&samples)));
            text.line(format!("wavread 4096{}", hex(&file(48_000, &samples))));
        }
    }
    text
}

/// Files, which may hold −8,388,608, of which each header byte, and each byte behind the data, is
/// changed, and which are cut and lengthened at every place.
pub fn damaged(random: Random) -> Text {
    let mut text = Text::new(random, 0, false);
    let short = text.random.below(2) as usize;
    for count in [short, 2 + text.random.below(4) as usize] {
        let random = &mut text.random;
        let (rate, samples) = (rate(random), samples(random, count, true, false));
        let file = file(rate, &samples);
        let room = random.pick(&[count, count, count + 1, 0]);
        text.line(format!("wavread {room}{}", hex(&file)));
        for place in 0..=file.len() {
            text.line(format!("wavread {room}{}", hex(&file[..place])));
            let mut longer = file.clone();
            longer.insert(place, text.random.pick(&[0, 0, 1, 255]));
            text.line(format!("wavread {room}{}", hex(&longer)));
        }
        for place in (0..44).chain(44 + 3 * count..file.len()) {
            let mut other = file.clone();
            let random = &mut text.random;
            other[place] = match random.below(3) {
                0 => other[place].wrapping_add(random.pick(&[1, 2, 3, 254, 255])),
                1 => other[place] ^ (1 << random.below(8)),
                _ => random.number() as u8,
            };
            text.line(format!("wavread {room}{}", hex(&other)));
        }
    }
    text
}
