//! Random calls on an instrument's strings, held to six voices that get the same calls, whose blocks are summed and
//! clipped here. The voices themselves are held to the other implementation by this crate's program.

use jivaszte::{Instrument, Opening, Refusal, Voice, STORED_MOST};

const MOST: i32 = 8_388_607;
const AT_REST: Opening = Opening { order: 1, length: 1, delay: 4_096, loss: 0, advance: 0 };

/// A generator of its own, so that a seed gives the same list anywhere.
struct Random(u64);

impl Random {
    /// A number below `n`.
    fn below(&mut self, n: u32) -> u32 {
        self.0 =
            self.0.wrapping_mul(6_364_136_223_846_793_005).wrapping_add(1_442_695_040_888_963_407);
        ((self.0 >> 33) % u64::from(n)) as u32
    }

    /// An order, a length and a delay, seldom outside their limits.
    fn tuning(&mut self) -> (u32, u32, u32) {
        let order = self.below(25) % 4;
        let length = if self.below(20) == 0 { 3_000 } else { 1 + self.below(300) };
        (order, length, 4_096 * order.max(1) - 2_047 + self.below(4_100))
    }
}

/// A call on string k of both: what they return must be equal, and by `String` nothing is called on a voice.
fn call(random: &mut Random, instrument: &mut Instrument, voices: &mut [Voice]) {
    let k = random.below(7);
    let (order, length, delay) = random.tuning();
    let mut none = Voice::open(AT_REST).expect("it is within the limits");
    let stored = voices[random.below(6) as usize].to_bytes();
    let voice = voices.get_mut(k as usize).unwrap_or(&mut none);
    let (a, b) = match random.below(10) {
        0 => {
            let opening = Opening {
                order,
                length,
                delay,
                loss: random.below(66_000),
                advance: random.below(66),
            };
            (instrument.open(k, opening).map(|()| 0), voice.reopen(opening).map(|()| 0))
        }
        1 => {
            let g = random.below(66_000);
            (instrument.loss(k, g).map(|()| 0), voice.loss(g).map(|()| 0))
        }
        2 => {
            let (a, n, z) = (random.below(260), random.below(300), random.below(1 << 30));
            (instrument.pluck(k, a, n, z).map(|()| 0), voice.pluck(a, n, z).map(|()| 0))
        }
        3 => (
            instrument.announce(k, order, length, delay).map(|()| 0),
            voice.announce(order, length, delay).map(|()| 0),
        ),
        4 => (instrument.instant(k, order, length, delay), voice.instant(order, length, delay)),
        5 => (
            instrument.ask(k, order, length, delay).map(|()| 0),
            voice.ask(order, length, delay).map(|()| 0),
        ),
        6 => (instrument.commit(k).map(|()| 0), voice.commit().map(|()| 0)),
        7 => {
            let (mut one, mut other) = ([77; STORED_MOST], [77; STORED_MOST]);
            let room = random.below(1 + STORED_MOST as u32) as usize;
            let length = instrument.store(k, &mut one[..room]);
            let wanted = voice.store(&mut other[..room]);
            assert!(one == if k > 5 { [77; STORED_MOST] } else { other });
            (length.map(|n| n as u32), wanted.map(|n| n as u32))
        }
        8 => {
            let n = usize::from(random.below(4) == 0);
            let bytes = &stored[n..];
            (instrument.load(k, bytes).map(|()| 0), voice.load(bytes).map(|()| 0))
        }
        _ => (instrument.withdraw(k).map(|()| 0), voice.withdraw().map(|()| 0)),
    };
    assert_eq!(a, if k > 5 { Err(Refusal::String) } else { b });
}

/// A mix of both, of up to 200 samples, seldom refused.
fn mix(random: &mut Random, instrument: &mut Instrument, voices: &mut [Voice]) {
    let n = random.below(200) as usize;
    let room = if random.below(20) == 0 { n + 1 } else { n };
    let loud = if random.below(20) == 0 { MOST + 1 } else { MOST };
    let fed = random.below(2) == 1;
    let input: Vec<i32> = (0..n)
        .map(|_| if fed { (random.below(2 * loud as u32 + 1)) as i32 - loud } else { 0 })
        .collect();
    let (mut output, mut sums) = (vec![77; room], vec![0; room]);
    let answer = instrument.mix(&input, &mut output);
    for voice in voices {
        let mut part = vec![0; room];
        assert_eq!(voice.block(&input, &mut part), answer);
        for (sum, y) in sums.iter_mut().zip(part) {
            *sum += y;
        }
    }
    let wanted = |sum: &i32| if answer.is_ok() { (*sum).clamp(-MOST, MOST) } else { 77 };
    assert_eq!(output, sums.iter().map(wanted).collect::<Vec<_>>());
}

#[test]
fn six_strings_are_six_voices() {
    for seed in 0..40 {
        let mut random = Random(seed);
        let mut instrument = Instrument::new();
        let mut voices: Vec<Voice> =
            (0..6).map(|_| Voice::open(AT_REST).expect("it is within the limits")).collect();
        for _ in 0..400 {
            if random.below(3) == 0 {
                mix(&mut random, &mut instrument, &mut voices);
            } else {
                call(&mut random, &mut instrument, &mut voices);
            }
        }
        for (k, voice) in voices.iter().enumerate() {
            assert_eq!(instrument.to_bytes(k as u32), Ok(voice.to_bytes()));
        }
    }
}
