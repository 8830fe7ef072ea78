//! Decay to silence (document 02, L7): the quick run is the voice's, what is proved holds of it, and what would
//! be found where a voice hums is found by document 01's rounding.

use oracle::silence::{end, end_rounded, outputs, random, End, Filled};
use oracle::thiran::{delay_range, exact_coefficients, ORDERS};
use oracle::voice::Voice;

/// A voice at this delay whose line is within `b`: by turns all b and −b, all b, and random.
fn within(b: i32, order: u32, length: u32, delay: u32) -> Filled {
    let sample = |i: u32| match delay % 3 {
        0 => b,
        1 => b * (1 - 2 * (i as i32 % 2)),
        _ => (i.wrapping_mul(2_654_435_761) >> 8) as i32 % (b + 1),
    };
    let samples = (0..length + 64).map(sample).collect();
    Filled { order, length, delay, loss: 65_535, samples }
}

/// The samples in which a voice within b is proved to fall silent.
fn fading(b: u64, voice: &Filled) -> u64 {
    b * u64::from(voice.length + voice.order + 1)
}

#[test]
fn the_quick_run_is_the_voice() {
    for index in 0..300 {
        let filled = random(7, index);
        let (mut voice, answer) = Voice::open(filled.order, filled.length, filled.delay, 0, 0);
        let mut written = vec![0; filled.samples.len()];
        let block = voice.block(&filled.samples, &mut written);
        assert_eq!((answer, block, voice.set_loss(filled.loss)), (Ok(()), Ok(()), Ok(())));
        let mut put = vec![0; 2_500];
        assert_eq!(voice.block(&[0; 2_500], &mut put), Ok(()));
        let put: Vec<i64> = put.into_iter().map(i64::from).collect();
        assert_eq!(outputs(&filled, 2_500), put, "voice {index}");
    }
}

/// `crates/rule/specs/Silence.antt`: within B such that B·(|A1| + .. + |AN|) is below 65,536.
#[test]
fn quiet_voices_fall_silent() {
    for order in ORDERS {
        for delay in delay_range(order).step_by(7) {
            let sum: i128 = exact_coefficients(order, delay).iter().map(|a| a.abs()).sum();
            for b in [1, 2, (65_535 / sum.max(1)).min(40) as i32] {
                let voice = within(b, order, 1 + delay % 50, delay);
                let End::Silent { after } = end(&voice, 1 << 20) else { panic!("{voice:?}") };
                assert!(after <= fading(b as u64, &voice), "{after}: {voice:?}");
            }
        }
    }
}

/// The number of samples that is proved is one more than a voice whose samples are all 2 takes.
#[test]
fn two_takes_two_turns() {
    let voices = [
        (1, 1, 2_049),
        (1, 2_048, 6_144),
        (2, 1, 6_147),
        (2, 98, 7_074),
        (3, 1, 10_242),
        (3, 97, 14_334),
    ];
    for (order, length, delay) in voices {
        let voice = within(2, order, length, delay / 3 * 3);
        assert_eq!(end(&voice, 1 << 20), End::Silent { after: fading(2, &voice) - 1 });
    }
}

/// Document 01's rounding keeps the lowest bits going, and the run finds what comes back.
#[test]
fn rounding_hums() {
    let hums =
        |index: &u64| matches!(end_rounded(&random(3, *index), 1 << 18), End::Returns { .. });
    let count = (0..100).filter(hums).count();
    assert!(count > 20, "{count} of 100");
}
