//! Frames and events of a host: the numbers in their order, and some values by hand.

use oracle::host::{event_delay, event_loss, frame};
use oracle::instrument::Instrument;
use oracle::refusal::Refusal;
use oracle::stored::stored;

fn bits(x: f32) -> u32 {
    x.to_bits()
}

#[test]
fn each_side_is_the_clipped_sum_of_three() {
    let mut instrument = Instrument::default();
    instrument.strings[3] = oracle::voice::Voice::open(1, 2, 4_096, 0, 0).0;
    let mut put = |x: f32| frame(&mut instrument, bits(x)).1.map(f32::from_bits);
    assert_eq!(put(0.25), [0.0, 0.0]);
    assert_eq!(put(-0.5), [0.0, 0.0]);
    assert_eq!(put(0.0), [0.75, 0.5]);
    assert_eq!(put(0.0), [-8_388_607.0 / 8_388_608.0, -0.75]);
}

#[test]
fn a_refused_frame_steps_nothing() {
    let mut instrument = Instrument::default();
    assert_eq!(frame(&mut instrument, bits(f32::NAN)), (Err(Refusal::NotFinite), [0, 0]));
    assert_eq!(frame(&mut instrument, bits(1.0000001)), (Err(Refusal::FloatRange), [0, 0]));
    assert!(instrument.strings.iter().all(|string| stored(string) == [0]));
    assert!(frame(&mut instrument, bits(-1.0)).0.is_ok());
}

#[test]
fn events() {
    let mut instrument = Instrument::default();
    instrument.strings[1] = oracle::voice::Voice::open(2, 9, 8_000, 65_000, 3).0;
    let mut delay = |string, x: f32| event_delay(&mut instrument, string, bits(x));
    assert_eq!(delay(6, f32::NAN), Err(Refusal::String));
    assert_eq!(delay(1, f32::INFINITY), Err(Refusal::NotFinite));
    for x in [0.0, -0.0, -5.0, 3.0, 2_051.5, 1e30, f32::MAX, f32::MIN] {
        assert_eq!(delay(1, x), Err(Refusal::NoteLength), "{x}");
    }
    assert_eq!(delay(1, 100.0), Ok(()));
    assert_eq!(delay(1, 100.0), Err(Refusal::ChangeWaits));
    // T is 409,600, and 409,600 − 2,048 is 4,096 · 97 + 10,240
    let to = instrument.strings[1].waiting.as_ref().expect("a change").tuning;
    assert_eq!((to.order, to.length, to.delay), (2, 97, 10_240));
    let mut loss = |x: f32| event_loss(&mut instrument, 1, bits(x));
    assert_eq!(loss(-1e-30), Err(Refusal::FloatRange));
    assert_eq!((loss(-0.0), loss(1.0)), (Ok(()), Ok(())));
    assert_eq!(instrument.strings[1].loss, 65_535);
}
