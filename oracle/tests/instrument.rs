//! Six strings: the mix is the clipped sum, a call on one leaves the others, and the numbers.

use oracle::call::Call;
use oracle::instrument::Instrument;
use oracle::refusal::Refusal;
use oracle::stored::stored;
use oracle::voice::Voice;

#[test]
fn the_mix_is_clipped_once() {
    let mut instrument = Instrument::default();
    // L 1 and d 4,096: what comes in goes out two samples later, from each string
    let mut output = [77; 4];
    assert_eq!(instrument.mix(&[1_000_000, -2_000_000, 0, 0], &mut output), Ok(()));
    assert_eq!(output, [0, 0, 6_000_000, -8_388_607]);
    // two strings of opposite sign: a sum clipped string by string would be another
    for (k, sample) in [(0, 8_388_607), (1, 8_388_607), (2, -8_388_607)] {
        let (voice, _) = Voice::open(1, 1, 4_096, 0, 0);
        instrument.strings[k] = voice;
        Call::Block { input: vec![sample], places: 1 }.make(&mut instrument.strings[k]);
    }
    assert_eq!(instrument.mix(&[0, 0], &mut output[..2]), Ok(()));
    assert_eq!(output[..2], [0, 8_388_607]);
}

#[test]
fn refusals() {
    let mut instrument = Instrument::default();
    assert_eq!(instrument.string(6).err(), Some(Refusal::String));
    assert_eq!(instrument.string(u32::MAX).err(), Some(Refusal::String));
    let mut output = [77; 3];
    assert_eq!(instrument.mix(&[8_388_608, 0], &mut output), Err(Refusal::BlockLengths));
    assert_eq!(instrument.mix(&[0, 0, -8_388_608], &mut output), Err(Refusal::Input));
    assert_eq!(output, [77; 3]);
    assert!(instrument.strings.iter().all(|string| stored(string) == [0]));
    assert_eq!(instrument.mix(&[], &mut []), Ok(()));
}

#[test]
fn a_call_on_one_string_leaves_the_others() {
    let mut instrument = Instrument::default();
    let pluck = Call::Pluck { amplitude: 255, count: 9, seed: 1 };
    pluck.make(instrument.string(5).expect("a string"));
    let forms: Vec<Vec<u8>> = instrument.strings.iter().map(stored).collect();
    assert!(forms[..5].iter().all(|form| *form == [0]) && forms[5][0] == 64);
}
