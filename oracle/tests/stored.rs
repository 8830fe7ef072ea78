//! A stored voice: the bytes of some, what comes back, and the two numbers.

use oracle::call::Call;
use oracle::refusal::Refusal;
use oracle::stored::{form, load, panel, parts, store, stored, usual, Parts};
use oracle::tuning::Tuning;
use oracle::voice::Voice;

fn block(input: &[i32]) -> Call {
    Call::Block { input: input.to_vec(), places: input.len() }
}

/// A voice of order 2 after some samples, with an asked change of order 3 and a pluck that sounds.
fn voice() -> Voice {
    let (mut voice, _) = Voice::open(2, 5, 7_000, 65_000, 3);
    let to = Tuning { order: 3, length: 4, delay: 11_000 };
    let pluck = Call::Pluck { amplitude: 9, count: 40, seed: 7 };
    for call in [block(&[1_000; 20]), Call::Asked { to }, pluck, block(&[-5; 9])] {
        call.make(&mut voice);
    }
    voice
}

/// What loading these parts by this bit map gives.
fn loads(map: u8, change: impl Fn(&mut Parts)) -> Option<Refusal> {
    let mut parts = parts(&voice());
    change(&mut parts);
    load(&form(map, &parts)).1.err()
}

#[test]
fn the_refusal_voice_is_one_byte() {
    let (refused, _) = Voice::open(0, 0, 0, 0, 0);
    assert_eq!(stored(&refused), [0]);
    assert_eq!(panel(&[0]), (Ok(()), [1, 4_096, 0]));
    assert_eq!(load(&[]).1, Err(Refusal::StoredLength));
    assert_eq!(panel(&[1, 0, 0]), (Err(Refusal::StoredLength), [1, 4_096, 0]));
}

#[test]
fn a_voice_comes_back_and_goes_on() {
    let mut first = voice();
    let bytes = stored(&first);
    assert_eq!((bytes[0], bytes.len()), (255, 8_529));
    let (mut second, answer) = load(&bytes);
    assert_eq!(answer, Ok(()));
    assert_eq!(stored(&second), bytes);
    for call in [block(&[0; 7]), Call::Commit, block(&[3; 50]), Call::Withdraw] {
        let (one, other) = (call.make(&mut first), call.make(&mut second));
        assert_eq!((one.answer, one.output), (other.answer, other.output));
    }
    assert_eq!(stored(&first), stored(&second));
}

#[test]
fn room() {
    let mut lent = vec![77; 8_530];
    assert_eq!(store(&voice(), &mut lent[..8_528]), (Err(Refusal::Room), 0));
    assert!(lent.iter().all(|byte| *byte == 77));
    assert_eq!(store(&voice(), &mut lent), (Ok(()), 8_529));
    assert_eq!(lent[8_529], 77);
}

#[test]
fn a_needless_part_is_taken_up() {
    let bytes = form(255, &usual());
    let (voice, answer) = load(&bytes);
    assert_eq!((answer, stored(&voice)), (Ok(()), vec![0]));
}

#[test]
fn limits() {
    let part = Some(Refusal::StoredPart);
    assert_eq!(loads(255, |_| ()), None);
    assert_eq!(loads(254, |_| ()), part); // order 1 has no v2
    assert_eq!(loads(251, |_| ()), part); // more samples taken than the advance, 0
    assert_eq!(loads(255, |parts| parts[4][2] = 1), part);
    assert_eq!(loads(255, |parts| parts[4][1] = 16_777_214), None);
    assert_eq!(loads(255, |parts| parts[4][1] = 16_777_215), part);
    assert_eq!(loads(255, |parts| parts[3][0] = -8_388_607i32 as u32), None);
    assert_eq!(loads(255, |parts| parts[3][0] = -8_388_608i32 as u32), part);
    assert_eq!(loads(255, |parts| parts[7][0] = -8_388_608i32 as u32), part);
    assert_eq!(loads(255, |parts| parts[5][0] = 1), part); // 3 of 3 taken
    assert_eq!(loads(255, |parts| (parts[5][0], parts[5][4]) = (1, 2)), None);
    assert_eq!(loads(255, |parts| parts[5][4] = 4), part);
    assert_eq!(loads(255, |parts| parts[5][0] = 0), part);
    assert_eq!(loads(255, |parts| parts[5] = vec![0; 8]), None);
    assert_eq!(loads(255, |parts| parts[6] = vec![0, 0, 1]), part);
    assert_eq!(loads(255, |parts| parts[6] = vec![0, 2_048, 1]), None);
    assert_eq!(loads(255, |parts| parts[6] = vec![0, 2_049, 1]), part);
}
