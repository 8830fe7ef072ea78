//! The order of a score's refusals, and what stands after them.

use oracle::refusal::number;
use oracle::score::run;

/// Header: order 1, Na 2, L 3, d 4,096, G 65,535.
const HEADER: [u8; 8] = [1, 2, 3, 0, 0, 0x10, 0xFF, 0xFF];

/// Number, place and samples of a run of these records, and the output of five places.
fn play(records: &[u8]) -> ((u32, u32, usize), [i32; 5]) {
    let mut output = [77; 5];
    let run = run(&[&HEADER, records].concat(), &mut output);
    ((number(&run.answer), run.place, run.written), output)
}

#[test]
fn the_output_can_be_exactly_full() {
    assert_eq!(play(&[1, 5, 0, 0, 1, 0, 0]).0, (0, 3, 5));
    assert_eq!(play(&[1, 4, 0, 1, 2, 0]), ((16, 1, 4), [0, 0, 0, 0, 77]));
}

#[test]
fn tests_run_in_the_order_listed() {
    assert_eq!(run(&HEADER[..7], &mut []).answer.map_err(|r| r as u32), Err(14));
    assert_eq!(play(&[0x21, 9, 0, 1]).0, (14, 0, 0));
    assert_eq!(play(&[0x21, 9, 0, 1, 0]).0, (15, 0, 0));
    assert_eq!(play(&[0x81, 1, 0]).0, (15, 0, 0));
    assert_eq!(play(&[0x03, 9, 0, 0, 0]).0, (16, 0, 0));
    assert_eq!(play(&[0x33, 3, 0, 0, 0, 0, 1, 3, 0]), ((2, 0, 3), [0, 0, 0, 77, 77]));
    assert_eq!(play(&[0x02, 4, 0, 0x33, 1, 0, 4, 0, 0, 1, 0, 0]).0, (6, 1, 1));
    assert_eq!(play(&[0x30, 0, 1, 0, 0]).0, (7, 0, 0));
    assert_eq!(play(&[0x30, 255, 0, 0, 0]).0, (8, 0, 0));
}

/// An absent count is 100, whatever length is in force when the pluck starts; a given one is kept.
#[test]
fn the_count_that_is_absent() {
    let plucked = |records: &[u8]| {
        let mut output = [0; 9];
        let run = run(&[&HEADER, records].concat(), &mut output);
        format!("{:?}", run.list.last())
    };
    assert!(plucked(&[0x10, 9, 0]).contains("count: 100"));
    assert!(plucked(&[0x12, 5, 0, 9, 0]).contains("count: 100"));
    assert!(plucked(&[0x92, 5, 0, 9, 0]).contains("count: 100"));
    assert!(plucked(&[0xB2, 5, 0, 9, 0, 7, 0]).contains("count: 7"));
}
