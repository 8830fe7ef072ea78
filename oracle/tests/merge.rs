//! Rows of the merge's own bytes: playing cannot see bit 0 with a wait of 0, nor a seed of 0 that is written.

use oracle::merge::merge;
use oracle::refusal::Refusal;

/// Order 1, L 50, d 4,096, G 65,000, with this advance.
fn score(advance: u8, records: &[u8]) -> Vec<u8> {
    [&[1, advance, 50, 0, 0, 16, 232, 253], records].concat()
}

fn merged(advance: u8, first: &[u8], second: &[u8]) -> Result<Vec<u8>, Refusal> {
    let mut lent = [0x4d; 256];
    let length = merge(&score(advance, first), &score(advance, second), &mut lent)?;
    assert!(lent[length..].iter().all(|byte| *byte == 0x4d));
    Ok(lent[8..length].to_vec())
}

#[test]
fn two_records_at_one_moment_from_each() {
    // the first score's two before the second's, each but the first with a wait of 0 and no bit 0
    let (first, second) = ([17, 5, 0, 200, 0, 8, 1, 2], [9, 5, 0, 3, 4, 16, 9, 0]);
    let wanted = [49, 5, 0, 200, 0, 100, 0, 8, 1, 2, 8, 3, 4, 48, 9, 0, 100, 0];
    assert_eq!(merged(4, &first, &second), Ok(wanted.to_vec()));
}

#[test]
fn an_instant_change_before_an_announced_one_plays() {
    let (instant, announced) = ([131, 5, 0, 60, 0], [3, 5, 0, 70, 0]);
    let wanted = [135, 5, 0, 60, 0, 0, 16, 6, 70, 0, 0, 16];
    assert_eq!(merged(4, &instant, &announced), Ok(wanted.to_vec()));
    assert_eq!(merged(4, &announced, &instant), Err(Refusal::Merge));
    assert!(merged(0, &announced, &instant).is_ok());
}

#[test]
fn an_absent_length_is_that_of_its_own_score() {
    let (first, second) = ([131, 5, 0, 60, 0], [5, 8, 0, 160, 15]);
    let wanted = [135, 5, 0, 60, 0, 0, 16, 7, 3, 0, 50, 0, 160, 15];
    assert_eq!(merged(4, &first, &second), Ok(wanted.to_vec()));
}

#[test]
fn a_change_that_takes_effect_with_the_last_sample_of_the_wait_counts() {
    // announced at 0 with Na 4: in force after 4 samples, so that d alone at 4 has the new L
    let first = [2, 60, 0, 5, 4, 0, 160, 15];
    assert_eq!(merged(4, &first, &[]), Ok(vec![6, 60, 0, 0, 16, 7, 4, 0, 60, 0, 160, 15]));
}

#[test]
fn a_wait_that_becomes_0_and_one_that_is_cut_short() {
    let (first, second) = ([1, 7, 0], [1, 7, 0, 1, 9, 0]);
    assert_eq!(merged(4, &first, &second), Ok(vec![1, 7, 0, 0, 1, 9, 0]));
    let (first, second) = ([1, 7, 0], [1, 10, 0]);
    assert_eq!(merged(4, &first, &second), Ok(vec![1, 7, 0, 1, 3, 0]));
}

#[test]
fn a_seed_is_written_where_its_bit_stands_alone() {
    let (first, second) = ([80, 9, 0, 0, 0], [16, 9, 0]);
    assert_eq!(merged(4, &first, &second), Ok(vec![112, 9, 0, 100, 0, 0, 0, 48, 9, 0, 100, 0]));
}

#[test]
fn refusals_in_their_order() {
    let mut lent = [0x4d; 64];
    let good = score(4, &[1, 5, 0]);
    let cut = score(4, &[1, 5]);
    assert_eq!(merge(&good, &score(5, &[1]), &mut lent), Err(Refusal::Headers));
    assert_eq!(merge(&cut, &good, &mut lent), Err(Refusal::Alone));
    // two equal scores shorter than 8 bytes have one header
    assert_eq!(merge(&good[..7], &good[..7], &mut lent), Err(Refusal::Alone));
    assert_eq!(merge(&good[..7], &good, &mut lent), Err(Refusal::Headers));
    assert_eq!(merge(&good, &good, &mut lent[..11]), Err(Refusal::Merge));
    assert!(lent.iter().all(|byte| *byte == 0x4d));
    assert_eq!(merge(&good, &good, &mut lent[..12]), Ok(12));
}
