//! A tube junction: r, the refusals in their order, and samples worked out by hand.

use oracle::junction::{reflection, Junction};
use oracle::refusal::Refusal;

#[test]
fn reflections() {
    let pairs = [(1, 65_535), (65_535, 1), (7, 7), (2, 1), (1, 2)];
    let values = pairs.map(|(left, right)| reflection(left, right));
    assert_eq!(values, [-32_767, 32_767, 0, 10_923, -10_923]);
}

#[test]
fn refusals_in_their_order() {
    let open = |left, right, delay, advance| Junction::open(left, right, delay, advance).1;
    assert_eq!(open(0, 65_535, 2_048, 65), Err(Refusal::Area));
    assert_eq!(open(1, 65_536, 2_048, 65), Err(Refusal::Area));
    assert_eq!(open(1, 65_535, 6_144, 65), Err(Refusal::Delay));
    assert_eq!(open(1, 65_535, 6_143, 65), Err(Refusal::Advance));
    let (mut junction, answer) = Junction::open(1, 65_535, 2_049, 64);
    assert_eq!(answer, Ok(()));
    assert_eq!(junction.move_to(2_048), Err(Refusal::Delay));
    assert_eq!(junction.move_to(6_143), Ok(()));
    assert_eq!(junction.move_to(6_144), Err(Refusal::Delay));
    assert_eq!(junction.move_to(6_143), Err(Refusal::ChangeWaits));
}

#[test]
fn equal_areas_pass_each_side_on_one_sample_late() {
    let (mut junction, _) = Junction::open(0, 1, 3_000, 2);
    assert_eq!(junction.sample(5, 6), (Ok(()), (0, 0)));
    assert_eq!(junction.sample(8_388_608, 6), (Err(Refusal::Input), (0, 0)));
    assert_eq!(junction.sample(7, 8), (Ok(()), (5, 6)));
}

#[test]
fn with_an_advance_of_0_a_move_acts_in_the_call() {
    let (mut junction, _) = Junction::open(3, 1, 4_096, 0);
    // r is 16,384; the filters of 4,096 are a delay of one sample
    assert_eq!(junction.sample(100, -70), (Ok(()), (0, 0)));
    assert_eq!(junction.move_to(4_096), Ok(()));
    assert_eq!(junction.sample(0, 0), (Ok(()), (150, -35)));
}
