//! The random cases: demand 3 holds on each, every refusal is reached, a seed decides them.

use oracle::cases::Report;

#[test]
fn texts() {
    let mut report = Report::default();
    for index in 0..400 {
        assert_eq!(report.text(7, index).1, Ok(()));
    }
    assert!(report.numbers().all(|(_, count)| count > 0), "{:?}", report.refusals);
    assert!(report.errors > 0 && report.tally.equal > 0 && report.tally.differing > 0);
    assert!(report.tally.late > 20, "{:?}", report.tally);
    assert!(report.tally.raised > 100 && report.tally.lowered > 100, "{:?}", report.tally);
}

#[test]
fn scores() {
    let mut report = Report::default();
    for index in 0..400 {
        assert_eq!(report.score(7, index).1, Ok(()));
    }
    for number in [0, 1, 2, 3, 5, 6, 7, 8, 14, 15, 16] {
        assert!(report.refusals[number] > 0, "{number}");
    }
    assert!(report.tally.equal > 0 && report.tally.differing > 0);
    assert_eq!((report.tally.raised, report.tally.lowered), (0, 0), "scores keep the order");
}

#[test]
fn a_seed_decides_the_cases() {
    let input = |seed, index| Report::default().text(seed, index).0.input;
    assert_eq!(input(1, 3), input(1, 3));
    assert_ne!(input(1, 3), input(2, 3));
    assert_ne!(input(1, 3), input(1, 23));
}
