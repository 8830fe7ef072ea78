//! The checked figures of document 01 and of document 02, L5, and the player's example.

use oracle::console::answers;
use oracle::figures::{figures, EXAMPLE};
use oracle::player::play;

#[test]
fn every_row_has_the_value_of_the_paper() {
    let figures = figures();
    assert_eq!(figures.len(), 20);
    for figure in figures {
        assert_eq!(figure.computed, figure.paper, "{}", figure.name);
    }
}

#[test]
fn the_player_prints_the_example() {
    let (text, _) = play(&EXAMPLE);
    assert_eq!(text, "0\n0\n0\n0\n-17298\n0\n0\n0\n-4324\n-4324\nend 0 2 10\n");
}

#[test]
fn the_cases_of_the_folder_figures_are_the_papers() {
    let asked = include_bytes!("../figures/console/figures.in");
    assert_eq!(answers(asked), include_str!("../figures/console/figures.out"));
    let score = include_bytes!("../figures/player/example.in");
    assert_eq!(score, &EXAMPLE);
    assert_eq!(play(score).0, include_str!("../figures/player/example.out"));
}

#[test]
fn the_player_cuts_its_input() {
    assert_eq!(play(&[]).0, "end 14 0 0\n");
    let mut score = EXAMPLE[..8].to_vec();
    score.resize(32_768, 0);
    assert_eq!(play(&score).0, "end 0 32760 0\n");
    score[32_767] = 1;
    score.extend([2, 0]);
    assert_eq!(play(&score).0, "end 14 32759 0\n");
}
