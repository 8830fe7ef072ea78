//! Random cases with the answers expected: scores for the player, texts for the console.

pub mod asked;
pub mod field;
pub mod junctions;
pub mod lines;
pub mod lists;
pub mod merges;
pub mod notes;
pub mod orders;
pub mod random;
pub mod recordings;
pub mod score_fields;
pub mod scores;
pub mod shares;
pub mod stores;
pub mod strings;
pub mod text;
pub mod texts;
pub mod words;

use crate::call::Call;
use crate::click::{history, Tally};
use crate::console::answers;
use crate::player::play;
use crate::refusal::number;
use crate::voice::Voice;
use shares::lists_of;
use std::fs;
use std::path::Path;

/// A case: the input, and the output expected.
pub struct Case {
    pub input: Vec<u8>,
    pub output: String,
}

/// What all the cases of one command reached.
#[derive(Debug)]
pub struct Report {
    /// Answers by refusal number, 0 for success; 26, 27 and 31 are none's.
    pub refusals: [u64; 33],
    /// Lines answered by `error`.
    pub errors: u64,
    /// What was compared for demand 3.
    pub tally: Tally,
}

impl Default for Report {
    fn default() -> Report {
        Report { refusals: [0; 33], errors: 0, tally: Tally::default() }
    }
}

impl Report {
    /// The numbers that answers have, and how often each was reached.
    pub fn numbers(&self) -> impl Iterator<Item = (usize, u64)> + '_ {
        (0..=25).chain([28, 29, 30, 32]).map(|number| (number, self.refusals[number]))
    }

    /// Counts the refusal numbers in the answers of the console.
    fn count_answers(&mut self, printed: &str) {
        for line in printed.lines() {
            let mut words = line.split(' ').peekable();
            if words.next_if_eq(&"string").is_some() {
                words.next();
            }
            match words.next() {
                Some("error") => self.errors += 1,
                Some("draw" | "state" | "line" | "gather" | "help") | None => {}
                Some(_) => {
                    let answer = words.next().and_then(|word| word.parse::<usize>().ok());
                    self.refusals[answer.expect("an answer has a number")] += 1;
                }
            }
        }
    }

    /// Demand 3 on each list of calls, and the own figure.
    fn check_lists(&mut self, lists: Vec<(Voice, Vec<Call>)>) -> Result<(), String> {
        lists.iter().try_for_each(|(opened, list)| {
            let history = history(opened, list);
            history.check(&mut self.tally).and_then(|()| history.check_own())
        })
    }

    /// The score of case `index` and what the player must print; demand 3 is checked on its calls.
    pub fn score(&mut self, seed: u64, index: u64) -> (Case, Result<(), String>) {
        let input = scores::score(seed, index);
        let (output, run) = play(&input);
        self.refusals[number(&run.answer) as usize] += 1;
        let lists = run.opened.map(|opened| (opened, run.list)).into_iter().collect();
        let checked = self.check_lists(lists);
        (Case { input, output }, checked.map_err(|message| format!("score {index:05}: {message}")))
    }

    /// The console text of case `index` and what the console must print; demand 3 is checked on
    /// each list of calls in it.
    pub fn text(&mut self, seed: u64, index: u64) -> (Case, Result<(), String>) {
        let input = texts::text(seed, index);
        let output = answers(&input);
        self.count_answers(&output);
        let checked = self.check_lists(lists_of(&input));
        (Case { input, output }, checked.map_err(|message| format!("text {index:05}: {message}")))
    }
}

/// Writes a case as DIR/NNNNN.in and DIR/NNNNN.out.
fn write_case(dir: &Path, index: u64, case: &Case) -> Result<(), String> {
    let write = |suffix: &str, bytes: &[u8]| {
        let path = dir.join(format!("{index:05}.{suffix}"));
        fs::write(&path, bytes).map_err(|error| format!("{}: {error}", path.display()))
    };
    write("in", &case.input)?;
    write("out", case.output.as_bytes())
}

/// Makes and writes `count` cases. A case that fails demand 3 ends the writing.
pub fn write_cases(
    count: u64,
    dir: &Path,
    mut make: impl FnMut(&mut Report, u64) -> (Case, Result<(), String>),
) -> Result<Report, String> {
    fs::create_dir_all(dir).map_err(|error| format!("{}: {error}", dir.display()))?;
    let mut report = Report::default();
    for index in 0..count {
        let (case, checked) = make(&mut report, index);
        write_case(dir, index, &case)?;
        checked?;
    }
    Ok(report)
}
