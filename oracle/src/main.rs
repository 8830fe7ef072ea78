//! The commands: player, console, figures, rows, vectors, delays, scores, calls, silence and compare.

use oracle::advance::every_delay;
use oracle::cases::{write_cases, Report as Reached};
use oracle::compare::compare;
use oracle::console::answers;
use oracle::figures::figures;
use oracle::player::{play, SCORE_BYTES};
use oracle::rows::vectors::text;
use oracle::rows::{module, names};
use oracle::silence::{Report, LIMIT};
use std::io::{self, Read, Write};
use std::path::Path;
use std::process::ExitCode;

const USAGE: &str = "oracle player < score
oracle console < text
oracle figures
oracle rows [NAME]
oracle vectors
oracle delays
oracle scores SEED COUNT DIR
oracle calls SEED COUNT DIR
oracle silence SEED COUNT
oracle compare PROGRAM DIR SAVED";

/// Standard input up to a number of bytes.
fn read_input(limit: u64) -> io::Result<Vec<u8>> {
    let mut bytes = Vec::new();
    io::stdin().lock().take(limit).read_to_end(&mut bytes)?;
    Ok(bytes)
}

/// Prints a text.
fn print(text: &str) -> Result<(), String> {
    let written = io::stdout().lock().write_all(text.as_bytes());
    written.map_err(|error| error.to_string())
}

/// `player`: prints what the player must print.
fn player() -> Result<(), String> {
    let score = read_input(SCORE_BYTES as u64).map_err(|error| error.to_string())?;
    print(&play(&score).0)
}

/// `console`: prints what the console must print.
fn console() -> Result<(), String> {
    let text = read_input(u64::MAX).map_err(|error| error.to_string())?;
    print(&answers(&text))
}

/// `figures`: prints the checked figures; fails where a computed value is not the paper's.
fn print_figures() -> Result<(), String> {
    let mut wrong = Vec::new();
    for figure in figures() {
        print(&format!("{} = {}\n", figure.name, figure.computed))?;
        if figure.computed != figure.paper {
            let (name, computed, paper) = (figure.name, figure.computed, figure.paper);
            wrong.push(format!("{name}: computed {computed}, the paper has {paper}"));
        }
    }
    match wrong.is_empty() {
        true => Ok(()),
        false => Err(wrong.join("\n")),
    }
}

/// `rows`: prints a module of rows.
fn print_rows(name: &str) -> Result<(), String> {
    print(&module(name).ok_or(format!("no module of rows: {name}"))?)
}

/// What the cases reached, one number per line.
fn print_report(report: &Reached) -> Result<(), String> {
    for (number, count) in report.numbers() {
        print(&format!("answer {number}: {count}\n"))?;
    }
    let tally = &report.tally;
    print(&format!("error lines: {}\n", report.errors))?;
    print(&format!("demand 3: changes compared {}, ", tally.changes))?;
    print(&format!("to a higher order {}, to a lower {}, ", tally.raised, tally.lowered))?;
    print(&format!("committed late {}, steps {}, ", tally.late, tally.steps))?;
    print(&format!("equality claimed at {}, difference at {}\n", tally.equal, tally.differing))
}

/// A whole number of the command line.
fn whole(word: &str) -> Result<u64, String> {
    word.parse().map_err(|_| format!("not a number: {word}"))
}

/// `scores` and `calls`: writes the cases.
fn make_cases(kind: &str, seed: &str, count: &str, dir: &str) -> Result<(), String> {
    let (seed, count, dir) = (whole(seed)?, whole(count)?, Path::new(dir));
    let report = match kind {
        "scores" => write_cases(count, dir, |report, index| report.score(seed, index))?,
        _ => write_cases(count, dir, |report, index| report.text(seed, index))?,
    };
    print_report(&report)
}

/// `silence`: runs random voices without input, and prints how many fall silent, and after how long.
fn fall_silent(seed: &str, count: &str) -> Result<(), String> {
    let (seed, count) = (whole(seed)?, whole(count)?);
    print(&format!("at most {LIMIT} samples each\n"))?;
    Report::new(seed, count, LIMIT).lines().iter().try_for_each(|line| print(&format!("{line}\n")))
}

/// `compare`: holds a program to the cases of a folder; fails where one differs, and names three.
fn hold(program: &str, dir: &str, saved: &str) -> Result<(), String> {
    let compared = compare(Path::new(program), Path::new(dir), Path::new(saved))?;
    let (cases, differ) = (compared.cases, compared.differ);
    print(&format!("{program}: {cases} compared, {} differ\n", differ.len()))?;
    let first: Vec<&str> = differ.iter().take(3).map(String::as_str).collect();
    match (cases, differ.len()) {
        (0, _) => Err(format!("{dir} has no case")),
        (_, 0) => Ok(()),
        _ => Err(format!("see {saved}, first {}", first.join(", "))),
    }
}

fn main() -> ExitCode {
    let arguments: Vec<String> = std::env::args().skip(1).collect();
    let words: Vec<&str> = arguments.iter().map(String::as_str).collect();
    let done = match words[..] {
        ["player"] => player(),
        ["console"] => console(),
        ["figures"] => print_figures(),
        ["delays"] => print(&every_delay()),
        ["rows"] => print(&names()),
        ["rows", name] => print_rows(name),
        ["vectors"] => print(&text()),
        [kind @ ("scores" | "calls"), seed, count, dir] => make_cases(kind, seed, count, dir),
        ["silence", seed, count] => fall_silent(seed, count),
        ["compare", program, dir, saved] => hold(program, dir, saved),
        _ => {
            eprintln!("{USAGE}");
            return ExitCode::from(2);
        }
    };
    match done {
        Ok(()) => ExitCode::SUCCESS,
        Err(message) => {
            eprintln!("{message}");
            ExitCode::from(1)
        }
    }
}
