//! What the documents show: each line of docs/SCORES.md and of the help compiles, and each demo plays.

use jivaszte_cli::take;
use jivaszte_cli::text::{compile, compile_strings, Compiled, Instead};
use std::fs;
use std::path::{Path, PathBuf};

const SCORES: &str = include_str!("../../docs/SCORES.md");
const HELP: &str = include_str!("../src/commands/help/all.txt");
const MANUAL: &str = include_str!("../../docs/jivaszte.1");

fn compiled(text: &str) -> Compiled {
    compile(text, None).unwrap_or_else(|faults| panic!("{faults:?}\n{text}"))
}

/// Runs what a text says; gives its samples.
fn played(text: &str) -> Vec<i32> {
    let bytes = compiled(text).score.encode();
    let room = take::room(take::length(&bytes)).unwrap();
    take::run(&bytes, room).unwrap_or_else(|refused| panic!("{refused:?}\n{text}"))
}

/// The lines between two others that are set in by four spaces, without these.
fn inset<'a>(document: &'a str, from: &str, to: &str) -> Vec<&'a str> {
    let part = document.split(from).nth(1).unwrap().split(to).next().unwrap();
    part.lines().filter_map(|line| line.strip_prefix("    ")).collect()
}

#[test]
fn the_whole_text_plays() {
    let text = inset(SCORES, "Here is a whole text:", "## Lines").join("\n");
    assert!(text.contains("slide E4"));
    assert_eq!(played(&text).len(), 44_100 * 3);
}

/// The second column of the tables of lines.
#[test]
fn every_example_compiles() {
    let lines = SCORES.split("## Lines").nth(1).unwrap().split("The numbers:").next().unwrap();
    let examples: Vec<&str> = lines
        .lines()
        .filter_map(|line| line.split('|').nth(2)?.trim().strip_prefix('`')?.strip_suffix('`'))
        .collect();
    assert!(examples.len() >= 15, "{examples:?}");
    for example in examples {
        let word = example.split(' ').next().unwrap();
        let before = match word {
            "tune" => "",
            "rate" | "order" | "advance" => "tune A3",
            _ => "tempo 96\ntune A3\n",
        };
        match before {
            "tune A3" => compiled(&format!("{example}\n{before}")),
            _ => compiled(&format!("{before}{example}")),
        };
    }
    for example in inset(lines, "The line is one record", "\nThe") {
        compiled(&format!("tune A3\n{example}"));
    }
}

#[test]
fn the_bytes_are_those_of_the_example() {
    let rows = inset(SCORES, "As an example", "## Grammar");
    let (mut bytes, mut text) = (Vec::new(), Vec::new());
    for row in rows {
        let (left, right) = row.split_at(28);
        bytes.extend(left.split_whitespace().map(|byte| u8::from_str_radix(byte, 16).unwrap()));
        text.push(right);
    }
    assert_eq!(compiled(&text.join("\n")).score.encode(), bytes);
}

#[test]
fn the_help_shows_a_text() {
    let lines = HELP.split("starts a comment:").nth(1).unwrap().split("docs/").next().unwrap();
    let line = |line: &str| line.trim().split("   ").next().unwrap().to_string();
    let text = lines.lines().map(line).collect::<Vec<_>>().join("\n");
    let strings = compile_strings(&text, Instead::default());
    let strings = strings.unwrap_or_else(|faults| panic!("{faults:?}\n{text}"));
    assert_eq!(strings.len(), 2);
    for (_, string) in strings {
        let bytes = string.score.encode();
        assert!(take::run(&bytes, take::room(take::length(&bytes)).unwrap()).is_ok());
    }
}

#[test]
fn every_demo_plays_and_none_is_clipped() {
    let demos = Path::new(env!("CARGO_MANIFEST_DIR")).join("../demos");
    let files = fs::read_dir(demos).unwrap().map(|entry| entry.unwrap().path());
    let texts: Vec<PathBuf> =
        files.filter(|path| path.extension().is_some_and(|end| end == "txt")).collect();
    assert!(!texts.is_empty());
    for path in texts {
        let take = played(&fs::read_to_string(&path).unwrap());
        assert_eq!(take::clipped(&take), None, "{}", path.display());
        assert!(
            take.iter().any(|sample| sample.abs() > take::FULL_SCALE / 4),
            "{}",
            path.display()
        );
    }
}

/// The man page has every command of the help and every option, and README.md every command.
#[test]
fn the_man_page_has_everything() {
    let readme = include_str!("../../README.md");
    let commands: Vec<&str> = HELP
        .lines()
        .filter_map(|line| line.strip_prefix("  jivaszte ")?.split([' ', ',']).next())
        .collect();
    assert!(commands.len() >= 9, "{commands:?}");
    for command in commands {
        assert!(
            MANUAL.lines().any(|line| line == format!(".B {command}")),
            "the man page: {command}"
        );
        assert!(readme.contains(&format!("| `jivaszte {command}")), "README.md: {command}");
    }
    for (letter, long, _) in jivaszte_cli::options::OPTIONS {
        let option = format!(".BR \\-{letter} \", \" \\-\\-{long}");
        assert!(MANUAL.lines().any(|line| line.starts_with(&option)), "the man page: {option}");
    }
}

#[test]
fn the_program_has_the_crates_version() {
    assert_eq!(env!("CARGO_PKG_VERSION"), jivaszte::VERSION);
}
