//! The rows: what their lists reach, demand 3 on each, and how they are written.

use oracle::click::{history, Tally};
use oracle::console::answers;
use oracle::rows::answers::{open, opening, Answers};
use oracle::rows::lists::OPENINGS;
use oracle::rows::vectors::text;
use oracle::rows::voices::lists;
use oracle::rows::{module, MODULES};

/// How often each number up to 21 was returned.
fn tally(numbers: impl Iterator<Item = u32>) -> [u32; 22] {
    let mut counts = [0; 22];
    for number in numbers {
        counts[number as usize] += 1;
    }
    counts
}

#[test]
fn every_refusal_of_a_voice_is_reached() {
    let opened = tally(OPENINGS.iter().map(|words| open(opening(words)).1));
    assert!(opened[..=5].iter().all(|count| *count > 0), "{opened:?}");
    let called = tally(lists().flat_map(|list| Answers::to(list).numbers));
    let numbers = [0, 1, 2, 3, 4, 6, 7, 8, 9, 10, 20, 21];
    assert!(numbers.iter().all(|number| called[*number] > 0), "{called:?}");
}

#[test]
fn demand_3_holds_on_each_list() {
    let mut tally = Tally::default();
    for list in lists() {
        let answers = Answers::to(list);
        let (opened, _) = open(answers.opening);
        assert_eq!(history(&opened, &answers.calls).check(&mut tally), Ok(()), "{}", list.name);
    }
    assert!(tally.late > 0 && tally.equal > 0 && tally.differing > 0, "{tally:?}");
    assert!(tally.raised > 4 && tally.lowered > 4, "{tally:?}");
}

/// The answers of the console to all rows, each as its words.
fn answered() -> Vec<Vec<String>> {
    let answers = answers(text().as_bytes());
    answers.lines().map(|line| line.split(' ').map(str::to_string).collect()).collect()
}

#[test]
fn no_row_is_an_error() {
    assert!(answered().iter().all(|words| words[0] != "error"));
}

#[test]
fn every_refusal_of_a_routine_is_reached() {
    let answered = answered();
    let reached = |name: &str, number: u32| {
        let number = number.to_string();
        answered.iter().any(|words| words[0] == name && words[1] == number)
    };
    let numbers: [(&str, &[u32]); 4] = [
        ("record", &[0, 14, 15]),
        ("note", &[0, 1, 11, 12, 13]),
        ("run", &[0, 1, 2, 3, 5, 6, 7, 8, 14, 15, 16]),
        ("open", &[0, 1, 2, 3, 4, 5]),
    ];
    for (name, numbers) in numbers {
        assert!(numbers.iter().all(|number| reached(name, *number)), "{name}");
    }
}

#[test]
fn every_limit_of_a_note_is_a_theorem() {
    let notes = module("NoteRows").expect("the module NoteRows");
    for limit in ["number = 11;", "number = 12;", "number = 13;", "L = 1;", "L = 2048;"] {
        assert!(notes.contains(limit), "{limit}");
    }
    for limit in
        ["fs = 7999;", "fs = 8000;", "fs = 192000;", "fs = 192001;", "m = 127;", "m = 128;"]
    {
        assert!(notes.contains(limit), "{limit}");
    }
}

#[test]
fn a_row_is_written_in_antt() {
    for (_, print) in MODULES {
        assert!(print().lines().all(|line| line.chars().count() < 110));
    }
    let text = module("Rows").expect("the module Rows");
    let end = "  -- Open refuses by 1, with all numbers outside their limits
  pub refused1 :
      Row (record { N = 0; L = 0; d = 0; G = 65536; Na = 65 })
      (block (pos 8388607 ∷ negsuc 4 ∷ pos 0 ∷ []) 3
      ∷ pluck 255 1 0
      ∷ block (pos 0 ∷ []) 1
      ∷ [])
      (record {
        opening = 1;
        numbers = 0 ∷ 0 ∷ 0 ∷ [];
        counts = 0 ∷ 0 ∷ 0 ∷ [];
        outputs = pos 0 ∷ pos 0 ∷ pos 8388607 ∷ negsuc 4 ∷ [];
        voice = record {
          tuning = record { N = 1; L = 1; d = 4096 };
          G = 0;
          Na = 0;
          state = pos 0 ∷ [];
          last = negsuc 4;
          waiting = none;
          pluck = record { amplitude = 0; left = 0; noise = 0 };
        };
        line = negsuc 4410989 ∷ pos 0 ∷ negsuc 4 ∷ pos 8388607 ∷ pos 0 ∷ [];
      })
";
    assert!(text.ends_with(end));
}
