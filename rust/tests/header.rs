//! The crate says what include/jivaszte.h says: the numbers, their words, and the routines.

use jivaszte::Refusal;

const HEADER: &str = include_str!("../../include/jivaszte.h");

/// `JIVASZTE_NAME = NUMBER` of the header's first enum, and the numbers that stand alone.
fn numbers() -> Vec<(String, u32)> {
    let read = |line: &str| {
        let (name, number) = line.split_once(" = ")?;
        Some((name.to_string(), number.parse().ok()?))
    };
    let first = HEADER.split("enum {").nth(1).unwrap().split("};").next().unwrap();
    let names = first
        .lines()
        .filter_map(|line| read(line.trim().strip_prefix("JIVASZTE_")?.trim_end_matches(',')));
    let alone = HEADER
        .lines()
        .filter_map(|line| read(line.strip_prefix("enum { JIVASZTE_")?.strip_suffix(" };")?));
    names.chain(alone).collect()
}

/// CHANGE_WAITS is ChangeWaits here.
fn named(refusal: Refusal) -> String {
    let mut name = String::new();
    for letter in format!("{refusal:?}").chars() {
        if letter.is_uppercase() && !name.is_empty() {
            name.push('_');
        }
        name.push(letter.to_ascii_uppercase());
    }
    name
}

#[test]
fn every_number_has_the_name_of_the_header() {
    let wanted: Vec<(String, u32)> =
        numbers().into_iter().filter(|(name, _)| name != "DONE").collect();
    let got: Vec<(String, u32)> =
        Refusal::ALL.iter().map(|refusal| (named(*refusal), refusal.number())).collect();
    assert_eq!(got, wanted);
    for refusal in Refusal::ALL {
        assert_eq!(Refusal::of(refusal.number()), Err(*refusal));
    }
    assert_eq!((Refusal::of(0), Refusal::of(99)), (Ok(()), Err(Refusal::Other(99))));
}

#[test]
fn every_refusal_has_the_words_of_the_header() {
    let table = HEADER.split("words[] = {").nth(1).unwrap().split("};").next().unwrap();
    let rows = table.lines().filter_map(|row| row.trim().strip_prefix('"')?.strip_suffix("\","));
    let words: Vec<&str> = rows.collect();
    assert_eq!(words[0], "done");
    for refusal in Refusal::ALL.iter().filter(|refusal| refusal.number() != 31) {
        match words.get(refusal.number() as usize) {
            Some(row) => assert_eq!(refusal.to_string(), *row),
            None => assert!(HEADER.contains(&format!("return \"{refusal}\";")), "{refusal}"),
        }
    }
    let cases = HEADER.matches("    case ").count();
    assert_eq!(words.len() + cases, Refusal::ALL.len(), "a refusal has no words in the crate");
    assert!(
        Refusal::Other(99).words() == "no number of a refusal"
            && HEADER.contains("\"no number of a refusal\"")
    );
}

/// Each routine that the header declares is linked here, and no other is.
#[test]
fn every_routine_is_here() {
    let c = include_str!("../src/c.rs");
    let starts = ["uint64_t", "uint32_t", "int32_t", "size_t", "void", "jivaszte_frame"]
        .map(|of| format!("{of} jivaszte_"));
    let declared: Vec<&str> = HEADER
        .lines()
        .filter_map(|line| starts.iter().find_map(|start| line.strip_prefix(start.as_str())))
        .filter_map(|rest| rest.split('(').next())
        .collect();
    let linked: Vec<&str> = c
        .lines()
        .filter_map(|line| line.trim().strip_prefix("pub fn jivaszte_")?.split('(').next())
        .collect();
    assert!(declared.len() >= 9, "{declared:?}");
    assert_eq!(linked, declared);
}

/// A kind of call has the number that the header gives it.
#[test]
fn every_call_has_the_kind_of_the_header() {
    use jivaszte::Call;
    let calls = [
        ("BLOCK", Call::Block { input: 1, output: 2 }, [1, 2, 0]),
        ("LOSS", Call::Loss(1), [1, 0, 0]),
        ("PLUCK", Call::Pluck { amplitude: 1, count: 2, seed: 3 }, [1, 2, 3]),
        ("ANNOUNCE", Call::Announce { order: 1, length: 2, delay: 3 }, [1, 2, 3]),
        ("INSTANT", Call::Instant { order: 1, length: 2, delay: 3 }, [1, 2, 3]),
        ("ASK", Call::Ask { order: 1, length: 2, delay: 3 }, [1, 2, 3]),
        ("COMMIT", Call::Commit, [0, 0, 0]),
        ("WITHDRAW", Call::Withdraw, [0, 0, 0]),
    ];
    for (name, call, numbers) in calls {
        let [kind, rest @ ..] = call.words();
        let line = format!("    JIVASZTE_CALL_{name} = {kind}");
        assert!(HEADER.lines().any(|row| row.trim_end_matches(',') == line), "{line}");
        assert_eq!(rest, numbers);
    }
    let declared = HEADER.lines().filter(|row| row.starts_with("    JIVASZTE_CALL_")).count();
    assert_eq!(declared, calls.len(), "a kind of call has no name in the crate");
}

/// Header, library and crate have one version.
#[test]
fn there_is_one_version() {
    let defined = |name: &str| {
        let start = format!("#define {name} ");
        HEADER.lines().find_map(|line| line.strip_prefix(&start)).unwrap().trim_matches('"')
    };
    assert_eq!(jivaszte::VERSION, defined("JIVASZTE_VERSION"));
    let number =
        jivaszte::VERSION.split('.').fold(0, |sum, part| 100 * sum + part.parse::<u32>().unwrap());
    assert_eq!(jivaszte::version(), number);
    assert_eq!(jivaszte::version().to_string(), defined("JIVASZTE_VERSION_NUMBER"));
}
