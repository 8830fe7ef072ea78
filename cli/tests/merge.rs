//! Merged scores: every loss, change and pluck at its own sample, and the record that a refusal names, on random
//! pairs against a merge that is written here from document 02.

mod common;

use common::{Folder, Random};
use jivaszte_cli::alone;
use jivaszte_cli::merge::merge;
use jivaszte_cli::score::{Change, Header, Pluck, Record, Score};
use jivaszte_cli::text::Instead;
use jivaszte_cli::timeline::Timeline;
use jivaszte_cli::tune::Tune;
use jivaszte_cli::tuning::Tuning;
use std::fs;
use std::path::Path;
use std::process::Command;

const DELAYS: [u16; 3] = [4_096, 3_000, 5_000];

/// Some records of short waits: with an advance of 3 a change is often called while another waits.
fn score(random: &mut Random, advance: u8) -> Score {
    let tuning = Tuning { length: 30, delay: 4_096 };
    let header = Header { order: 1, advance, tuning, loss: 65_000 };
    let records = (0..random.below(6)).map(|_| {
        let change = random.one_in(3).then(|| {
            let delay = random.one_in(2).then(|| DELAYS[random.below(3) as usize]);
            let length = (delay.is_none() || random.one_in(2)).then(|| 30 + random.below(4) as u16);
            Change { length, delay, instant: random.one_in(2) }
        });
        let pluck = random.one_in(3).then(|| Pluck {
            amplitude: random.below(256) as u16,
            count: random.one_in(2).then(|| 1 + random.below(40) as u16),
            seed: random.one_in(2).then(|| random.below(9) as u16),
        });
        let wait = random.one_in(2).then(|| random.below(6) as u16);
        let loss = random.one_in(4).then(|| random.below(65_536) as u16);
        Record { wait, loss, change, pluck }
    });
    Score { header, records: records.collect() }
}

/// The records of a score with their samples, and with what is absent written out.
fn whole(score: &Score) -> Vec<(u64, Record)> {
    let (mut at, mut tuning) = (0, score.header.tuning);
    let each = |record: &Record| {
        at += u64::from(record.wait.unwrap_or(0));
        let change = record.change.map(|change| {
            tuning.length = change.length.unwrap_or(tuning.length);
            tuning.delay = change.delay.unwrap_or(tuning.delay);
            Change { length: Some(tuning.length), delay: Some(tuning.delay), ..change }
        });
        let pluck = record.pluck.map(|pluck| Pluck { count: pluck.count.or(Some(100)), ..pluck });
        (at, Record { change, pluck, ..*record })
    };
    score.records.iter().map(each).collect()
}

/// The merge of two scores that each play.
fn expected(first: &Score, second: &Score) -> Score {
    let mut all = whole(first);
    all.extend(whole(second));
    all.sort_by_key(|(at, _)| *at);
    let mut now = 0;
    let each = |(at, record): (u64, Record)| {
        let wait = Some((at - now) as u16).filter(|&wait| wait > 0);
        now = at;
        Record { wait, ..record }
    };
    Score { header: first.header, records: all.into_iter().map(each).collect() }
}

fn tune(name: &str, bytes: Vec<u8>) -> Tune {
    Tune::of_bytes(Path::new(name), bytes, Instead::default()).unwrap()
}

#[test]
fn merges_are_those_of_the_paper() {
    let mut random = Random::new(14);
    let (mut played, mut refused) = (0, 0);
    for _ in 0..4_000 {
        let advance = random.below(2) as u8 * 3;
        let scores = [score(&mut random, advance), score(&mut random, advance)];
        let [first, second] = scores.each_ref().map(|score| score.encode());
        if [&first, &second].iter().any(|bytes| alone::refused(bytes).is_some()) {
            let failure = merge(&tune("a", first), &tune("b", second)).unwrap_err();
            assert!(failure.message.ends_with("alone (refusal 29)"), "{}", failure.message);
            continue;
        }
        let expected = expected(&scores[0], &scores[1]);
        let bytes = expected.encode();
        match (merge(&tune("a", first), &tune("b", second)), alone::refused(&bytes)) {
            (Ok(merged), None) => {
                assert_eq!(merged, bytes);
                let merged = Timeline::of(&Score::decode(&merged).unwrap());
                let mut plucks: Vec<_> =
                    scores.iter().flat_map(|score| Timeline::of(score).plucks).collect();
                plucks.sort_by_key(|pluck| pluck.at);
                assert_eq!(merged.plucks, plucks);
                played += 1;
            }
            (Err(failure), Some(found)) => {
                let index = found.record.unwrap();
                let offset =
                    Score { records: expected.records[..index].to_vec(), ..expected }.encode();
                let place = format!("record {index} at byte {} is refused", offset.len());
                assert!(failure.message.contains(&place), "{}: {place}", failure.message);
                refused += 1;
            }
            (done, found) => panic!("{done:?} {found:?}"),
        }
    }
    assert!(played > 1_000 && refused > 50, "{played} {refused}");
}

/// A text out compiles to the bytes out, and standard input is one of the two.
#[test]
fn text_and_bytes_come_out_alike() {
    let folder = Folder::new("merge");
    let duet = Path::new(env!("CARGO_MANIFEST_DIR")).join("../demos/duet");
    let (teacher, pupil) = (duet.join("teacher.txt"), duet.join("pupil.txt"));
    let run = |words: &[&str], input: &Path| {
        let mut call = Command::new(env!("CARGO_BIN_EXE_jivaszte"));
        let input = fs::File::open(input).unwrap();
        let done = call.args(words).stdin(input).current_dir(&*folder).output().unwrap();
        assert!(done.status.success(), "{}", String::from_utf8_lossy(&done.stderr));
        done.stdout
    };
    let (first, second) = (teacher.to_str().unwrap(), pupil.to_str().unwrap());
    run(&["merge", first, second, "-o", "duet.score"], &pupil);
    run(&["merge", first, second, "-o", "duet.TXT"], &pupil);
    run(&["compile", "duet.TXT", "-o", "again.score"], &pupil);
    let bytes = fs::read(folder.join("duet.score")).unwrap();
    assert_eq!(fs::read(folder.join("again.score")).unwrap(), bytes);
    assert_eq!(run(&["merge", first, "-", "-o", "-"], &pupil), bytes);
}
