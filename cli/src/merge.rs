//! Two scores into one, by the proved library, and the words for what it refuses.

use crate::alone;
use crate::bytes::{records, Place, HEADER_BYTES};
use crate::failure::{Failure, Outcome};
use crate::files::MOST_BYTES;
use crate::number::counted;
use crate::refusal::message;
use crate::score::Score;
use crate::take::Refused;
use crate::tune::Tune;
use jivaszte::Refusal;

/// A merged record has at most so many bytes more than its own: a length or a delay, and a count.
const MOST_MORE: usize = 4;

/// A record of one of the two scores.
struct Event {
    /// The samples before it, from the start of its score.
    moment: u64,
    /// 0 for a record of the first score, 1 for one of the second.
    score: usize,
    /// Its index in its score, and the offset behind it.
    index: usize,
    end: usize,
}

/// The bytes of the merge of two scores.
pub fn merge(first: &Tune, second: &Tune) -> Outcome<Vec<u8>> {
    let pair = [first, second];
    merged([&first.bytes, &second.bytes], room(pair)).map_err(|refusal| match refusal {
        Refusal::Headers => headers(pair),
        Refusal::Alone => not_alone(pair),
        _ => refused(pair),
    })
}

/// Bytes that a merge can need, up to what the program reads again.
fn room(pair: [&Tune; 2]) -> usize {
    let most = |tune: &Tune| tune.bytes.len() + MOST_MORE * records(&tune.bytes).count();
    pair.map(most).iter().sum::<usize>().min(MOST_BYTES as usize)
}

fn merged([first, second]: [&[u8]; 2], room: usize) -> Result<Vec<u8>, Refusal> {
    let mut bytes = vec![0; room];
    let length = jivaszte::merge(first, second, &mut bytes)?;
    bytes.truncate(length);
    Ok(bytes)
}

/// What differs in two headers.
fn headers(pair: [&Tune; 2]) -> Failure {
    let names = pair.map(|tune| tune.name.as_str()).join(" and ");
    let said = message(Refusal::Headers);
    let header = |tune: &Tune| tune.bytes.get(..HEADER_BYTES).map(Score::decode);
    let [Some(Ok(one)), Some(Ok(other))] = pair.map(header) else {
        let short = pair.map(|tune| counted(tune.bytes.len() as u64, "byte")).join(" and ");
        return Failure::input(format!("{names}: {short}, and a header has 8: {said}"));
    };
    let (one, other) = (one.header, other.header);
    let numbers = [
        ("order", one.order.into(), other.order.into()),
        ("advance", one.advance.into(), other.advance.into()),
        ("length", one.tuning.length, other.tuning.length),
        ("delay", one.tuning.delay, other.tuning.delay),
        ("loss", one.loss, other.loss),
    ];
    let unlike = numbers.iter().filter(|(_, one, other)| one != other);
    let words: Vec<String> =
        unlike.map(|(name, one, other)| format!("{name} {one} and {other}")).collect();
    Failure::input(format!("{names}: {}: {said}", words.join(", ")))
}

/// Which of two scores does not end alone, and its record.
fn not_alone(pair: [&Tune; 2]) -> Failure {
    let said = |tune: &&Tune| {
        let words = tune.refused(alone::refused(&tune.bytes)?);
        Some(format!("{words}\n{} does not play to its end alone (refusal 29)", tune.name))
    };
    let words: Vec<String> = pair.iter().filter_map(said).collect();
    Failure::input(words.join("\n"))
}

/// The records of both scores in the order of the merge.
fn events(pair: [&Tune; 2]) -> Vec<Event> {
    let mut events = Vec::new();
    for (score, tune) in pair.iter().enumerate() {
        let offsets = records(&tune.bytes).map(|(offset, _)| offset).skip(1);
        let ends = offsets.chain([tune.bytes.len()]);
        let mut moment = 0;
        for (index, ((_, record), end)) in records(&tune.bytes).zip(ends).enumerate() {
            moment += record.map_or(0, |record| u64::from(record.wait.unwrap_or(0)));
            events.push(Event { moment, score, index, end });
        }
    }
    events.sort_by_key(|event| event.moment);
    events
}

/// The first record with which a merge is refused, whose score it is of, and why.
fn refused(pair: [&Tune; 2]) -> Failure {
    let (events, room) = (events(pair), room(pair));
    let first = |count: usize, room: usize| {
        let end = |score: usize| {
            let last = events[..count].iter().rev().find(|event| event.score == score);
            last.map_or(HEADER_BYTES, |event| event.end)
        };
        merged([&pair[0].bytes[..end(0)], &pair[1].bytes[..end(1)]], room)
    };
    let (mut good, mut bad) = (0, events.len());
    while bad - good > 1 {
        let middle = (good + bad) / 2;
        match first(middle, room) {
            Ok(_) => good = middle,
            Err(_) => bad = middle,
        }
    }
    let offset = first(good, room).map_or(0, |bytes| bytes.len());
    let place = Place::Record { index: good, offset };
    let Some(event) = events.get(good) else { return Failure::input(message(Refusal::Merge)) };
    let words = match first(bad, room + MOST_BYTES as usize) {
        Ok(_) => format!("the merge has more than {} MiB from {place} on", MOST_BYTES >> 20),
        Err(_) => {
            let (refusal, record) = (Refusal::ChangeWaits, Some(event.index));
            let words = pair[event.score].refused(Refused { refusal, record });
            format!("{words}\nthe merge does not play to its end: {place} is refused")
        }
    };
    Failure::input(format!("{words} (refusal 30)"))
}
