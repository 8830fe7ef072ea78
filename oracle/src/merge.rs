//! Document 02, L14: two scores into one.
//!
//! Each score is run alone over an output that is long enough; the calls of that run say which L, d and count
//! each of its records used. The records of both are sorted by their samples.

use crate::call::Call;
use crate::record::{read_record, Record, AMPLITUDE, DELAY, LENGTH, LOSS, SEED, WAIT};
use crate::refusal::{require, Refusal};
use crate::score::run;

/// A record with its sample and the values that its own score used.
#[derive(Clone, Debug)]
struct Event {
    moment: u64,
    record: Record,
    length: u32,
    delay: u32,
    count: u32,
}

/// The records of a score's bytes, as far as they can be read.
fn records(score: &[u8]) -> Vec<Record> {
    let mut rest = score.get(8..).unwrap_or(&[]);
    let mut read = Vec::new();
    while !rest.is_empty() {
        let (answer, record, after) = read_record(rest);
        if answer.is_err() {
            break;
        }
        read.push(record);
        rest = after;
    }
    read
}

/// "run to their end alone, given output enough": the calls that the run made, or nothing.
fn calls(score: &[u8]) -> Option<Vec<Call>> {
    let room: usize = records(score).iter().map(|record| record.fields[WAIT] as usize).sum();
    let played = run(score, &mut vec![0; room]);
    played.answer.is_ok().then_some(played.list)
}

/// "the length and delay that its own score would have used", and the count.
fn events(score: &[u8], calls: Vec<Call>) -> Vec<Event> {
    let mut calls = calls.into_iter();
    let mut moment = 0;
    let mut list = Vec::new();
    for record in records(score) {
        moment += u64::from(record.fields[WAIT]);
        calls.next();
        if record.has(LOSS) {
            calls.next();
        }
        let (mut length, mut delay, mut count) = (0, 0, 0);
        if record.has(LENGTH) || record.has(DELAY) {
            if let Some(Call::Announced { to } | Call::Instant { to }) = calls.next() {
                (length, delay) = (to.length, to.delay);
            }
        }
        if record.has(AMPLITUDE) {
            if let Some(Call::Pluck { count: used, .. }) = calls.next() {
                count = used;
            }
        }
        list.push(Event { moment, record, length, delay, count });
    }
    list
}

/// "bit 0 only for a wait above 0, bits 1 and 2 if it changes, bit 5 if it plucks, else its own bits".
fn put(bytes: &mut Vec<u8>, wait: u64, event: &Event) {
    let own = &event.record;
    let changes = own.has(LENGTH) || own.has(DELAY);
    let plucks = own.has(AMPLITUDE);
    let fields = [
        (wait > 0, wait as u32),
        (changes, event.length),
        (changes, event.delay),
        (own.has(LOSS), own.fields[LOSS]),
        (plucks, own.fields[AMPLITUDE]),
        (plucks, event.count),
        (own.has(SEED), own.fields[SEED]),
    ];
    let map = fields
        .iter()
        .enumerate()
        .fold(own.map & 128, |map, (bit, field)| map | u8::from(field.0) << bit);
    bytes.push(map);
    for (_, field) in fields.iter().filter(|field| field.0) {
        bytes.extend((*field as u16).to_le_bytes());
    }
}

/// The merge's bytes, of two scores that end alone.
fn merged(first: &[u8], events: &[Event]) -> Vec<u8> {
    let mut bytes = first[..8].to_vec();
    let mut last = 0;
    for event in events {
        put(&mut bytes, event.moment - last, event);
        last = event.moment;
    }
    bytes
}

/// "28 the first 8 bytes differ", "29 a score that does not end alone", "30 a merge that does not play to its
/// end, or that is longer than the lent bytes": in that order; else its length, "and touches nothing past it".
pub fn merge(first: &[u8], second: &[u8], lent: &mut [u8]) -> Result<usize, Refusal> {
    require(first.iter().take(8).eq(second.iter().take(8)), Refusal::Headers)?;
    let (Some(one), Some(other)) = (calls(first), calls(second)) else {
        return Err(Refusal::Alone);
    };
    let mut both = events(first, one);
    both.extend(events(second, other));
    // "At equal moments the first score's records come first": the sort keeps their order.
    both.sort_by_key(|event| event.moment);
    let bytes = merged(first, &both);
    require(bytes.len() <= lent.len() && calls(&bytes).is_some(), Refusal::Merge)?;
    lent[..bytes.len()].copy_from_slice(&bytes);
    Ok(bytes.len())
}
