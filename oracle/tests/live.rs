//! Live equals announced (document 02, L9), on random lists of calls.

use oracle::call::Call;
use oracle::cases::{shares::lists_of, texts::text};
use oracle::refusal::number;
use oracle::tuning::Tuning;
use oracle::voice::Voice;

/// A list of calls around a change: those before it is announced, those between, which put out so many
/// samples, and those after.
struct Around {
    to: Tuning,
    before: Vec<Call>,
    between: Vec<Call>,
    after: Vec<Call>,
}

/// A change or an ask.
fn changes(call: &Call) -> bool {
    matches!(call, Call::Announced { .. } | Call::Instant { .. } | Call::Asked { .. })
}

/// A block of these samples.
fn block(input: &[i32]) -> Call {
    Call::Block { input: input.to_vec(), places: input.len() }
}

/// The samples that a call puts out where it is accepted, which is no matter of the voice.
fn put_out(call: &Call) -> &[i32] {
    match call {
        Call::Block { input, .. }
            if call.make(&mut Voice::open(0, 0, 0, 0, 0).0).answer.is_ok() =>
        {
            input
        }
        _ => &[],
    }
}

/// The calls of a list up to `samples` samples, without changes and asks, and on to the next sample or change;
/// and the rest. A block that is longer is made two, and zeros follow a list that is shorter.
fn cut(list: &[Call], samples: usize) -> (Vec<Call>, Vec<Call>) {
    let (mut between, mut left) = (Vec::new(), samples);
    for (at, call) in list.iter().enumerate() {
        let put = put_out(call);
        if left < put.len() {
            if left > 0 {
                between.push(block(&put[..left]));
            }
            let rest = [block(&put[left..])];
            return (between, rest.iter().chain(&list[at + 1..]).cloned().collect());
        }
        if !changes(call) {
            between.push(call.clone());
        } else if left == 0 {
            return (between, list[at..].to_vec());
        }
        left -= put.len();
    }
    between.extend((left > 0).then(|| block(&vec![0; left])));
    (between, Vec::new())
}

/// The lists around each announced change that is accepted, `short` samples before it takes effect.
fn around(opened: &Voice, list: &[Call], short: usize) -> Vec<Around> {
    let mut voice = opened.clone();
    let mut found = Vec::new();
    for (at, call) in list.iter().enumerate() {
        let accepted = call.make(&mut voice).answer.is_ok();
        let samples = (voice.advance as usize).checked_sub(short);
        if let (Call::Announced { to }, true, Some(samples)) = (call, accepted, samples) {
            let (between, after) = cut(&list[at + 1..], samples);
            found.push(Around { to: *to, before: list[..at].to_vec(), between, after });
        }
    }
    found
}

/// What each call gives: its number, its count and its samples; and the voice that is left, as text.
fn given(opened: &Voice, list: &[&[Call]]) -> (Vec<(u32, u32, Vec<i32>)>, String) {
    let mut voice = opened.clone();
    let made = list.iter().copied().flatten().map(|call| call.make(&mut voice));
    let given = made.map(|made| (number(&made.answer), made.count, made.output)).collect();
    (given, format!("{voice:?}"))
}

impl Around {
    /// Whether the change announced before the calls between and made instantly after them gives the same,
    /// with the first `calls` of the calls after.
    fn is_equal(&self, opened: &Voice, calls: usize) -> bool {
        let Around { to, before, between, after } = self;
        let (announced, instant) = ([Call::Announced { to: *to }], [Call::Instant { to: *to }]);
        let after = &after[..calls];
        let (mut early, left) = given(opened, &[before, &announced, between, after]);
        let (mut live, same) = given(opened, &[before, between, &instant, after]);
        let announced = early.remove(before.len());
        let instant = live.remove(before.len() + between.len());
        let changed = announced.0 == 0 && (instant.0, instant.1) == (0, opened.advance);
        changed && early == live && left == same
    }
}

/// "all their outputs agree, and the voices are equal from that moment on": at the moment, and after each call
/// from there on, whatever stands between.
#[test]
fn live_equals_announced() {
    let (mut lists, mut orders, mut at_once, mut plucked, mut refused) = (0, 0, 0, 0, 0);
    for index in 0..2_600 {
        for (opened, list) in lists_of(&text(12, index)) {
            for around in around(&opened, &list, 0) {
                for calls in [0, around.after.len().min(1), around.after.len()] {
                    assert!(around.is_equal(&opened, calls), "text {index}, {calls} calls after");
                }
                let between = |is: fn(&Call) -> bool| u32::from(around.between.iter().any(is));
                lists += 1;
                orders += u32::from(around.to.order != opened.tuning.order);
                at_once += u32::from(opened.advance == 0);
                plucked += between(|call| matches!(call, Call::Pluck { .. }));
                refused += between(|call| matches!(call, Call::Commit | Call::Withdraw));
            }
        }
    }
    let reached = [lists, orders, at_once, plucked, refused];
    assert!(reached.iter().all(|count| *count > 1_000), "{reached:?}");
}

/// "announce a change Na samples before": a sample less is not enough, but for lines of zeros alone.
#[test]
fn a_sample_less_is_not_enough() {
    let mut differ = 0;
    for index in 0..1_300 {
        for (opened, list) in lists_of(&text(13, index)) {
            let around = around(&opened, &list, 1);
            let equal = around.iter().filter(|around| around.is_equal(&opened, around.after.len()));
            differ += around.len() - equal.count();
        }
    }
    assert!(differ > 1_000, "{differ}");
}
