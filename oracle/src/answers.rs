//! The console's answers about one voice: the kept one, or a string.

use crate::call::Call;
use crate::command::Command;
use crate::refusal::{number, Answer, Refusal};
use crate::stored;
use crate::tuning::Tuning;
use crate::voice::{s_at, Voice};
use std::fmt::Display;

/// A name and numbers, separated by single spaces.
pub fn join<T: Display>(name: &str, values: impl IntoIterator<Item = T>) -> String {
    let mut text = name.to_string();
    for value in values {
        text.push(' ');
        text.push_str(&value.to_string());
    }
    text
}

/// The first three entries of a filter state, 0 where the order has fewer.
fn three(state: &[i128]) -> [i128; 3] {
    [0, 1, 2].map(|index| state.get(index).copied().unwrap_or(0))
}

/// `NAME R COUNT B1 B2 ..`, the lent bytes afterwards, 4d before the call.
pub fn answer_lent(
    name: &str,
    places: usize,
    call: impl FnOnce(&mut [u8]) -> (Answer, usize),
) -> String {
    let mut lent = vec![0x4d; places];
    let (answer, count) = call(&mut lent);
    let bytes = lent.iter().map(|byte| format!("{byte:02x}"));
    join(&format!("{name} {} {count}", number(&answer)), bytes)
}

/// `state N L D G NA LAST V1 V2 V3 KIND N' L' D' TAKEN E1 E2 E3 AMPLITUDE LEFT NOISE`: KIND says
/// how a change waits, TAKEN is counted up to Na.
fn answer_state(voice: &Voice) -> String {
    let numbers = |tuning: Tuning| [tuning.order, tuning.length, tuning.delay].map(i128::from);
    let mut values = numbers(voice.tuning).to_vec();
    values.extend([voice.loss, voice.advance].map(i128::from));
    values.push(voice.last_output());
    values.extend(three(voice.filter.state()));
    match &voice.waiting {
        Some(change) => {
            values.push(change.kind as i128);
            values.extend(numbers(change.tuning));
            values.push(i128::from(change.counted(voice.advance)));
            values.extend(three(change.eliminator.state()));
        }
        None => values.extend([0; 8]),
    }
    match voice.pluck.left {
        0 => values.extend([0; 3]),
        left => values.extend([voice.pluck.amplitude, left, voice.pluck.noise].map(i128::from)),
    }
    join("state", values)
}

/// `line s(n-1) .. s(n-K)`
fn answer_line(voice: &Voice, count: usize) -> String {
    let n = voice.s.len() as i128;
    join("line", (1..=count as i128).map(|k| s_at(&voice.s, n - k)))
}

/// The answer to a call on a voice.
fn answer_call(voice: &mut Voice, call: &Call) -> String {
    let made = call.make(voice);
    let answer = number(&made.answer);
    let start = format!("{} {answer}", call_name(call));
    match call {
        Call::Instant { .. } => format!("{start} {}", made.count),
        Call::Block { .. } => join(&start, made.output),
        _ => start,
    }
}

/// The name of a call on a voice.
fn call_name(call: &Call) -> &'static str {
    match call {
        Call::Loss { .. } => "loss",
        Call::Pluck { .. } => "pluck",
        Call::Announced { .. } => "announce",
        Call::Instant { .. } => "instant",
        Call::Asked { .. } => "ask",
        Call::Commit => "commit",
        Call::Withdraw => "withdraw",
        Call::Block { .. } => "block",
    }
}

/// The answer to a command on a voice.
pub fn answer_on(voice: &mut Voice, command: &Command) -> String {
    match command {
        Command::Open { order, length, delay, loss, advance } => {
            let (opened, answer) = Voice::open(*order, *length, *delay, *loss, *advance);
            *voice = opened;
            format!("open {}", number(&answer))
        }
        Command::Call(call) => answer_call(voice, call),
        Command::Store { places } => {
            answer_lent("store", *places, |lent| stored::store(voice, lent))
        }
        Command::Load { bytes } => {
            let (loaded, answer) = stored::load(bytes);
            *voice = loaded;
            format!("load {}", number(&answer))
        }
        Command::State => answer_state(voice),
        Command::Line { count } => answer_line(voice, *count),
        _ => panic!("no command on a voice: {command:?}"),
    }
}

/// The answer to a command on a string that there is not: "24 ... nothing changed, counts and lengths 0".
pub fn answer_no_string(command: &Command) -> String {
    let refused = || (Err(Refusal::String), 0);
    let refusal = Refusal::String as u32;
    match command {
        Command::Open { .. } => format!("open {refusal}"),
        Command::Call(call @ Call::Instant { .. }) => format!("{} {refusal} 0", call_name(call)),
        Command::Call(call) => format!("{} {refusal}", call_name(call)),
        Command::Store { places } => answer_lent("store", *places, |_| refused()),
        Command::Load { .. } => format!("load {refusal}"),
        _ => panic!("no command on a string that there is not: {command:?}"),
    }
}
