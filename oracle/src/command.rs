//! The lines that the console reads.

use crate::call::Call;
use crate::spelling::{
    bytes, numbers, places, sample, samples, tuning, unsigned, words, BLOCK_LIMIT,
};

/// "a run up to 16,384 samples of output".
pub const RUN_LIMIT: u32 = 16_384;

/// `line K`: "K up to 2112".
pub const LINE_LIMIT: u32 = 2_112;

/// `wavwrite RATE ROOM X1 X2 ..`: "ROOM up to 16,384 bytes".
pub const FILE_LIMIT: u32 = 16_384;

/// `wavread ROOM B1 B2 ..`: "and 4,096 samples".
pub const READ_LIMIT: u32 = 4_096;

/// `store ROOM`: "at most 16,384, else error".
pub const STORE_LIMIT: u32 = 16_384;

/// `merge ROOM B1 .. / C1 ..`: "ROOM at most 32,768".
pub const MERGE_LIMIT: u32 = 32_768;

/// "bytes of a line, without its line feed".
pub const LINE_BYTES: usize = 1_048_576;

/// One line of the console's input, understood.
#[derive(Clone, Debug)]
pub enum Command {
    Open { order: u32, length: u32, delay: u32, loss: u32, advance: u32 },
    Call(Call),
    Coefficients { order: u32, delay: u32 },
    Length { order: u32, delay: u32, threshold: u32 },
    Note { order: u32, rate: u32, note: u32 },
    Draw { state: u32 },
    Record { bytes: Vec<u8> },
    Run { places: usize, bytes: Vec<u8> },
    State,
    Line { count: usize },
    WavWrite { rate: u32, places: usize, samples: Vec<i32> },
    WavRead { places: usize, bytes: Vec<u8> },
    Gather { start: u32, bytes: Vec<u8> },
    Least { order: u32, delay: u32, wanted: u32 },
    Junction { left: u32, right: u32, delay: u32, advance: u32 },
    Move { delay: u32 },
    Tube { a: i32, b: i32 },
    Store { places: usize },
    Load { bytes: Vec<u8> },
    Panel { bytes: Vec<u8> },
    Merge { places: usize, first: Vec<u8>, second: Vec<u8> },
    String { string: u32, command: Box<Command> },
    Mix { input: Vec<i32>, places: usize },
    Help,
}

/// `block OUT X1 X2 ..` and `mix OUT X1 X2 ..`
fn block(words: &[&[u8]]) -> Option<(Vec<i32>, usize)> {
    let (first, rest) = words.split_first()?;
    let (places, input) = (places(first, BLOCK_LIMIT)?, samples(rest)?);
    Some((input, places))
}

/// `string K CALL ..`: a call of a voice but block, "`string K state`, `string K line N`, where K above 5 is an error".
fn string(words: &[&[u8]]) -> Option<Command> {
    let [string, name, rest @ ..] = words else { return None };
    let (string, command) = (unsigned(string)?, command(name, rest)?);
    let good = match &command {
        Command::Call(Call::Block { .. }) => false,
        Command::Open { .. } | Command::Call(_) | Command::Store { .. } | Command::Load { .. } => {
            true
        }
        Command::State | Command::Line { .. } => string <= 5,
        _ => false,
    };
    good.then_some(Command::String { string, command: Box::new(command) })
}

/// `wavwrite RATE ROOM X1 X2 ..`
fn wav_write(words: &[&[u8]]) -> Option<Command> {
    let [rate, room, rest @ ..] = words else { return None };
    let (rate, places) = (unsigned(rate)?, places(room, FILE_LIMIT)?);
    Some(Command::WavWrite { rate, places, samples: samples(rest)? })
}

/// `wavread ROOM B1 B2 ..`
fn wav_read(words: &[&[u8]]) -> Option<Command> {
    let (first, rest) = words.split_first()?;
    Some(Command::WavRead { places: places(first, READ_LIMIT)?, bytes: bytes(rest)? })
}

/// `run OUT B1 B2 ..`
fn run(words: &[&[u8]]) -> Option<Command> {
    let (first, rest) = words.split_first()?;
    Some(Command::Run { places: places(first, RUN_LIMIT)?, bytes: bytes(rest)? })
}

/// `gather START B1 B2 ..`
fn gather(words: &[&[u8]]) -> Option<Command> {
    let (first, rest) = words.split_first()?;
    Some(Command::Gather { start: unsigned(first)?, bytes: bytes(rest)? })
}

/// `tube A B`
fn tube(words: &[&[u8]]) -> Option<Command> {
    match words {
        [a, b] => Some(Command::Tube { a: sample(a)?, b: sample(b)? }),
        _ => None,
    }
}

/// `merge ROOM B1 .. / C1 ..`: "either list may be empty; exactly one `/`, else error".
fn merge(words: &[&[u8]]) -> Option<Command> {
    let (room, rest) = words.split_first()?;
    let mut lists = rest.split(|word| word == b"/");
    let (first, second) = (bytes(lists.next()?)?, bytes(lists.next()?)?);
    let places = places(room, MERGE_LIMIT)?;
    lists.next().is_none().then_some(Command::Merge { places, first, second })
}

/// A line that has words. `None` is "A line that is none of these", answered by `error`.
fn command(name: &[u8], rest: &[&[u8]]) -> Option<Command> {
    match name {
        b"open" => numbers(rest).map(|[order, length, delay, loss, advance]| Command::Open {
            order,
            length,
            delay,
            loss,
            advance,
        }),
        b"loss" => numbers(rest).map(|[loss]| Command::Call(Call::Loss { loss })),
        b"pluck" => numbers(rest)
            .map(|[amplitude, count, seed]| Command::Call(Call::Pluck { amplitude, count, seed })),
        b"announce" => tuning(rest).map(|to| Command::Call(Call::Announced { to })),
        b"instant" => tuning(rest).map(|to| Command::Call(Call::Instant { to })),
        b"ask" => tuning(rest).map(|to| Command::Call(Call::Asked { to })),
        b"commit" => rest.is_empty().then_some(Command::Call(Call::Commit)),
        b"withdraw" => rest.is_empty().then_some(Command::Call(Call::Withdraw)),
        b"block" => block(rest).map(|(input, places)| Command::Call(Call::Block { input, places })),
        b"mix" => block(rest).map(|(input, places)| Command::Mix { input, places }),
        b"string" => string(rest),
        b"coefficients" => {
            numbers(rest).map(|[order, delay]| Command::Coefficients { order, delay })
        }
        b"length" => numbers(rest).map(|[order, delay, threshold]| Command::Length {
            order,
            delay,
            threshold,
        }),
        b"least" => {
            numbers(rest).map(|[order, delay, wanted]| Command::Least { order, delay, wanted })
        }
        b"note" => numbers(rest).map(|[order, rate, note]| Command::Note { order, rate, note }),
        b"draw" => numbers(rest).map(|[state]| Command::Draw { state }),
        b"record" => Some(Command::Record { bytes: bytes(rest)? }),
        b"gather" => gather(rest),
        b"run" => run(rest),
        b"wavwrite" => wav_write(rest),
        b"wavread" => wav_read(rest),
        b"junction" => numbers(rest).map(|[left, right, delay, advance]| Command::Junction {
            left,
            right,
            delay,
            advance,
        }),
        b"move" => numbers(rest).map(|[delay]| Command::Move { delay }),
        b"tube" => tube(rest),
        b"store" => match rest {
            [room] => places(room, STORE_LIMIT).map(|places| Command::Store { places }),
            _ => None,
        },
        b"load" => Some(Command::Load { bytes: bytes(rest)? }),
        b"panel" => Some(Command::Panel { bytes: bytes(rest)? }),
        b"merge" => merge(rest),
        b"help" => rest.is_empty().then_some(Command::Help),
        b"state" => rest.is_empty().then_some(Command::State),
        b"line" => match rest {
            [count] => places(count, LINE_LIMIT).map(|count| Command::Line { count }),
            _ => None,
        },
        _ => None,
    }
}

/// The lines of a text, `None` for one that is too long. "A carriage return before the line feed is dropped": what
/// follows the last line feed has none behind it, and keeps its own.
pub fn lines(text: &[u8]) -> Vec<Option<&[u8]>> {
    let mut lines: Vec<&[u8]> = text.split(|byte| *byte == b'\n').collect();
    let last = lines.pop();
    let ended = lines.into_iter().map(|line| (line, line.strip_suffix(b"\r").unwrap_or(line)));
    let all = ended.chain(last.map(|line| (line, line)));
    all.map(|(line, bare)| (line.len() <= LINE_BYTES).then_some(bare)).collect()
}

/// The commands of a text with their line numbers from 1. "empty lines are passed over"; a line
/// that is no command has `None`.
pub fn commands(text: &[u8]) -> Vec<(usize, Option<Command>)> {
    let mut found = Vec::new();
    for (index, line) in lines(text).into_iter().enumerate() {
        match line.map(words) {
            None => found.push((index + 1, None)),
            Some(words) => {
                found.extend(
                    words.split_first().map(|(name, rest)| (index + 1, command(name, rest))),
                );
            }
        }
    }
    found
}
