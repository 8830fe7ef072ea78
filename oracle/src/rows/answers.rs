//! What this implementation answers to a list of the rows.

use super::lists::List;
use crate::call::Call;
use crate::command::{commands, Command};
use crate::refusal::number;
use crate::voice::{s_at, Voice};

/// The numbers of an opening: N, L, d, G, Na.
pub type Opening = [u32; 5];

/// An opening and calls with all that they give: the number that Open returns, the number and the
/// count of each call, the samples that accepted blocks put out, the voice that is left.
pub struct Answers {
    pub opening: Opening,
    pub calls: Vec<Call>,
    pub opened: u32,
    pub numbers: Vec<u32>,
    pub counts: Vec<u32>,
    pub outputs: Vec<i128>,
    pub voice: Voice,
}

/// The commands that these words of the console are.
fn commands_of(words: &str) -> Vec<Command> {
    let found = commands(words.replace(';', "\n").as_bytes());
    let command = |(_, command): (usize, Option<Command>)| command.expect("a command");
    found.into_iter().map(command).collect()
}

/// The opening with these words.
pub fn opening(words: &str) -> Opening {
    match commands_of(&format!("open {words}"))[..] {
        [Command::Open { order, length, delay, loss, advance }] => {
            [order, length, delay, loss, advance]
        }
        _ => panic!("no opening: {words}"),
    }
}

/// The calls with these words.
fn calls(words: &str) -> Vec<Call> {
    let call = |command| match command {
        Command::Call(call) => call,
        _ => panic!("no list of calls: {words}"),
    };
    commands_of(words).into_iter().map(call).collect()
}

/// Open: what it returns.
pub fn open([order, length, delay, loss, advance]: Opening) -> (Voice, u32) {
    let (voice, answer) = Voice::open(order, length, delay, loss, advance);
    (voice, number(&answer))
}

impl Answers {
    /// Opens a voice and makes the calls on it.
    pub fn to(list: &List) -> Answers {
        let (opening, calls) = (opening(list.open), calls(list.calls));
        let (mut voice, opened) = open(opening);
        let (mut numbers, mut counts, mut outputs) = (Vec::new(), Vec::new(), Vec::new());
        for call in &calls {
            let made = call.make(&mut voice);
            numbers.push(number(&made.answer));
            counts.push(made.count);
            if made.answer.is_ok() {
                outputs.extend(made.output.into_iter().map(i128::from));
            }
        }
        Answers { opening, calls, opened, numbers, counts, outputs, voice }
    }

    /// The newest samples of the line, newest first: all since opening, and a zero from before it.
    pub fn line(&self) -> Vec<i128> {
        let n = self.voice.s.len() as i128;
        (1..=n + 1).map(|k| s_at(&self.voice.s, n - k)).collect()
    }
}
