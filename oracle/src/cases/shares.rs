//! The lists of calls of a console text: of the kept voice, of its runs, and of each string (document 02, L11).

use crate::call::Call;
use crate::command::{commands, Command};
use crate::score::run;
use crate::stored::{load, stored};
use crate::voice::Voice;

/// What Open returned, and calls on it.
type List = (Voice, Vec<Call>);

/// The voice that a list leaves, stored.
fn stored_by((opened, calls): &List) -> Vec<u8> {
    let mut voice = opened.clone();
    for call in calls {
        call.make(&mut voice);
    }
    stored(&voice)
}

/// The lists so far: of the kept voice and of each string the one that goes on, or none; those that ended; and those
/// whose voice was stored, with its bytes.
struct Shares {
    open: Vec<Option<List>>,
    ended: Vec<List>,
    kept: Vec<(Vec<u8>, List)>,
}

impl Shares {
    /// The list that goes on where these bytes are loaded: the one whose voice was stored so, "history from the original
    /// opening"; "Open's refusal voice", where they are refused; else none "until the next Open".
    fn resumed(&self, bytes: &[u8]) -> Option<List> {
        let mut now = self.open.iter().flatten();
        if let Some(list) = now.find(|list| stored_by(list) == bytes) {
            return Some(list.clone());
        }
        let (voice, answer) = load(bytes);
        let mut kept = self.kept.iter();
        let before = kept.find(|(form, _)| form == bytes).map(|(_, list)| list.clone());
        before.or(answer.is_err().then_some((voice, Vec::new())))
    }

    /// Another list in place of the one that goes on.
    fn begin(&mut self, owner: usize, next: Option<List>) {
        self.ended.extend(std::mem::replace(&mut self.open[owner], next));
    }

    /// A call more.
    fn call(&mut self, owner: usize, call: Call) {
        if let Some(list) = &mut self.open[owner] {
            list.1.push(call);
        }
    }

    /// A command on the kept voice, 0, or on a string, from 1 on.
    fn on(&mut self, owner: usize, command: Command) {
        match command {
            Command::Open { order, length, delay, loss, advance } => {
                let (voice, _) = Voice::open(order, length, delay, loss, advance);
                self.begin(owner, Some((voice, Vec::new())));
            }
            Command::Call(call) => self.call(owner, call),
            Command::Store { .. } => {
                let list = self.open[owner].clone();
                self.kept.extend(list.map(|list| (stored_by(&list), list)));
            }
            Command::Load { bytes } => {
                let next = self.resumed(&bytes);
                self.begin(owner, next);
            }
            _ => {}
        }
    }
}

/// The lists of calls with what Open returned: "Opening anew begins another list. A score run opens a voice of its own".
/// A load goes on with the list whose voice was stored. A mix is a block of each string.
pub fn lists_of(text: &[u8]) -> Vec<List> {
    let (refused, _) = Voice::open(0, 0, 0, 0, 0);
    let open = vec![Some((refused, Vec::new())); 7];
    let mut shares = Shares { open, ended: Vec::new(), kept: Vec::new() };
    for command in commands(text).into_iter().filter_map(|(_, command)| command) {
        match command {
            Command::String { string: string @ 0..=5, command } => {
                shares.on(string as usize + 1, *command);
            }
            Command::Mix { input, places } => {
                (1..7).for_each(|owner| {
                    shares.call(owner, Call::Block { input: input.clone(), places })
                });
            }
            Command::Run { places, bytes } => {
                let run = run(&bytes, &mut vec![0; places]);
                shares.ended.extend(run.opened.map(|opened| (opened, run.list)));
            }
            command => shares.on(0, command),
        }
    }
    shares.ended.extend(shares.open.into_iter().flatten());
    shares.ended
}
