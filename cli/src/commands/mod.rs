//! The commands of the program.

mod advance;
mod advance_json;
mod check;
mod compile;
mod merge;
mod note;
mod page;
mod play;
mod plot;
mod show;

use crate::arguments::Arguments;
use crate::failure::{Failure, Outcome};
use crate::files::print;
use crate::say::quoted;
use std::ffi::OsString;

/// A command: its name, the letters of its options, its help, and what it does.
type Command = (&'static str, &'static str, &'static str, fn(&Arguments) -> Outcome);

pub const COMMANDS: [Command; 9] = [
    ("play", "oraRt", include_str!("help/play.txt"), play::run),
    ("plot", "orac", include_str!("help/plot.txt"), plot::run),
    ("page", "o", include_str!("help/page.txt"), page::run),
    ("compile", "or", include_str!("help/compile.txt"), compile::run),
    ("merge", "ora", include_str!("help/merge.txt"), merge::run),
    ("show", "r", include_str!("help/show.txt"), show::run),
    ("check", "rj", include_str!("help/check.txt"), check::run),
    ("note", "rnj", include_str!("help/note.txt"), note::run),
    ("advance", "ndrTj", include_str!("help/advance.txt"), advance::run),
];

const HELP: &str = include_str!("help/all.txt");

/// Runs the command that the words of a call name.
pub fn run(words: &[OsString]) -> Outcome {
    let (name, given) = words.split_first().ok_or_else(|| Failure::call(HELP.trim_end()))?;
    let name = name.to_string_lossy();
    match (name.as_ref(), given) {
        ("help" | "--help" | "-h", []) => return print(HELP),
        ("help" | "--help" | "-h", [of]) => return print(command(&of.to_string_lossy())?.2),
        ("help" | "--help" | "-h", _) => return Err(Failure::call("help takes one command")),
        ("--version" | "-V", []) => {
            return print(&format!("jivaszte {}\n", env!("CARGO_PKG_VERSION")))
        }
        ("--version" | "-V", [more, ..]) => {
            let more = quoted(&more.to_string_lossy());
            return Err(Failure::call(format!("{name} stands alone, without `{more}`")));
        }
        _ => {}
    }
    let (name, letters, help, run) = command(&name)?;
    let arguments = Arguments::read(name, given, letters)?;
    match arguments.help {
        true => print(help),
        false => run(&arguments),
    }
}

fn command(name: &str) -> Outcome<&'static Command> {
    let found = COMMANDS.iter().find(|(command, ..)| *command == name);
    found.ok_or_else(|| {
        let name = quoted(name);
        Failure::call(format!("`{name}` is no command of jivaszte: `jivaszte help` lists them"))
    })
}
