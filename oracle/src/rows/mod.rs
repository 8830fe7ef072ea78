//! Rows: what this implementation gives for fixed inputs. Some, both sides of each limit and one for each notion, are
//! modules of antt, to hold definitions to them by computation; all are a text, to hold the console to.

pub mod answers;
pub mod files;
pub mod gathers;
pub mod head;
pub mod junctions;
pub mod lists;
pub mod merges;
pub mod notes;
pub mod orders;
pub mod records;
pub mod scores;
pub mod stored;
pub mod strings;
pub mod table;
pub mod term;
pub mod vectors;
pub mod voices;

/// A module: its name, and what prints it.
pub type Module = (&'static str, fn() -> String);

pub const MODULES: &[Module] = &[
    ("Rows", voices::module),
    ("RecordRows", records::module),
    ("NoteRows", notes::module),
    ("ScoreRows", scores::module),
    ("FileRows", files::module),
    ("GatherRows", gathers::module),
];

/// The names of the modules, a line for each.
pub fn names() -> String {
    MODULES.iter().map(|(name, _)| format!("{name}\n")).collect()
}

/// The module of this name.
pub fn module(name: &str) -> Option<String> {
    MODULES.iter().find(|(other, _)| *other == name).map(|(_, print)| print())
}
