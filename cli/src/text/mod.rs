//! Scores as text: one line for each record of the score, in words. docs/SCORES.md has the grammar.

mod advance;
mod band;
mod compile;
mod compiler;
mod event;
mod header;
mod line;
mod repeat;
mod seeds;
mod show;
mod slide;
mod tunings;
mod values;
mod vibrato;

pub use advance::{changed_to, needed, Advance};
pub use band::STRINGS;
pub use compile::{compile, compile_strings, compile_with, Compiled};
pub use line::{Fault, Spot};
pub use seeds::chosen;
pub use show::show;
pub use slide::QUIET;
pub use tunings::{asked, FORMS};
pub use values::Instead;
