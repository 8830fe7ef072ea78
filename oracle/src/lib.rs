//! A reference implementation of document 01, "Plucked-string voice with a tunable allpass loop".
//!
//! It follows the paper literally: the whole history since opening is kept, numbers are exact, and
//! the filter is written for order N. Every function names the sentence of the paper it carries.

pub mod advance;
pub mod allpass;
pub mod answers;
pub mod call;
pub mod cases;
pub mod change;
pub mod click;
pub mod command;
pub mod compare;
pub mod console;
pub mod expected;
pub mod figures;
pub mod float;
pub mod gather;
pub mod host;
pub mod instrument;
pub mod junction;
pub mod merge;
pub mod natural;
pub mod noise;
pub mod note;
pub mod number;
pub mod player;
pub mod pluck;
pub mod record;
pub mod refusal;
pub mod rows;
pub mod score;
pub mod silence;
pub mod spelling;
pub mod stored;
pub mod thiran;
pub mod tuning;
pub mod voice;
pub mod wav;
