//! Document 02's L7, "Decay to silence", measured: random voices that get nothing more, run until nothing in
//! them sounds, until what is in them comes back, or until a number of samples is reached.

mod report;
mod run;

pub use report::{random, Report};
pub use run::{end, end_rounded, outputs, End, Filled};

/// A voice runs at most this many samples.
pub const LIMIT: u64 = 1 << 24;
