//! A plucked string with a tunable allpass loop, proved: the routines of jivaszte.h as safe functions.
//!
//! What the library refuses comes back as a [`Refusal`], which has the number and the words. A [`Voice`] is
//! the caller's own memory; the library keeps nothing, and no call allocates but [`wav_file`],
//! [`Call::list`], [`Voice::to_bytes`] and [`Instrument::to_bytes`].
//!
//! ```
//! use jivaszte::{note, Refusal};
//! assert_eq!(note(1, 44_100, 69), Ok((99, 2_979)));
//! assert_eq!(note(1, 44_100, 128), Err(Refusal::Note));
//! assert_eq!(Refusal::Note.to_string(), "the note is above 127");
//! ```

mod c;
mod filter;
mod instrument;
mod junction;
mod list;
mod refusal;
mod score;
mod stored;
mod voice;
mod wav;

pub use filter::{coefficients, draw, effective_length, least_advance, note, split, ORDERS};
pub use instrument::{Frame, Instrument, STRINGS};
pub use junction::Junction;
pub use list::{perform, Call, Opening, Performed};
pub use refusal::Refusal;
pub use score::{gather, merge, record, run, Played, Record, Stopped};
pub use stored::{panel, Panel, STORED_MOST};
pub use voice::Voice;
pub use wav::{wav_file, wav_read, wav_size, wav_write, MOST_SAMPLES};

/// The version of this crate; header and program have the same.
pub const VERSION: &str = env!("CARGO_PKG_VERSION");

/// The version of the library that is linked: 10,000 times its first number, 100 times its second, and
/// its third.
pub fn version() -> u32 {
    // SAFETY: it takes nothing.
    unsafe { c::jivaszte_version() }
}
