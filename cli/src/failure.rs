//! What ends a command early: a message for standard error and the exit status.

use crate::say::plain;
use std::path::Path;

/// Bad input, or a file that cannot be read or written.
const BAD_INPUT: u8 = 1;
/// A wrong call of the program.
const WRONG_CALL: u8 = 2;

#[derive(Debug, PartialEq, Eq)]
pub struct Failure {
    pub message: String,
    pub status: u8,
}

pub type Outcome<T = ()> = Result<T, Failure>;

impl Failure {
    pub fn input(message: impl Into<String>) -> Self {
        Failure { message: message.into(), status: BAD_INPUT }
    }

    pub fn call(message: impl Into<String>) -> Self {
        Failure { message: message.into(), status: WRONG_CALL }
    }

    /// A file, or a stream, with which something could not be done.
    pub fn file(what: &str, path: &Path, error: &std::io::Error) -> Self {
        let words = error.to_string();
        let reason = words.split(" (os error").next().unwrap_or_default();
        Failure::input(format!("cannot {what} {}: {reason}", plain(&path.to_string_lossy())))
    }
}
