//! The program: a command, its files and options.

use jivaszte_cli::say::say;
use jivaszte_cli::{commands, signals};
use std::ffi::OsString;
use std::process::ExitCode;

fn main() -> ExitCode {
    signals::prepare();
    let words: Vec<OsString> = std::env::args_os().skip(1).collect();
    match commands::run(&words) {
        Ok(()) => ExitCode::SUCCESS,
        Err(failure) => {
            if !failure.message.is_empty() {
                say(&failure.message);
            }
            ExitCode::from(failure.status)
        }
    }
}
