//! The bar of progress: drawn where standard error is a terminal, cleared at the end, and nowhere else.

mod common;

use common::Folder;
use std::ffi::{c_char, c_int, CStr};
use std::fs::{self, File, OpenOptions};
use std::io::Read;
use std::os::fd::FromRawFd;
use std::process::{Command, Stdio};

extern "C" {
    fn posix_openpt(flags: c_int) -> c_int;
    fn grantpt(terminal: c_int) -> c_int;
    fn unlockpt(terminal: c_int) -> c_int;
    fn ptsname(terminal: c_int) -> *const c_char;
}

/// Reading and writing, and no terminal that the test obeys: the flags O_RDWR and O_NOCTTY of Linux.
const FLAGS: c_int = 0o2 | 0o400;

/// Both ends of a terminal.
fn terminal() -> (File, File) {
    // SAFETY: the calls are made on a terminal that was opened, and the name is copied at once.
    let (near, name) = unsafe {
        let near = posix_openpt(FLAGS);
        assert!(near >= 0 && grantpt(near) == 0 && unlockpt(near) == 0);
        let name = CStr::from_ptr(ptsname(near)).to_str().unwrap().to_string();
        (File::from_raw_fd(near), name)
    };
    (near, OpenOptions::new().read(true).write(true).open(name).unwrap())
}

/// What a call says on a terminal, and what it says on a pipe.
fn said(words: &[&str]) -> [String; 2] {
    let folder = Folder::new(words[0]);
    let tune = "rate 8000\nadvance 0\ntune A3\npluck 90\nwait 25s\nslide A4 over 3s steps 300\n";
    fs::write(folder.join("tune.txt"), tune).unwrap();
    let call = |error: Stdio| {
        let mut call = Command::new(env!("CARGO_BIN_EXE_jivaszte"));
        call.args(words).current_dir(&*folder).stderr(error);
        call
    };
    let (mut near, far) = terminal();
    let mut child = call(Stdio::from(far)).spawn().unwrap();
    let mut bytes = Vec::new();
    // Where the last writer of a terminal has gone, reading it fails.
    let _ = near.read_to_end(&mut bytes);
    assert!(child.wait().unwrap().success());
    let piped = call(Stdio::piped()).output().unwrap();
    [bytes, piped.stderr].map(|bytes| String::from_utf8(bytes).unwrap())
}

#[test]
fn a_bar_on_a_terminal_and_none_elsewhere() {
    for words in [
        &["play", "tune.txt", "-o", "take.wav"][..],
        &["plot", "tune.txt", "--click", "-o", "take.svg"],
    ] {
        let [shown, piped] = said(words);
        assert!(shown.contains("] 100 %"), "{words:?}: {shown}");
        assert!(!piped.contains(['[', '\r', '\u{1b}']), "{words:?}: {piped}");
        let (_, after) = shown.rsplit_once("\r\u{1b}[K").expect("the bar is cleared");
        assert_eq!(after.replace("\r\n", "\n"), piped, "{words:?}");
    }
}
