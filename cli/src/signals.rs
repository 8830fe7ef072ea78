//! Signals: a file that is not whole goes when the program is stopped, and a size limit is an error of a write.
//! The standard library has no signals, so that three functions of C are declared here.

use std::ffi::{c_char, c_int, CString};
use std::os::unix::ffi::OsStrExt;
use std::path::Path;
use std::ptr::null_mut;
use std::sync::atomic::{AtomicPtr, Ordering};

extern "C" {
    fn signal(number: c_int, handler: usize) -> usize;
    fn raise(number: c_int) -> c_int;
    fn unlink(path: *const c_char) -> c_int;
}

const HANGUP: c_int = 1;
const INTERRUPT: c_int = 2;
const TERMINATE: c_int = 15;
/// A file grows past the limit of `ulimit -f`: 25 on Linux and the BSDs, but on MIPS and PA-RISC.
const FILE_SIZE: c_int = 25;
const DEFAULT: usize = 0;
const IGNORE: usize = 1;

/// The file that goes when the program is stopped, or null.
static UNFINISHED: AtomicPtr<c_char> = AtomicPtr::new(null_mut());

/// Removes the unfinished file and lets the signal end the program. All that it calls may be called in a
/// handler.
extern "C" fn stop(number: c_int) {
    let path = UNFINISHED.swap(null_mut(), Ordering::SeqCst);
    // SAFETY: the pointer is null or a string of C that is never freed; the numbers are signals.
    unsafe {
        if !path.is_null() {
            unlink(path);
        }
        signal(number, DEFAULT);
        raise(number);
    }
}

/// Sets the handlers; a signal that is ignored, as under nohup, stays so.
pub fn prepare() {
    // SAFETY: the numbers are signals, and `stop` is a handler.
    unsafe {
        signal(FILE_SIZE, IGNORE);
        for number in [HANGUP, INTERRUPT, TERMINATE] {
            if signal(number, stop as *const () as usize) == IGNORE {
                signal(number, IGNORE);
            }
        }
    }
}

/// Names the file that goes when the program is stopped. Its few bytes are not freed, as a handler may
/// run at any moment.
pub fn unfinished(path: &Path) {
    if let Ok(path) = CString::new(path.as_os_str().as_bytes()) {
        UNFINISHED.store(path.into_raw(), Ordering::SeqCst);
    }
}

/// No file goes any more.
pub fn finished() {
    UNFINISHED.store(null_mut(), Ordering::SeqCst);
}
