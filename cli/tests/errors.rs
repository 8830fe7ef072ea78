//! What goes wrong around the program: standard error closed or full, a signal, a size limit, input without
//! an end, names and words that a terminal would obey.

mod common;

use common::Folder;
use jivaszte_cli::recording;
use std::fs::{self, File};
use std::io::Write;
use std::os::unix::fs::PermissionsExt;
use std::path::Path;
use std::process::{Command, Stdio};
use std::time::{Duration, Instant};

const PROGRAM: &str = env!("CARGO_BIN_EXE_jivaszte");
const TUNE: &str = "rate 8000\ntune A3\npluck 255 for 2000\nwait 0.2s\n";

/// Runs a line of the shell in a folder, with the program as $J; gives its status and standard error.
fn shell(folder: &Path, line: &str) -> (Option<i32>, String) {
    let done = Command::new("sh").args(["-c", line]).env("J", PROGRAM).current_dir(folder).output();
    let done = done.unwrap();
    (done.status.code(), String::from_utf8_lossy(&done.stderr).into_owned())
}

#[test]
fn nothing_panics_without_a_standard_error() {
    let folder = Folder::new("stderr");
    fs::write(folder.join("tune.txt"), TUNE).unwrap();
    fs::write(folder.join("wrong.txt"), "tune H4\n").unwrap();
    for (call, status) in [
        ("play tune.txt -o take.wav", 0),
        ("plot tune.txt -o take.svg", 0),
        ("page -o page.html", 0),
        ("compile tune.txt -o tune.score", 0),
        ("check tune.txt", 0),
        ("check wrong.txt", 1),
        ("show wrong.txt", 1),
        ("note H4", 1),
        ("sing", 2),
    ] {
        for to in ["2>/dev/full", "2>&-"] {
            let (code, _) = shell(&folder, &format!("exec \"$J\" {call} {to} >/dev/null"));
            assert_eq!(code, Some(status), "{call} {to}");
        }
    }
}

fn parts(folder: &Path) -> usize {
    let names = fs::read_dir(folder).unwrap().map(|entry| entry.unwrap().file_name());
    names.filter(|name| name.to_string_lossy().ends_with(".part")).count()
}

/// Signals that end the program, sent while it waits for a recording that never comes.
#[test]
fn a_signal_leaves_no_part_of_a_file() {
    let folder = Folder::new("signal");
    fs::write(folder.join("tune.txt"), "rate 8000\ntune A3\nwait 10s\n").unwrap();
    let made = Command::new("mkfifo").arg(folder.join("in.wav")).status().unwrap();
    assert!(made.success());
    let pipe = File::options().read(true).write(true).open(folder.join("in.wav"));
    let mut pipe = pipe.unwrap();
    for signal in ["INT", "TERM", "HUP"] {
        pipe.write_all(&recording::header(8_000, 80_000).unwrap()).unwrap();
        let call = ["play", "tune.txt", "-o", "take.wav", "--through", "in.wav"];
        // A shell that runs the tests in the background has them ignored, and so would the program.
        let mut child = Command::new("env")
            .args(["--default-signal=HUP,INT,TERM", PROGRAM])
            .args(call)
            .current_dir(&*folder)
            .stderr(Stdio::null())
            .spawn()
            .unwrap();
        let start = Instant::now();
        while parts(&folder) == 0 {
            assert!(start.elapsed() < Duration::from_secs(60));
            std::thread::sleep(Duration::from_millis(1));
        }
        let kill = [format!("-{signal}"), child.id().to_string()];
        assert!(Command::new("kill").args(kill).status().unwrap().success());
        assert_eq!(child.wait().unwrap().code(), None, "{signal}");
        assert_eq!(parts(&folder), 0, "{signal}");
        assert!(!folder.join("take.wav").exists(), "{signal}");
    }
}

#[test]
fn a_size_limit_is_told_and_leaves_no_part() {
    let folder = Folder::new("limit");
    fs::write(folder.join("tune.txt"), "tune A3\nwait 1s\n").unwrap();
    let (code, said) = shell(&folder, "ulimit -f 8; exec \"$J\" play tune.txt -o take.wav");
    assert_eq!((code, said.as_str()), (Some(1), "cannot write take.wav: File too large\n"));
    assert_eq!(fs::read_dir(&*folder).unwrap().count(), 1);
}

#[test]
fn input_has_an_end() {
    let folder = Folder::new("endless");
    let words = "this is no score: it has more than 64 MiB\n";
    for (call, name) in [
        ("check /dev/zero", "/dev/zero"),
        ("show - </dev/zero", "standard input"),
        ("play /dev/zero -o take.wav", "/dev/zero"),
    ] {
        let (code, said) = shell(&folder, &format!("exec \"$J\" {call}"));
        assert_eq!((code, said), (Some(1), format!("{name}: {words}")), "{call}");
    }
}

#[test]
fn words_that_a_terminal_would_obey_are_written_out() {
    let folder = Folder::new("words");
    let long = "x".repeat(5_000);
    fs::write(folder.join("a\nb\u{1b}.txt"), format!("tune \u{1b}[2J\nto {long}\n")).unwrap();
    let (code, said) = shell(&folder, "exec \"$J\" check a*.txt");
    let cut = format!("{}..", "x".repeat(60));
    let name = "a\\nb\\u{1b}.txt";
    assert_eq!(code, Some(1));
    assert_eq!(
        said,
        format!(
            "{name}:1:6: no note is called \\u{{1b}}[2J\n{name}:2:4: no note is called {cut}\n"
        )
    );
    let (code, said) = shell(&folder, &format!("exec \"$J\" \"$(printf '\\033{long}')\""));
    assert!(code == Some(2) && said.starts_with("`\\u{1b}xx") && said.len() < 200, "{said}");
}

#[test]
fn a_read_only_file_stays_as_it_is() {
    let folder = Folder::new("readonly");
    fs::write(folder.join("tune.txt"), TUNE).unwrap();
    fs::write(folder.join("take.wav"), "kept").unwrap();
    let mode = fs::Permissions::from_mode(0o444);
    fs::set_permissions(folder.join("take.wav"), mode).unwrap();
    let (code, said) = shell(&folder, "exec \"$J\" play tune.txt -o take.wav");
    assert_eq!((code, said.as_str()), (Some(1), "cannot write take.wav: it is read-only\n"));
    assert_eq!(fs::read(folder.join("take.wav")).unwrap(), b"kept");
}

/// A text of some hundred lines that stands for more records than memory holds.
#[test]
fn a_text_has_no_end_of_records() {
    let text = format!("tune A3\n{}", "wait 4294967295 samples\n".repeat(300));
    let faults = jivaszte_cli::text::compile(&text, None).unwrap_err();
    assert_eq!(faults[0].message, "a score has at most 4,194,304 records");
}
