//! What the program says: each command of messages.txt, with what it prints and its exit status, is
//! run again. With BLESS=1 in the environment the file is written anew.

use std::fs;
use std::path::{Path, PathBuf};
use std::process::Command;

/// A folder of its own with the tunes; what is in NAME.hex becomes the bytes of NAME.score.
fn folder() -> PathBuf {
    let folder = Path::new(env!("CARGO_TARGET_TMPDIR")).join("messages");
    let _ = fs::remove_dir_all(&folder);
    fs::create_dir_all(&folder).unwrap();
    let tunes = Path::new(env!("CARGO_MANIFEST_DIR")).join("tests/tunes");
    for entry in fs::read_dir(tunes).unwrap() {
        let path = entry.unwrap().path();
        let name = path.file_name().unwrap().to_str().unwrap();
        match name.strip_suffix(".hex") {
            Some(stem) => {
                let text = fs::read_to_string(&path).unwrap();
                let bytes =
                    text.split_whitespace().map(|byte| u8::from_str_radix(byte, 16).unwrap());
                fs::write(folder.join(format!("{stem}.score")), bytes.collect::<Vec<u8>>())
                    .unwrap();
            }
            None => {
                fs::copy(&path, folder.join(name)).unwrap();
            }
        }
    }
    folder
}

/// What a command prints, standard output first, and its status where it is not 0.
fn run(folder: &Path, command: &str) -> String {
    let mut words = command.split_whitespace();
    assert_eq!(words.next(), Some("jivaszte"));
    let program = env!("CARGO_BIN_EXE_jivaszte");
    let done = Command::new(program).args(words).current_dir(folder).output().unwrap();
    let mut said =
        String::from_utf8(done.stdout).unwrap() + &String::from_utf8(done.stderr).unwrap();
    match done.status.code() {
        Some(0) => {}
        Some(status) => said.push_str(&format!("[{status}]\n")),
        None => said.push_str("[killed]\n"),
    }
    said
}

#[test]
fn every_message_is_the_stored_one() {
    let path = Path::new(env!("CARGO_MANIFEST_DIR")).join("tests/messages.txt");
    let stored = fs::read_to_string(&path).unwrap();
    let folder = folder();
    let mut said = String::new();
    for line in stored.lines() {
        match line.strip_prefix("$ ") {
            Some(command) => {
                said.push_str(&format!("{line}\n{}\n", run(&folder, command)));
            }
            None if line.starts_with("# ") => said.push_str(&format!("{line}\n")),
            None => {}
        }
    }
    if std::env::var_os("BLESS").is_some() {
        return fs::write(&path, &said).unwrap();
    }
    for (number, (wanted, got)) in (1..).zip(stored.lines().zip(said.lines())) {
        assert_eq!(got, wanted, "messages.txt, line {number}");
    }
    assert_eq!(said, stored);
    let left: Vec<_> =
        fs::read_dir(&folder).unwrap().map(|entry| entry.unwrap().file_name()).collect();
    assert!(left.iter().all(|name| !name.to_str().unwrap().ends_with(".part")), "{left:?}");
    assert!(!folder.join("none.wav").exists(), "a refused call has left a file");
    let bytes = |name: &str| fs::metadata(folder.join(name)).unwrap().len();
    assert_eq!(bytes("long.wav"), 3_120_044);
}
