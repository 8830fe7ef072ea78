//! The console's answers.

use oracle::console::answers;

/// Whether the console answers each line of the first list by the line beside it.
fn assert_answers(lines: &[(&str, &str)]) {
    let text: Vec<&str> = lines.iter().map(|(line, _)| *line).collect();
    let expected: String = lines.iter().map(|(_, answer)| format!("{answer}\n")).collect();
    assert_eq!(answers(text.join("\n").as_bytes()), expected);
}

#[test]
fn a_voice() {
    assert_answers(&[
        ("state", "state 1 1 4096 0 0 0 0 0 0 0 0 0 0 0 0 0 0 0 0 0"),
        ("open 1 3 4096 32768 2", "open 0"),
        ("block 6 1000 0 0 0 0 0", "block 0 0 0 0 0 1000 0"),
        ("line 3", "line 250 250 0"),
        ("line 0", "line"),
        ("announce 1 2 6144", "announce 0"),
        ("instant 1 2 6144", "instant 6 0"),
        ("pluck 1 3 0", "pluck 0"),
        ("block 1 0", "block 0 0"),
        ("state", "state 1 3 4096 32768 2 0 0 0 0 1 1 2 6144 1 250 0 0 1 2 1013904223"),
        ("block 2 0", "block 9 77 77"),
        ("block 1 8388608", "block 10 77"),
        ("loss 65536", "loss 4"),
        ("open 1 0 4096 32768 2", "open 2"),
        ("ask 0 0 2049", "ask 1"),
        ("ask 1 0 2049", "ask 2"),
        ("ask 2 7 2049", "ask 3"),
        ("ask 1 7 2049", "ask 0"),
        ("withdraw", "withdraw 0"),
        ("withdraw", "withdraw 21"),
        ("commit", "commit 21"),
        ("ask 1 9 2049", "ask 0"),
        ("state", "state 1 1 4096 0 0 0 0 0 0 2 1 9 2049 0 0 0 0 0 0 0"),
        ("commit", "commit 0"),
        ("instant 1 7 2049", "instant 0 0"),
        ("state", "state 1 7 2049 0 0 0 0 0 0 0 0 0 0 0 0 0 0 0 0 0"),
    ]);
}

#[test]
fn routines() {
    assert_answers(&[
        ("coefficients 2 6145", "coefficients 0 26199 -1872 0"),
        ("coefficients 3 6145", "coefficients 3 0 0 0"),
        ("coefficients 4 6145", "coefficients 1 0 0 0"),
        ("length 2 9159 1000", "length 0 4"),
        ("note 2 44100 69", "note 0 98 7075"),
        ("draw 0", "draw -17298 1013904223"),
        ("least 3 11171 2", "least 0 39"),
        ("least 3 10241 2", "least 32 0"),
        ("record 23 01 00 02 00 03 00 ff", "record 15 0 0 0 0 0 0 0 0 8"),
        ("record 13 01 00 02 00 03 00 ff", "record 0 19 1 2 0 0 3 0 0 1"),
        ("record 13 01 00 02 00 03", "record 14 0 0 0 0 0 0 0 0 6"),
        ("record", "record 14 0 0 0 0 0 0 0 0 0"),
        ("gather 0 01 02 03 04 05 06 07 08 09", "gather 578437695752307201"),
        ("gather 7 01 02 03 04 05 06 07 08 09", "gather 2312"),
        ("gather 8 01 02 03 04 05 06 07 08 ff", "gather 255"),
        ("gather 9 01 02 03 04 05 06 07 08 ff", "gather 0"),
        ("gather 4294967295 01", "gather 0"),
        ("gather 0 ff ff ff ff ff ff ff ff ff", "gather 18446744073709551615"),
        ("run 3 01 00 03 00 00 10 00 80 01 02 00", "run 0 1 2 0 0 77"),
        ("run 1 01 00 03 00 00 10 00 80 01 02 00", "run 16 0 0 77"),
    ]);
}

#[test]
fn lines_that_are_not_right() {
    let text = "\n# nothing\nopen 1 2 3\n \t\nstate # yes\nblock 1 +1\nblock 1 -\nline 2113\n\
                block 4097\nrun 16385\nrecord 1\ndraw 4294967296\nDraw 1\ncommit 1\n\
                withdraw 0\nask 3 1\nwavread\nhelp 1\nannounce 1 2\ninstant 1 2 3 4\nloss 007";
    let expected = "error 3 open takes N L D G NA\n\
                    state 1 1 4096 0 0 0 0 0 0 0 0 0 0 0 0 0 0 0 0 0\n\
                    error 6 block takes OUT X1 X2 .. (at most 4096 each)\n\
                    error 7 block takes OUT X1 X2 .. (at most 4096 each)\n\
                    error 8 line takes K (at most 2112)\n\
                    error 9 block takes OUT X1 X2 .. (at most 4096 each)\n\
                    error 10 run takes OUT B1 B2 .. (OUT at most 16384)\n\
                    error 11 record takes B1 B2 ..\n\
                    error 12 draw takes STATE\n\
                    error 13 no call has this name: help lists them\n\
                    error 14 commit takes nothing\n\
                    error 15 withdraw takes nothing\n\
                    error 16 ask takes N L D\n\
                    error 17 wavread takes ROOM B1 B2 .. (ROOM at most 4096)\n\
                    error 18 help takes nothing\n\
                    error 19 announce takes N L D\n\
                    error 20 instant takes N L D\n\
                    loss 0\n";
    assert_eq!(answers(text.as_bytes()), expected);
}

#[test]
fn carriage_returns() {
    let text = b"loss 1\r\n\r\nloss\r1\nloss 1\r\r\n# \r\nhelp\r";
    let expected = "loss 0\nerror 3 no call has this name: help lists them\nerror 4 loss takes G\n\
                    error 6 no call has this name: help lists them\n";
    assert_eq!(answers(text), expected);
}

#[test]
fn long_lines() {
    let line = |blanks: usize, end: &str| format!("loss 1{}{end}", " ".repeat(blanks));
    let most = 1_048_576 - 6;
    for (text, expected) in [
        (line(most, "\nloss 2"), "loss 0\nloss 0\n"),
        (line(most - 1, "\r\nloss 2"), "loss 0\nloss 0\n"),
        (line(most, "\r\nloss 2"), "error 1 a line has at most 1048576 bytes\nloss 0\n"),
        (line(most + 1, ""), "error 1 a line has at most 1048576 bytes\n"),
    ] {
        assert_eq!(answers(text.as_bytes()), expected);
    }
}

#[test]
fn calls_are_listed() {
    let listed = answers(b"help");
    assert!(
        listed.starts_with("help open takes N L D G NA; loss takes G; pluck takes A COUNT SEED; ")
    );
    let last = "; mix takes OUT X1 X2 .. (at most 4096 each); help takes nothing\n";
    assert!(listed.ends_with(last));
    assert_eq!(listed.split("; ").count(), 31);
}

#[test]
fn a_junction() {
    assert_answers(&[
        ("tube 5 6", "tube 0 0 0"),
        ("tube 7 8", "tube 0 5 6"),
        ("junction 0 1 0 65", "junction 25"),
        ("junction 2 1 3000 1", "junction 0"),
        ("move 5000", "move 0"),
        ("move 5000", "move 6"),
        ("tube 0 8388608", "tube 10 0 0"),
        ("tube 1 2 3", "error 8 tube takes A B"),
        ("tube 0 -0", "tube 0 0 0"),
        ("move 6144", "move 3"),
    ]);
}

#[test]
fn a_stored_voice() {
    assert_answers(&[
        ("store 2", "store 0 1 00 4d"),
        ("open 1 1 4096 65535 0", "open 0"),
        ("store 4", "store 18 0 4d 4d 4d 4d"),
        ("store 5", "store 0 5 02 ff ff 00 00"),
        ("load 02 00 80 00 00", "load 0"),
        ("state", "state 1 1 4096 32768 0 0 0 0 0 0 0 0 0 0 0 0 0 0 0 0"),
        ("panel 02 00 80 00 00", "panel 0 1 4096 32768"),
        ("load 02 00 80 00", "load 22"),
        ("state", "state 1 1 4096 0 0 0 0 0 0 0 0 0 0 0 0 0 0 0 0 0"),
        ("panel 02 00 00 01 00", "panel 23 1 4096 0"),
        ("store 16385", "error 11 store takes ROOM (at most 16384)"),
    ]);
}

#[test]
fn a_merge() {
    let header = "01 04 32 00 00 10 e8 fd";
    let merge = |room: u32, first: &str, second: &str| {
        answers(format!("merge {room} {header} {first} / {header} {second}").as_bytes())
    };
    assert_eq!(merge(12, "", "01 05 00"), format!("merge 0 11 {header} 01 05 00 4d\n"));
    assert_eq!(merge(2, "", ""), "merge 30 0 4d 4d\n");
    assert_eq!(merge(0, "01", ""), "merge 29 0\n");
    assert_eq!(answers(b"merge 1 00 / 01"), "merge 28 0 4d\n");
    let wrong = "error 1 merge takes ROOM B1 .. / C1 .. (ROOM at most 32768)\n";
    for line in ["merge 1", "merge 1 00/ 01", "merge 1 / /", "merge 32769 /", "merge /"] {
        assert_eq!(answers(line.as_bytes()), wrong);
    }
}

#[test]
fn six_strings() {
    assert_answers(&[
        ("string 5 open 1 1 4096 0 0", "string 5 open 0"),
        ("string 005 open 0 1 4096 0 0", "string 5 open 1"),
        ("string 6 open 0 0 0 0 0", "string 6 open 24"),
        ("string 6 instant 0 0 0", "string 6 instant 24 0"),
        ("string 6 store 2", "string 6 store 24 0 4d 4d"),
        ("string 6 load", "string 6 load 24"),
        ("string 2 load", "string 2 load 22"),
        ("string 2 store 1", "string 2 store 0 1 00"),
        ("mix 3 5 6 2000000", "mix 0 0 0 30"),
        ("mix 2 8388608", "mix 9 77 77"),
        ("mix 1 8388608", "mix 10 77"),
        ("mix 3 0 0 0", "mix 0 36 8388607 0"),
        ("string 2 line 3", "string 2 line 0 0 0"),
        ("state", "state 1 1 4096 0 0 0 0 0 0 0 0 0 0 0 0 0 0 0 0 0"),
    ]);
    let wrong = "error 1 string takes K CALL .. (a call of a voice but block)\n";
    for line in
        ["string", "string 6 state", "string 6 line 1", "string 0 block 1 0", "string 6 loss"]
    {
        assert_eq!(answers(line.as_bytes()), wrong);
    }
}
