//! Console texts about the form of the lines: words, numbers, comments and limits.

use super::random::Random;
use super::text::Text;
use crate::command::LINE_BYTES;

/// Lines right and wrong.
#[rustfmt::skip]
const LINES: &[&str] = &[
    "open 1 3 4096 32768 0", "open 1 3 4096 32768", "open 1 3 4096 32768 0 0", "open", "OPEN 1 3 4096 0 0",
    "open +1 3 4096 32768 0", "open -1 3 4096 0 0", "open 01 0003 4096 32768 0000000000000000000000",
    "\topen\t2  3 8192 65535 64 \t", "open 1 3 4096 32768 0 # 1", "open 1 3 4096 32768 0# 1",
    "# open 1 3 4096 32768 0", "", "   ", "\t", "openly 1 3 4096 32768 0", "open 1 3 4096 32768 4294967296",
    "open 1 3 4096 32768 4294967295", "open #", "loss 0x10", "loss 1.0", "loss 1,000", "loss", "loss 1 2",
    "loss 65535", "loss 65536", "pluck 1 1", "pluck 1 9 4294967295", "pluck 1 1 4294967296",
    "pluck 1 1 99999999999999999999999999999999999999999", "pluck 255 2048 7", "pluck 256 2049 7",
    "announce 3", "announce 2 4100", "announce 1 3 4096 1", "announce 1 2 4100", "announce 3 2 12000",
    "announce 4294967296 2 4100", "announce 4294967297 0 1", "announce -1 2 4100", "announce 1 2 4100 # 3",
    "instant 3", "instant", "instant 2 4100", "instant 1 2 4100", "instant 2 2 8000", "instant 4294967295 2 4100",
    "ask", "ask 3", "ask 2 4100", "ask 1 3 4096 1", "ask 1 2 4100", "ask 3 1 14336", "ask 1 0 4100", "ask 1 2 2048",
    "ask 0 0 0", "ask 4 2 4100", "ask 2 2 4100", "Ask 1 2 4100", "asks 1 2 4100", "commit", "commit 1", "commit 0",
    "commit#", "commits", "withdraw", "withdraw 2 4100", "withdraw 1 2 4100", "withdraw # 1",
    "block", "block 0", "block 2", "block -1", "block 1 -0", "block 1 -", "block 1 --1", "block 1 +1",
    "block 1 0-1", "block 1 -001000", "block 1 2147483647", "block 1 2147483648", "block 1 -2147483648",
    "block 1 -2147483649", "block 1 8388607", "block 1 -8388607", "block 1 8388608", "block 1 -8388608",
    "block 4097 0", "block 4096 0", "block 5 9 9 9 9 9", "block 4 9 9 9 9 9", "block 6 9 9 9 9 9",
    "coefficients 1", "coefficients 1 4096 0", "coefficients 2 6145", "length 1 4096", "length 2 9159 1000",
    "note 1 44100", "note 1 44100 69 0", "note 1 44100 69", "draw", "draw -1", "draw 0", "draw 4294967295",
    "draw 4294967296", "record", "record 0", "record 000", "record 0 0", "record 0g", "record 1f",
    "record 00 00", "record 01 aB Cd 11", "record +1", "record -1", "run", "run 0", "run 3", "run 16385",
    "run 16384", "run -1", "run 3 01 00 03 00 00 10 00 80 01 03 00", "run 3 1 0 3 0 0 10 0 80",
    "run 3 01 00 03 00 00 10 00 80 # 01", "run 2 02 40 ff 07 01 18 FF ff 00", "state 1", "state", "state#",
    "wavwrite", "wavwrite 44100", "wavwrite 44100 50 1 -1", "wavwrite 44100 49 1 -1",
    "wavwrite 44100 51 1 -1", "wavwrite 44100 48 1", "wavwrite 44100 47 1", "wavwrite 44100 44",
    "wavwrite 44100 16384", "wavwrite 44100 16385", "wavwrite -1 50 1 -1", "wavwrite 4294967296 50",
    "wavwrite 7999 9 8388608", "wavwrite 8000 9 8388608", "wavwrite 192000 60 8388607 -8388607",
    "wavwrite 192000 60 8388607 -8388608", "wavwrite 192001 60", "wavwrite 44100 50 +1", "wavread",
    "wavread 0", "wavread 4096", "wavread 4097", "wavread 3 52 49 46 4", "wavread 3 52 49 46 46",
    "wavread -1",
    "gather", "gather 0", "gather -1", "gather 0 1", "gather 0 01 02", "gather 1 01 02", "gather 2 01 02", "gather 3 01 02",
    "gather 4294967295 01", "gather 4294967296 01", "gather 1 00 01 02 03 04 05 06 07 08 09",
    "junction", "junction 1 2 4096", "junction 1 2 4096 3", "junction 1 2 4096 3 4", "junction -1 2 4096 3",
    "junction 0 65536 2048 65", "junction 65535 1 6143 64", "junction 65535 1 6144 65", "Junction 1 2 4096 3",
    "move", "move 4096", "move 2048", "move 2049 1", "move -1", "move 6143", "moves 4096", "tube", "tube 1",
    "tube 1 2", "tube 1 2 3", "tube -8388607 8388607", "tube 8388608 0", "tube 0 -8388608", "tube 2147483648 0",
    "tube -2147483648 2147483647", "tube 1 x", "tube +1 1", "tube x 1", "tube 1 2 # 3", "tube 1 - 2",
    "store", "store 0", "store 1", "store 30", "store 16384", "store 16385", "store -1", "store 1 00", "stored 1",
    "load", "load 00", "load 00 00", "load 02 ff ff 00 00", "load 02 00 00 01 00", "load 02 ff ff 00", "load 0", "load 2 00",
    "panel", "panel 00", "panel 00 00", "panel 02 ff ff 00 00", "panel 02 00 00 01 00", "panel x", "panel 01",
    "load 04 40 00 00 00", "load 04 41 00 00 00", "load 08 ff ff 7f 00", "load 08 00 00 80 ff", "load 08 01 00 80 ff",
    "merge", "merge 9", "merge 9 /", "merge 9 / /", "merge 0 /", "merge 32768 /", "merge 32769 /", "merge / 9",
    "merge 12 01 04 32 00 00 10 e8 fd / 01 04 32 00 00 10 e8 fd", "merge 7 01 04 32 00 00 10 e8 fd / 01 04 32 00 00 10 e8 fd",
    "merge 12 01 04 32 00 00 10 e8 fd/ 01 04 32 00 00 10 e8 fd", "merge 12 01 04 32 00 00 10 e8 fd /01 04 32 00 00 10 e8 fd",
    "merge 12 01 04 32 00 00 10 e8 fd 01 05 00 / 01 04 32 00 00 10 e8 fd 00", "merge 12 01 / 02 / 03", "merge 12 01 02",
    "merge 12 01 // 02", "merge 12 01 / 0", "merge 12 / 01", "merge 12 01 /", "merge 12 01 / 01", "merge 12 00 / 01 #/",
    "string", "string 0", "string 0 loss", "string 0 loss 1", "string 5 loss 65535", "string 6 loss 65536", "string 6 loss",
    "string 0 block 1 0", "string 0 string 0 loss 1", "string 0 help", "string 6 instant 1 1 4096", "string 6 store 3",
    "string 6 state", "string 5 state", "string 05 line 2", "string 6 line 2", "string -1 loss 1", "string x loss 1",
    "string 4294967295 commit", "string 4294967296 commit", "string 3 load", "string 6 load", "string 6 load 0",
    "string 2 open 1 3 4096 65535 2", "string 2 open 0 0 0 0 0", "string 7 open 0 0 0 0 0", "string 2 mix 1 5",
    "string 2 pluck 200 9 1", "string 2 announce 1 4 4096", "string 2 ask 1 4 4096", "string 2 withdraw", "string 2 commit",
    "string 2 store 16385", "string 6 store 16385", "string 2 panel 00", "string 2 draw 1", "String 2 commit",
    "mix", "mix 0", "mix 1", "mix 1 5", "mix 3 5 6 7", "mix 2 5 6 7", "mix 1 8388608", "mix 2 8388608", "mix 4097 0", "mix 1 x",
    "help", "help", "help 1", "help#", " help ", "Help", "helps", "state\r", "state\r\r", "state \r", "\r", "\r\r", "\rstate",
    "loss\r1", "loss 1\r2", "loss 1\r", "loss 1 \r#", "loss 1#\r", "# \r", "block 1 5\r", "record 00\r", "record 00\r 00",
    "line", "line 2112", "line 2113", "line 0", "line 1 2", "line -1", "line 3", "s", "end", "error 1", "77",
];

/// A block line of so many zeros for so many places.
fn zeros(places: usize, count: usize) -> String {
    format!("block {places}{}", " 0".repeat(count))
}

/// A line of so many bytes: a loss, and then blanks or a comment.
fn wide(bytes: usize, filling: &str) -> String {
    format!("loss 7{}", filling.repeat(bytes - 6))
}

/// Lines of as many bytes as a line may have, and of more; the last line of the text has no line feed behind it.
fn at_the_limit(text: &mut Text) {
    for _ in 0..3 {
        let bytes = LINE_BYTES + text.random.pick(&[0, 0, 1, 2, 700, LINE_BYTES]) - 1;
        let (filling, end) =
            (text.random.pick(&[" ", " ", "#"]), text.random.pick(&["\r", "x", "#"]));
        text.line(wide(bytes, filling) + end);
        text.line("state".to_string());
    }
    if text.random.one_in(2) {
        text.lines.pop();
    }
}

/// Random lines of the table; some texts have blocks at the limit of 4,096 samples, or lines at the
/// limit of their bytes.
pub fn words(random: Random) -> Text {
    let mut text = Text::new(random, 0, false);
    for _ in 0..40 {
        let line = text.random.pick(LINES);
        text.line(line.to_string());
    }
    if text.random.one_in(4) {
        for (places, count) in [(4_096, 4_096), (4_096, 4_097), (4_097, 4_096), (4_095, 4_096)] {
            text.line(zeros(places, count));
        }
        text.inspect();
    }
    if text.random.one_in(24) {
        at_the_limit(&mut text);
    }
    text
}
