//! Rows of stored voices, as lines of the console: 00, every part, each kind of change, and some limits.

use super::vectors::hex;
use crate::console::kept_voices;
use crate::stored::{form, parts, usual};

/// A voice with every part, of which an asked change waits; with an announced change; with none.
const VOICES: &[&str] = &[
    "open 3 9 12000 65000 4; pluck 200 30 77; block 5 1000 -2000 3000 0 0; ask 2 4 7000; block 3 0 0 -8388607",
    "open 1 3 5000 60000 8; block 4 1 -2 3 -4; announce 3 5 11000; block 2 8388607 0",
    "open 2 2048 10240 65535 64; block 3 5 6 7; pluck 0 2048 4294967295",
    "open 1 1 2049 1 0",
    "open 1 1 4096 0 0; ask 1 1 4096",
];

/// The lines of a row, and storing, loading and showing what they leave.
fn voice(words: &&str) -> Vec<String> {
    let mut lines: Vec<String> = words.split("; ").map(str::to_string).collect();
    let parts = parts(&kept_voices(lines.join("\n").as_bytes()).0);
    let usual = usual();
    let map = (0..8).fold(0, |map, bit| map | u8::from(parts[bit] != usual[bit]) << bit);
    let bytes = form(map, &parts);
    let length = bytes.len();
    lines.extend([length - 1, length, length + 2].map(|room| format!("store {room}")));
    for part in [&bytes[..length - 1], &bytes, &[&bytes[..], &[0]].concat()] {
        lines.push(format!("panel{}", hex(part)));
        lines.push(format!("load{}", hex(part)));
        lines.extend(["state", "line 2112"].map(str::to_string));
    }
    lines.push(format!("load{}", hex(&form(map | 127, &parts))));
    lines.extend(["commit", "block 3 0 0 0", "state"].map(str::to_string));
    lines
}

/// A loss, an advance, a last output and a pluck on both sides of a limit; a needless loss; two parts of which the second
/// is cut short.
const LIMITS: &[&str] = &[
    "02 ff ff 00 00",
    "02 00 00 01 00",
    "02 00 00 00 00",
    "04 40 00 00 00",
    "04 41 00 00 00",
    "08 01 00 80 ff",
    "08 00 00 80 ff",
    "08 ff ff 7f 00",
    "08 00 00 80 00",
    "40 00 00 00 00 01 00 00 00 ff ff ff ff",
    "40 00 00 00 00 00 00 00 00 01 00 00 00",
    "40 ff 00 00 00 01 08 00 00 00 00 00 00",
    "06 00 00 01 00 40 00 00",
];

/// All rows.
pub fn lines() -> Vec<String> {
    let refused = [
        "open 0 0 0 0 0",
        "store 0",
        "store 1",
        "store 2",
        "load",
        "load 00",
        "panel",
        "panel 00",
        "panel 01",
    ];
    let first = refused.iter().map(|line| line.to_string());
    let limits =
        LIMITS.iter().flat_map(|bytes| [format!("panel {bytes}"), format!("load {bytes}")]);
    first.chain(limits).chain(VOICES.iter().flat_map(voice)).collect()
}
