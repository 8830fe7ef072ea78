//! Rows of six strings, as lines of the console: opened at different moments, one refused; a mix that clips.

/// Strings 0, 1 and 2 of orders 1, 2 and 3 opened at different moments, and one refused, that retune together.
const TOGETHER: &[&str] = &[
    "string 0 open 1 5 4100 65000 4",
    "string 0 pluck 255 20 1",
    "mix 3 1000 -2000 3000",
    "string 1 open 2 7 8000 64000 2",
    "string 1 pluck 255 20 2",
    "mix 2 0 8388607",
    "string 2 open 3 4 12000 65535 3",
    "string 3 open 1 0 4100 65000 4",
    "string 4 open 1 9 2049 65535 64",
    "mix 8 0 0 0 0 -8388607 0 0 0",
    "string 0 announce 1 6 5000",
    "string 1 announce 2 6 9000",
    "string 2 announce 3 5 11000",
    "string 3 instant 1 2 4000",
    "string 4 ask 1 8 4096",
    "string 5 commit",
    "mix 6 0 0 0 0 0 0",
    "string 0 state",
    "string 1 state",
    "string 2 state",
    "string 3 state",
    "string 4 state",
    "string 5 state",
    "string 1 store 600",
    "string 2 line 30",
    "mix 0",
    "mix 2 8388608",
    "mix 1 8388608",
];

/// Numbers of strings that there are not, ahead of the call's own numbers.
const NONE: &[&str] = &[
    "string 6 open 0 0 0 0 0",
    "string 6 loss 65536",
    "string 6 pluck 256 0 1",
    "string 6 announce 0 0 0",
    "string 6 instant 0 0 0",
    "string 6 ask 0 0 0",
    "string 6 commit",
    "string 6 withdraw",
    "string 6 store 3",
    "string 6 load",
    "string 4294967295 loss 1",
];

/// All rows.
pub fn lines() -> Vec<String> {
    let mut lines: Vec<String> = TOGETHER.iter().chain(NONE).map(|line| line.to_string()).collect();
    // six strings of L 1 and d 4,096: what comes in goes out two samples later, six times
    lines.extend((0..6).map(|string| format!("string {string} open 1 1 4096 0 0")));
    lines.push("mix 5 1398101 1398102 -1398102 8388607 -8388607".to_string());
    lines.push("mix 3 0 0 0".to_string());
    lines
}
