//! Rows of merged scores, as lines of the console: the merge's own bytes, which playing cannot tell.

use super::vectors::hex;

/// Two lists of records, behind one header with this advance.
type Pair = (u8, &'static [u8], &'static [u8]);

const PAIRS: &[Pair] = &[
    // two records at one moment from each score
    (4, &[17, 5, 0, 200, 0, 8, 1, 2], &[9, 5, 0, 3, 4, 16, 9, 0]),
    // an instant change of the first and an announced one of the second at one moment; the other way round
    (4, &[131, 5, 0, 60, 0], &[3, 5, 0, 70, 0]),
    (4, &[3, 5, 0, 70, 0], &[131, 5, 0, 60, 0]),
    (0, &[3, 5, 0, 70, 0], &[131, 5, 0, 60, 0]),
    // an absent L, or d, taken from its own score while the other has changed it
    (4, &[131, 5, 0, 60, 0], &[5, 8, 0, 160, 15]),
    (4, &[133, 5, 0, 160, 15], &[3, 8, 0, 60, 0]),
    // a change that takes effect with the last sample of the wait
    (4, &[2, 60, 0, 5, 4, 0, 160, 15], &[]),
    (4, &[], &[2, 60, 0, 5, 4, 0, 160, 15]),
    // a wait that becomes 0, and one that is cut short
    (4, &[1, 7, 0], &[1, 7, 0, 1, 9, 0]),
    (4, &[1, 7, 0], &[1, 10, 0]),
    // a seed written where its bit stands alone; records without anything left
    (4, &[80, 9, 0, 0, 0], &[16, 9, 0]),
    (4, &[0, 0], &[1, 0, 0]),
    // scores that do not end alone: a cut record, a change while one waits, a count of 0
    (4, &[1, 7], &[1, 7, 0]),
    (4, &[2, 60, 0, 2, 61, 0], &[]),
    (4, &[], &[48, 9, 0, 0, 0]),
];

/// A score of order 1, L 50, d 4,096, G 65,000.
fn score(advance: u8, records: &[u8]) -> Vec<u8> {
    [&[1, advance, 50, 0, 0, 16, 232, 253], records].concat()
}

/// All rows: each pair with room for 60 bytes; equal headers that are short, another header, and rooms about the length.
pub fn lines() -> Vec<String> {
    let line = |room: usize, first: &[u8], second: &[u8]| {
        format!("merge {room}{} /{}", hex(first), hex(second))
    };
    let pair = |&(advance, first, second): &Pair| {
        line(60, &score(advance, first), &score(advance, second))
    };
    let (good, other) = (score(4, &[1, 5, 0]), score(5, &[1, 5, 0]));
    let mut lines: Vec<String> = PAIRS.iter().map(pair).collect();
    lines.push(line(20, &good[..7], &good[..7]));
    lines.push(line(20, &good[..7], &good));
    lines.push(line(20, &good, &other));
    lines.push(line(20, &good, &good[..7]));
    lines.extend([0, 7, 8, 11, 12, 13].map(|room| line(room, &good, &good)));
    lines.push(line(0, &[], &[]));
    lines
}
