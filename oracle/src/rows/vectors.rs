//! All rows as one text of the console.

use super::{files, gathers, junctions, merges, notes, records, scores, stored, strings, voices};

/// Bytes as words of the console, a space before each.
pub fn hex(bytes: &[u8]) -> String {
    bytes.iter().map(|byte| format!(" {byte:02x}")).collect()
}

/// The text, row by row.
pub fn text() -> String {
    let rows = [
        voices::lines(),
        notes::lines(),
        records::lines(),
        scores::lines(),
        gathers::lines(),
        files::lines(),
        junctions::lines(),
        stored::lines(),
        merges::lines(),
        strings::lines(),
    ];
    rows.concat().iter().map(|line| format!("{line}\n")).collect()
}
