//! Rows over records: bytes, with the number, the bit map, the fields and the part that come back.

use super::table::{tables, Table};
use super::term::{naturals, Term};
use super::vectors::hex;
use crate::record::read_record;
use crate::refusal::number;

const HEAD: &str = "\
-- Rows from another implementation of document 01: bytes and what reading a record gives, as facts about the
-- definitions. It printed this text; proofs/RecordRows.antt proves them by computation. Assumes nothing.
use Rattle.std.specs.Prelude.{◌≡◌, List, [], ◌∷◌, ℕ}
use Rattle.record.specs.Record.{fields, rest}

-- bytes, and what it gives: number, bit map, wait, L, d, G, amplitude, count, seed; the part handed back
pub record Row : Type 0 where
  pub bytes : List ℕ
  pub fields : List ℕ
  pub rest : List ℕ

-- the definitions give this, row for row
abbrev pub row : Row → Row
row r = record { bytes = r.bytes; fields = fields r.bytes; rest = rest r.bytes }

abbrev pub given : List Row → List Row
given [] = []
given (r ∷ rs) = row r ∷ given rs

";

/// Fourteen bytes, and two more.
const BYTES: [u8; 16] = [1, 2, 3, 4, 5, 6, 7, 8, 9, 10, 11, 12, 13, 14, 255, 0];

/// A bit map before the first of these bytes.
fn bytes(map: u8, many: usize) -> Vec<u8> {
    [&[map], &BYTES[..many]].concat()
}

/// A list of bytes.
fn list(bytes: &[u8]) -> Term {
    naturals(&bytes.iter().copied().map(u32::from).collect::<Vec<u32>>())
}

/// A row.
fn row(bytes: &[u8]) -> Term {
    let (answer, record, rest) = read_record(bytes);
    let fields = [&[number(&answer), u32::from(record.map)][..], &record.fields].concat();
    Term::Record(vec![("bytes", list(bytes)), ("fields", naturals(&fields)), ("rest", list(rest))])
}

/// Bit maps with bits 5, 6 and 7, with and without what they need, and how many bytes are there.
const FORMED: &[(u8, usize)] =
    &[(0x30, 6), (0x50, 6), (0x60, 4), (0x82, 4), (0x84, 4), (0x99, 6), (0xE6, 10), (0xF9, 12)];

/// Records that are cut short or are not well formed, or both.
const FIRST: &[(u8, usize)] = &[(0x60, 3), (0x60, 4), (0x81, 1), (0x81, 2)];

/// The bytes of the rows that are theorems: no byte; all bits, a byte missing and a byte more; bits 5, 6 and 7
/// without what they need; 14 before 15.
fn limits() -> Vec<Vec<u8>> {
    let all = bytes(255, 16);
    let ill = [(0x20, 2), (0x40, 2), (0x81, 2), (0x60, 3)].map(|(map, many)| bytes(map, many));
    [vec![vec![], all[..14].to_vec(), all[..16].to_vec()], ill.to_vec()].concat()
}

/// All rows, as lines of the console: no bit and every bit alone; all bits, cut at each byte; bits 5, 6 and 7;
/// every bit map before fourteen bytes.
pub fn lines() -> Vec<String> {
    let alone = [0].into_iter().chain((0..8).map(|bit| 1 << bit)).map(|map| bytes(map, 4));
    let cut = (0..=16).map(|many| bytes(255, 16)[..many].to_vec());
    let formed = FIRST.iter().chain(FORMED).map(|&(map, many)| bytes(map, many));
    let maps = (0..=255).map(|map| bytes(map, 14));
    let all = alone.chain(cut).chain(formed).chain(maps).chain(limits());
    all.map(|bytes| format!("record{}", hex(&bytes))).collect()
}

/// The module `RecordRows`.
pub fn module() -> String {
    let about =
        "no byte; all bits, a byte missing and one more; bits 5, 6 and 7 alone; 14 before 15";
    let rows = limits().iter().map(|bytes| row(bytes)).collect();
    format!("{HEAD}{}", tables("RecordRows", &[Table { name: "limits", about, rows }]))
}
