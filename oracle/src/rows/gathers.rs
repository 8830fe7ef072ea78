//! Rows of words: bytes, a start, and what gathering gives, as a module of antt.

use super::term::{natural, Term};
use super::vectors::hex;
use crate::gather::gather;

/// What the module uses.
const HEAD: &str = "\
-- Rows from another implementation: bytes, a start, and the word that is gathered, as facts about the
-- definition. It printed this text; proofs/GatherRows.antt proves them by computation. Assumes nothing.
use Rattle.std.specs.Prelude.{◌≡◌, [], ◌∷◌}
use Rattle.octets.specs.Octets.{gathered}

pub record GatherRows : Type 0 where
";

/// Ten bytes, of which no two are the same.
const TEN: &[u8] = &[239, 0, 18, 255, 52, 1, 128, 86, 254, 120];

/// A name, what the row shows, the bytes and the start.
type Row = (&'static str, &'static str, &'static [u8], usize);

/// The rows that are theorems.
const ROWS: &[Row] = &[
    ("first", "eight bytes, and two that are left out", TEN, 0),
    ("seven", "one byte is missing", TEN, 3),
    ("end", "a start at the end, and the greatest", TEN, 10),
    ("greatest", "", TEN, usize::MAX),
    ("empty", "no byte at all", &[], 0),
];

/// All rows, as lines of the console, whose starts have 32 bits: each start, and the greatest word.
pub fn lines() -> Vec<String> {
    let starts = (0..12).chain([4_294_967_295_u32]);
    let ten = starts.map(|start| format!("gather {start}{}", hex(TEN)));
    ten.chain([format!("gather 0{}", hex(&[255; 8])), "gather 0".to_string()]).collect()
}

/// The field of a row.
fn row((name, about, bytes, start): &Row) -> String {
    let about = match about {
        &"" => String::new(),
        about => format!("  -- {about}\n"),
    };
    let list = Term::List(bytes.iter().map(|byte| natural(u32::from(*byte))).collect()).flat();
    let list = match bytes.is_empty() {
        true => list,
        false => format!("({list})"),
    };
    format!("{about}  pub {name} : gathered {list} {start} ≡ {}\n", gather(bytes, *start))
}

/// The module.
pub fn module() -> String {
    let rows: String = ROWS.iter().map(row).collect();
    format!("{HEAD}{rows}")
}
