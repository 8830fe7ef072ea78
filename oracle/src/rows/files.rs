//! Rows of files: the bytes of some recordings, as a module of antt.

use super::term::{integer, natural, Term};
use super::vectors::hex;
use crate::wav::file;

/// What the module uses.
const HEAD: &str = "\
-- Rows from another implementation: whole files, byte by byte, as facts about the definitions. It printed
-- this text; proofs/FileRows.antt proves them by computation. Assumes nothing.
use Rattle.std.specs.Prelude.{◌≡◌, [], ◌∷◌, pos, negsuc}
use Rattle.riff.specs.Format.{file}

pub record FileRows : Type 0 where
";

/// A name, what the file shows, its rate and its samples.
type Recording = (&'static str, &'static str, u32, &'static [i32]);

/// The files that are theorems.
const FILES: &[Recording] = &[
    (
        "odd",
        "a pad byte, which counts in the RIFF size and not in the data size",
        44_100,
        &[-17_298],
    ),
    ("even", "no pad byte; the greatest sample and the lowest", 8_000, &[8_388_607, -8_388_607]),
];

/// These files and one without a sample, written and read, as lines of the console.
pub fn lines() -> Vec<String> {
    let silent = ("silent", "", 192_000, &[][..]);
    let line = |(_, _, rate, samples): &Recording| {
        let bytes = file(*rate, samples);
        let words: String = samples.iter().map(|sample| format!(" {sample}")).collect();
        let (room, many) = (bytes.len(), samples.len());
        [format!("wavwrite {rate} {room}{words}"), format!("wavread {many}{}", hex(&bytes))]
    };
    [silent].iter().chain(FILES).flat_map(line).collect()
}

/// The field of a row.
fn row((name, about, rate, samples): &Recording) -> String {
    let given = Term::List(samples.iter().map(|sample| integer(i128::from(*sample))).collect());
    let given = match samples.is_empty() {
        true => given.flat(),
        false => format!("({})", given.flat()),
    };
    let bytes = file(*rate, samples).iter().map(|byte| natural(u32::from(*byte))).collect();
    let bytes = Term::List(bytes).spread("  ");
    format!("  -- {about}\n  pub {name} :\n      file {rate} {given}\n      ≡{}\n", bytes)
}

/// The module.
pub fn module() -> String {
    let rows: String = FILES.iter().map(row).collect();
    format!("{HEAD}{rows}")
}
