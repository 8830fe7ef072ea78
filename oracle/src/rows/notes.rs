//! Rows over notes: order, rate and note, with the number, L and d that come back.

use super::table::{tables, Table};
use super::term::{numbers, Term};
use crate::note::note;
use crate::refusal::number;

const HEAD: &str = "\
-- Rows from another implementation of document 01: notes and what comes back for them, as facts about the
-- definitions. It printed this text; proofs/NoteRows.antt proves them by computation. Assumes nothing.
use Rattle.std.specs.Prelude.{◌≡◌, List, [], ◌∷◌, ℕ}
use Rattle.pitch.specs.Pitch.{pitch}

-- what is asked, and what it gives
pub record Row : Type 0 where
  pub N : ℕ
  pub fs : ℕ
  pub m : ℕ
  pub number : ℕ
  pub L : ℕ
  pub d : ℕ

-- the definitions give this, row for row
abbrev pub row : Row → Row
row r =
    let p = pitch r.N r.fs r.m in
    record { N = r.N; fs = r.fs; m = r.m; number = p.refusal; L = p.length; d = p.delay }

abbrev pub given : List Row → List Row
given [] = []
given (r ∷ rs) = row r ∷ given rs

";

/// What is asked: order, rate, note.
type Asked = (u32, u32, u32);

/// A row.
fn row(&(order, rate, m): &Asked) -> Term {
    let (answer, [length, delay]) = note(order, rate, m);
    let values = [order, rate, m, number(&answer), length as u32, delay as u32];
    numbers(["N", "fs", "m", "number", "L", "d"], values)
}

/// What comes back: the number, L and d.
type Given = (u32, i128, i128);

/// The first two neighbouring rates between which a note turns from the one to the other.
fn turn(
    order: u32,
    m: u32,
    from: impl Fn(Given) -> bool,
    to: impl Fn(Given) -> bool,
) -> [Asked; 2] {
    let given = |rate| {
        let (answer, [length, delay]) = note(order, rate, m);
        (number(&answer), length, delay)
    };
    let turns = |rate: &u32| from(given(*rate)) && to(given(rate + 1));
    let rate = (8_000..192_000).find(turns).expect("rates between which it turns");
    [(order, rate, m), (order, rate + 1, m)]
}

/// Twelve notes, one of each place in the octave, over all octaves.
const PLACES: [u32; 12] = [0, 13, 26, 39, 52, 65, 70, 71, 78, 91, 104, 117];

/// Those notes in each order.
fn places(rate: u32) -> Vec<Asked> {
    PLACES.into_iter().flat_map(|m| [1, 2, 3].map(|order| (order, rate, m))).collect()
}

/// "13 L outside 1 to 2,048": where L leaves 2,048 and where it comes to 1; L below zero at last.
fn lengths() -> Vec<Asked> {
    let refused = |(number, _, _)| number == 13;
    let most = [1, 2, 3].map(|order| turn(order, 10, |(_, length, _)| length == 2_048, refused));
    let least = [1, 2, 3].map(|order| turn(order, 120, refused, |(_, length, _)| length == 1));
    let below = [(1, 8_000, 127), (2, 8_000, 127), (3, 8_000, 127)];
    [most.concat(), least.concat(), below.to_vec()].concat()
}

/// "d in the order's range": where d goes from its greatest to its least.
fn delays() -> Vec<Asked> {
    let turns = |(order, least, most)| {
        turn(order, 119, move |(_, _, delay)| delay == most, move |(_, _, delay)| delay == least)
    };
    [(1, 2_049, 6_144), (2, 6_145, 10_240), (3, 10_241, 14_336)].map(turns).concat()
}

/// A table of these notes.
fn table(name: &'static str, about: &'static str, asked: &[Asked]) -> Table {
    Table { name, about, rows: asked.iter().map(row).collect() }
}

/// Orders on both sides of the limits, whatever rate and note are.
const ORDERS: &[Asked] = &[
    (0, 7_999, 128),
    (0, 44_100, 69),
    (1, 44_100, 69),
    (2, 44_100, 69),
    (3, 44_100, 69),
    (4, 44_100, 69),
    (4, 0, 128),
    (4_294_967_295, 8_000, 0),
];

/// Rates on both sides of the limits, whatever the note is.
const RATES: &[Asked] = &[
    (1, 0, 128),
    (1, 7_999, 60),
    (2, 7_999, 128),
    (3, 0, 128),
    (1, 8_000, 60),
    (2, 8_000, 60),
    (1, 192_000, 60),
    (2, 192_000, 60),
    (1, 192_001, 60),
    (2, 192_001, 128),
    (3, 8_000, 60),
    (3, 192_000, 60),
    (1, 4_294_967_295, 0),
];

/// Notes on both sides of the limit.
const NOTES: &[Asked] = &[
    (1, 8_000, 0),
    (2, 8_000, 0),
    (1, 192_000, 127),
    (2, 192_000, 127),
    (1, 192_000, 128),
    (2, 8_000, 128),
    (3, 192_000, 127),
    (3, 8_000, 128),
    (1, 44_100, 4_294_967_295),
];

/// Both sides of each limit, and a note of order 3: the rows that are theorems.
fn limits() -> Vec<Asked> {
    let sides = [
        (3, 44_100, 69),
        (1, 7_999, 60),
        (1, 8_000, 60),
        (1, 192_001, 60),
        (1, 192_000, 127),
        (1, 192_000, 128),
    ];
    let refused = |(number, _, _)| number == 13;
    let most = turn(1, 10, |(_, length, _)| length == 2_048, refused);
    let least = turn(1, 120, refused, |(_, length, _)| length == 1);
    [sides.to_vec(), most.to_vec(), least.to_vec()].concat()
}

/// All rows, as lines of the console.
pub fn lines() -> Vec<String> {
    let (rates, higher) = (places(11_025), places(96_000));
    let (lengths, delays, limits) = (lengths(), delays(), limits());
    let all = [ORDERS, RATES, NOTES, &rates, &higher, &lengths, &delays, &limits].concat();
    all.iter().map(|(order, rate, m)| format!("note {order} {rate} {m}")).collect()
}

/// The module `NoteRows`.
pub fn module() -> String {
    let about = "both sides of each limit, and a note of order 3";
    format!("{HEAD}{}", tables("NoteRows", &[table("limits", about, &limits())]))
}
