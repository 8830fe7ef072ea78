//! Rows over scores: bytes and an output's room, with the number, the place and the samples of the run.

use super::table::{tables, Table};
use super::term::{integers, natural, naturals, Term};
use super::vectors::hex;
use crate::cases::score_fields::record_bytes;
use crate::record::{Record, AMPLITUDE, COUNT, DELAY, INSTANT, LENGTH, LOSS, SEED, WAIT};
use crate::refusal::number;
use crate::score::run;

const HEAD: &str = "\
-- Rows from another implementation of the papers: scores and what running them gives, as facts about the
-- definitions. It printed this text; proofs/ScoreRows.antt proves them by computation. Assumes nothing.
use Rattle.std.specs.Prelude.{◌≡◌, List, [], ◌∷◌, ℕ, ℤ, pos, negsuc}
use Rattle.rule.specs.State.{fresh, puts}
use Rattle.score.specs.Run.{Outcome, opening, run}

-- bytes, and the room of the output; number, place, and the samples written
pub record Row : Type 0 where
  pub bytes : List ℕ
  pub room : ℕ
  pub number : ℕ
  pub place : ℕ
  pub samples : List ℤ

-- the definitions give this, row for row
abbrev pub played : List ℕ → ℕ → Outcome → Row
played s room o = record {
  bytes = s;
  room = room;
  number = o.number;
  place = o.place;
  samples = puts (fresh (opening s)) o.calls;
}

abbrev pub given : List Row → List Row
given [] = []
given (r ∷ rs) = played r.bytes r.room (run r.bytes r.room) ∷ given rs

";

/// The header: order and Na, L, d, G.
fn header(bytes: [u8; 2], [length, delay, loss]: [u16; 3]) -> Vec<u8> {
    let numbers = [length, delay, loss].map(u16::to_le_bytes);
    [&bytes[..], &numbers.concat()].concat()
}

/// A record with these fields; bit 7 is given as a field too, whose value is left out.
fn record(fields: &[(usize, u32)]) -> Vec<u8> {
    let mut record = Record::default();
    for &(bit, value) in fields {
        record.map |= 1 << bit;
        if bit != INSTANT {
            record.fields[bit] = value;
        }
    }
    record_bytes(&record)
}

/// A score of a header and some records, with room for so many samples.
type Case = (Vec<u8>, Vec<Vec<u8>>, usize);

/// A row.
fn row((header, records, room): &Case) -> Term {
    let bytes = [header.clone(), records.concat()].concat();
    let mut output = vec![0; *room];
    let run = run(&bytes, &mut output);
    let samples: Vec<i128> = output[..run.written].iter().copied().map(i128::from).collect();
    let word = |n| Term::Words(natural(n));
    Term::Record(vec![
        ("bytes", naturals(&bytes.iter().copied().map(u32::from).collect::<Vec<u32>>())),
        ("room", word(*room as u32)),
        ("number", word(number(&run.answer))),
        ("place", word(run.place)),
        ("samples", integers(&samples)),
    ])
}

/// A table of these scores.
fn table(name: &'static str, about: &'static str, cases: &[Case]) -> Table {
    Table { name, about, rows: cases.iter().map(row).collect() }
}

/// A header that opens a voice of order 1 with Na 2, L 3.
fn plain() -> Vec<u8> {
    header([1, 2], [3, 4_000, 60_000])
}

/// A pluck of two samples, and a wait.
fn sounding(wait: u32) -> Vec<Vec<u8>> {
    vec![record(&[(AMPLITUDE, 9), (COUNT, 2)]), record(&[(WAIT, wait)])]
}

/// The header's fields, each heard; a score without records, and the output filled exactly.
fn headers() -> Vec<Case> {
    let heard = |bytes, numbers| (header(bytes, numbers), sounding(9), 9);
    vec![
        heard([1, 0], [3, 4_000, 60_000]),
        heard([2, 0], [3, 6_500, 60_000]),
        heard([3, 0], [3, 10_500, 60_000]),
        heard([1, 0], [2, 4_000, 60_000]),
        heard([1, 0], [3, 5_000, 60_000]),
        heard([1, 0], [3, 4_000, 9_000]),
        (plain(), vec![], 3),
    ]
}

/// The header refused: cut at each byte, then by each of Open's numbers that bytes can meet.
fn unopened() -> Vec<Case> {
    let cut = (0..8).map(|many| (plain()[..many].to_vec(), vec![], 1));
    let refused = [
        ([0, 65], [0, 0, 0]),
        ([4, 64], [1, 4_096, 0]),
        ([1, 64], [0, 0, 0]),
        ([1, 64], [2_049, 4_096, 0]),
        ([1, 65], [1, 2_048, 0]),
        ([1, 0], [1, 6_145, 0]),
        ([2, 0], [1, 6_144, 0]),
        ([2, 0], [1, 10_241, 0]),
        ([2, 65], [2_048, 10_240, 65_535]),
        ([3, 0], [1, 10_240, 0]),
        ([3, 0], [1, 14_337, 0]),
    ];
    cut.chain(refused.map(|(bytes, numbers)| (header(bytes, numbers), sounding(1), 1))).collect()
}

/// A score that sounds, makes this record, and sounds on.
fn after(fields: &[(usize, u32)], wait: u32) -> Case {
    let records = [sounding(4), vec![record(fields), record(&[(WAIT, wait)])]].concat();
    (plain(), records, 4 + wait as usize)
}

/// Each field absent and present: a change of L alone, of d alone, of both, announced and instant; the
/// loss; a pluck with its count, the seed given or not, and one in place of another.
fn fields() -> Vec<Case> {
    vec![
        after(&[], 5),
        after(&[(LENGTH, 2)], 7),
        after(&[(DELAY, 5_000)], 7),
        after(&[(LENGTH, 2), (DELAY, 5_000)], 7),
        after(&[(LENGTH, 2), (INSTANT, 0)], 5),
        after(&[(DELAY, 5_000), (INSTANT, 0)], 5),
        after(&[(LENGTH, 2), (DELAY, 5_000), (INSTANT, 0)], 5),
        after(&[(LOSS, 20_000)], 5),
        after(&[(AMPLITUDE, 7), (COUNT, 3)], 6),
        after(&[(AMPLITUDE, 7), (COUNT, 1)], 6),
        after(&[(AMPLITUDE, 7), (COUNT, 2), (SEED, 9)], 6),
        after(&[(LENGTH, 5), (AMPLITUDE, 7), (COUNT, 3), (SEED, 65_535)], 7),
        after(&[(LENGTH, 1), (INSTANT, 0), (AMPLITUDE, 7), (COUNT, 1)], 5),
        (
            plain(),
            vec![
                record(&[(AMPLITUDE, 9), (COUNT, 4)]),
                record(&[(WAIT, 1), (AMPLITUDE, 0), (COUNT, 3)]),
            ],
            9,
        ),
        after(&[(WAIT, 2), (LOSS, 1), (LENGTH, 4), (AMPLITUDE, 255), (COUNT, 1), (SEED, 3)], 3),
    ]
}

/// A pluck of a voice that is opened with this L, at G 0, so that nothing goes round and each of its samples is
/// heard once; then at once L 1, by which the first is heard after two samples, and a wait that passes the last.
fn plucked(length: u16, count: &[(usize, u32)], wait: u32) -> Case {
    let pluck = record(&[&[(AMPLITUDE, 1)], count].concat());
    let nearer = record(&[(LENGTH, 1), (INSTANT, 0)]);
    let records = vec![pluck, nearer, record(&[(WAIT, wait)])];
    (header([1, 0], [length, 4_096, 0]), records, wait as usize)
}

/// "It shall mean 100 samples" (document 02, L2): an absent count, and a given one, at the least L, at L 100, and
/// at the greatest.
fn counts() -> Vec<Case> {
    let lengths = [1, 100, 2_048];
    lengths.iter().flat_map(|&l| [plucked(l, &[], 104), plucked(l, &[(COUNT, 2)], 6)]).collect()
}

/// Each refusal of a record, with its place and what was written before it; and the tests' order.
fn refused() -> Vec<Case> {
    let mut cut = after(&[(WAIT, 1), (SEED, 1)], 0);
    cut.1.truncate(3);
    cut.1[2].pop();
    let full =
        |room| (plain(), [sounding(4), vec![record(&[(WAIT, 2), (LENGTH, 0)])]].concat(), room);
    let waiting = [(LENGTH, 2), (DELAY, 4_096)];
    let again = |wait, change: &[(usize, u32)]| {
        let more = [&[(WAIT, wait)], change].concat();
        (plain(), [sounding(4), vec![record(&waiting), record(&more)]].concat(), 9)
    };
    vec![
        cut,
        after(&[(WAIT, 9), (COUNT, 1)], 3),
        after(&[(WAIT, 1), (SEED, 1)], 3),
        after(&[(WAIT, 1), (INSTANT, 0)], 3),
        full(5),
        full(6),
        after(&[(WAIT, 1), (LENGTH, 2_049), (DELAY, 0)], 3),
        after(&[(WAIT, 1), (DELAY, 6_145), (AMPLITUDE, 256), (COUNT, 3)], 3),
        again(1, &[(LENGTH, 2)]),
        again(1, &[(DELAY, 4_096), (INSTANT, 0)]),
        again(2, &[(LENGTH, 3)]),
        after(&[(WAIT, 1), (AMPLITUDE, 256), (COUNT, 0)], 3),
        after(&[(WAIT, 1), (AMPLITUDE, 255), (COUNT, 0)], 3),
        after(&[(WAIT, 1), (AMPLITUDE, 255), (COUNT, 2_049)], 3),
    ]
}

/// The rows that are theorems: the header cut, and alone; a wait that does not fit and one that does; an absent count
/// at the greatest L; every field; a change while one waits.
fn limits() -> Vec<Case> {
    let (unopened, mut headers, mut fields) = (unopened(), headers(), fields());
    let refused = refused();
    let whole = headers.pop().expect("a score without records");
    let every = fields.pop().expect("a score with every field");
    let [cut, full, fits, again] = [&unopened[7], &refused[4], &refused[5], &refused[8]];
    let some = [cut, full, fits, again].map(Case::clone).to_vec();
    [some, vec![whole, every, plucked(2_048, &[], 104)]].concat()
}

/// All rows, as lines of the console.
pub fn lines() -> Vec<String> {
    let all = [headers(), unopened(), fields(), counts(), refused()].concat();
    let line = |(header, records, room): &Case| {
        format!("run {room}{}", hex(&[header.clone(), records.concat()].concat()))
    };
    all.iter().map(line).collect()
}

/// The module `ScoreRows`.
pub fn module() -> String {
    let about = "the header cut, and alone; 16 on both sides; 6; every field; an absent count";
    format!("{HEAD}{}", tables("ScoreRows", &[table("limits", about, &limits())]))
}
