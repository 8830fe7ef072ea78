//! Rows over voices: lists of calls with all that they give.

use super::answers::{open, opening, Answers, Opening};
use super::head::HEAD;
use super::lists::{List, OPENINGS};
use super::term::{bracketed, integer, integers, natural, naturals, numbers, Term};
use super::{lists, orders};
use crate::call::Call;
use crate::tuning::Tuning;
use crate::voice::{Kind, Voice};

/// The record of an opening.
fn opening_term(opening: Opening) -> Term {
    numbers(["N", "L", "d", "G", "Na"], opening)
}

/// What a change names.
fn tuning_text(Tuning { order, length, delay }: Tuning) -> String {
    format!("(tuning {order} {length} {delay})")
}

/// A call.
fn call_text(call: &Call) -> String {
    match call {
        Call::Loss { loss } => format!("loss {loss}"),
        Call::Pluck { amplitude, count, seed } => format!("pluck {amplitude} {count} {seed}"),
        Call::Announced { to } => format!("announce {}", tuning_text(*to)),
        Call::Instant { to } => format!("instant {}", tuning_text(*to)),
        Call::Asked { to } => format!("ask {}", tuning_text(*to)),
        Call::Commit => "commit".to_string(),
        Call::Withdraw => "withdraw".to_string(),
        Call::Block { input, places } if input.is_empty() => format!("block [] {places}"),
        Call::Block { input, places } => {
            let input: Vec<i128> = input.iter().copied().map(i128::from).collect();
            format!("block ({}) {places}", integers(&input).flat())
        }
    }
}

/// The record of N, L and d.
fn tuning_term(Tuning { order, length, delay }: Tuning) -> Term {
    numbers(["N", "L", "d"], [order, length, delay])
}

/// How a change waits.
fn kind_term(kind: Kind) -> Term {
    Term::Words(if kind == Kind::Asked { "asked" } else { "announced" }.to_string())
}

/// Every part of the voice but its line; "the rest of a pluck" is all 0 where no step is left, and
/// the samples that a waiting change took are counted up to Na.
fn voice_term(voice: &Voice) -> Term {
    let waiting = match &voice.waiting {
        None => Term::Words("none".to_string()),
        Some(change) => Term::Some(Box::new(Term::Record(vec![
            ("kind", kind_term(change.kind)),
            ("tuning", tuning_term(change.tuning)),
            ("taken", Term::Words(natural(change.counted(voice.advance)))),
            ("state", integers(change.eliminator.state())),
        ]))),
    };
    let pluck = match voice.pluck.left {
        0 => [0; 3],
        left => [voice.pluck.amplitude, left, voice.pluck.noise],
    };
    Term::Record(vec![
        ("tuning", tuning_term(voice.tuning)),
        ("G", Term::Words(natural(voice.loss))),
        ("Na", Term::Words(natural(voice.advance))),
        ("state", integers(voice.filter.state())),
        ("last", Term::Words(integer(voice.last_output()))),
        ("waiting", waiting),
        ("pluck", numbers(["amplitude", "left", "noise"], pluck)),
    ])
}

/// The field of a row: its opening, its calls and what they give.
fn row(list: &List) -> String {
    let answers = Answers::to(list);
    let about: String = list.about.iter().map(|line| format!("  -- {line}\n")).collect();
    let opening = opening_term(answers.opening).flat();
    let calls = bracketed(answers.calls.iter().map(call_text));
    let given = Term::Record(vec![
        ("opening", Term::Words(natural(answers.opened))),
        ("numbers", naturals(&answers.numbers)),
        ("counts", naturals(&answers.counts)),
        ("outputs", integers(&answers.outputs)),
        ("voice", voice_term(&answers.voice)),
        ("line", integers(&answers.line())),
    ]);
    let (name, given) = (list.name, given.spread("      "));
    format!("{about}  pub {name} :\n      Row ({opening})\n      {calls}\n      ({given})\n")
}

/// The field of the openings with the numbers that Open returns.
fn openings() -> String {
    let openings: Vec<Opening> = OPENINGS.iter().map(|words| opening(words)).collect();
    let terms = bracketed(openings.iter().map(|opening| opening_term(*opening).flat()));
    let given: Vec<u32> = openings.iter().map(|opening| open(*opening).1).collect();
    let about =
        "  -- what Open returns on both sides of each limit, and where several are passed\n";
    format!(
        "{about}  pub openings :\n      opens\n      {terms}\n      ≡ {}\n",
        naturals(&given).flat()
    )
}

/// The lists of the rows.
pub fn lists() -> impl Iterator<Item = &'static List> {
    orders::LISTS.iter().chain(lists::LISTS)
}

/// The lists that are theorems: each call, with both sides of its limits, and each notion of the voice.
const PROVED: &[&str] = &[
    "orders-announced",
    "orders-asked",
    "orders-refused",
    "clips",
    "early",
    "at_once",
    "plucks",
    "refused1",
];

/// All openings and lists, as lines of the console, with the voice and the line that each leaves.
pub fn lines() -> Vec<String> {
    let opened = OPENINGS.iter().flat_map(|words| [format!("open {words}"), "state".to_string()]);
    let called = lists().flat_map(|list| {
        let line = Answers::to(list).line().len();
        let calls = list.calls.replace(';', "\n");
        [format!("open {}\n{calls}\nstate\nline {line}", list.open)]
    });
    opened.chain(called).collect()
}

/// The module `Rows`.
pub fn module() -> String {
    let rows: String = lists().filter(|list| PROVED.contains(&list.name)).map(row).collect();
    format!("{HEAD}{}{rows}", openings())
}
