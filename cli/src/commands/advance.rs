//! `advance`: what each advance buys, by the sheet's figure and by the tuning's own, and the proved least.

use super::advance_json;
use crate::arguments::Arguments;
use crate::click::{best_advance, figure, greatest_own_figure, least_advance, own_figure};
use crate::click::{samples_to_best, MOST_ADVANCE, WITHIN};
use crate::enough;
use crate::failure::{Failure, Outcome};
use crate::files::{self, print};
use crate::number::{decibels, grouped};
use crate::pitch::Pitch;
use crate::refusal::message;
use crate::take::FULL_SCALE;
use crate::tune::Tune;
use crate::tuning::{delays, Tuning, ORDERS};
use std::collections::HashSet;
use std::fmt::Write;

/// What the response of the effective length starts from.
const IMPULSE: u32 = 1_000_000;
/// A click below this is smaller than the step of a 16-bit recording.
const SIXTEEN_BITS: f64 = -96.0;

pub fn run(arguments: &Arguments) -> Outcome {
    if arguments.table() {
        return print(&table());
    }
    let order = arguments.order()?;
    if !arguments.words.is_empty() {
        return match order {
            None => print(&of_score(arguments)?),
            Some(_) => Err(Failure::call("advance takes a score or -n ORDER, not both")),
        };
    }
    let order = order.ok_or_else(|| Failure::call("advance needs a score, or -n ORDER"))?;
    let delay = arguments.delay(delays(order))?;
    if arguments.json() {
        return print(&advance_json::json(order, delay));
    }
    let parts = [figures(order, delay), lengths(order, delay), advice(order, delay)];
    print(&parts.join("\n"))
}

fn level(units: u32) -> f64 {
    decibels(units.into(), FULL_SCALE.into())
}

/// The own figure of a delay, or the greatest of the order's delays.
fn own(order: u32, delay: Option<u32>, advance: u32) -> u32 {
    let greatest = || greatest_own_figure(order, advance);
    delay.map_or_else(greatest, |delay| own_figure(order, delay, advance).unwrap_or_default())
}

/// Both figures of each advance at which they change.
fn figures(order: u32, delay: Option<u32>) -> String {
    let which = match delay {
        Some(delay) => format!("d {delay}'s own"),
        None => String::from("the worst delay's own"),
    };
    let mut text = format!(
        "Order {order}: the most by which the first sample after a change can differ from the ideal\n\
         filter's, proved for every score: by the sheet's figure, which holds of every delay, and by\n\
         {which} (docs/CLICK.md). Each falls further with every {} after it.\n\n\
         {:>4} {:>12} {:>9} {:>12} {:>9}\n",
        if order == 1 { String::from("sample") } else { format!("{order} samples") },
        "Na",
        "sheet",
        "dB",
        "own",
        "dB"
    );
    let best = best_advance(order);
    for advance in (0..=best).filter(|advance| advance % order == 0 || *advance == best) {
        let (sheet, own) = (figure(order, advance), own(order, delay, advance));
        let _ = writeln!(
            text,
            "{advance:>4} {:>12} {:>9.1} {:>12} {:>9.1}",
            grouped(sheet.into()),
            level(sheet),
            grouped(own.into()),
            level(own)
        );
    }
    text
}

/// The effective lengths at some thresholds, of a delay or the longest of the order's delays.
fn lengths(order: u32, delay: Option<u32>) -> String {
    let (which, range) = match delay {
        Some(delay) => (format!("d {delay}"), delay..=delay),
        None => (String::from("the worst of the order's delays"), delays(order)),
    };
    let mut text = format!(
        "Effective length of the eliminator's response at a level, for {which}, in samples\n\n"
    );
    for threshold in [100_000, 10_000, 1_000, 100, 10, 1] {
        let lengths = range.clone().map(|d| jivaszte::effective_length(order, d, threshold));
        let longest = lengths.flatten().max().unwrap_or_default();
        let level = decibels(threshold.into(), IMPULSE.into());
        let _ = writeln!(text, "{level:>5.0} dB {longest:>3}");
    }
    text
}

/// Which advance to take.
fn advice(order: u32, delay: Option<u32>) -> String {
    let least = match delay {
        Some(delay) => least_advance(order, delay).unwrap_or_default(),
        None => delays(order)
            .try_fold(0, |most, delay| Some(least_advance(order, delay).ok()??.max(most))),
    };
    let whose =
        delay.map_or(String::from("every delay of the order"), |delay| format!("d {delay}"));
    let mut text = match least {
        Some(least) => format!(
            "Take Na {least}, the least that keeps a change to {whose} within {WITHIN} units; more buys nothing.\n"
        ),
        None => format!(
            "Take Na {MOST_ADVANCE}, the most there is: no advance keeps a change to {whose} within {WITHIN} units.\n"
        ),
    };
    let best = best_advance(order);
    text += &match samples_to_best(order, best) {
        0 => format!("The sheet's figure is {WITHIN} from Na {best} on.\n"),
        samples => {
            format!("The sheet's figure with Na {best} is {WITHIN} from {samples} samples after a change on.\n")
        }
    };
    let quiet =
        (0..=MOST_ADVANCE).find(|&advance| level(own(order, delay, advance)) < SIXTEEN_BITS);
    if let Some(quiet) = quiet {
        let _ =
            writeln!(text, "From Na {quiet} on a click is below the step of a 16-bit recording.");
    }
    text
}

/// For all tunings that a score changes to: both figures with the score's advance, and the least.
fn of_score(arguments: &Arguments) -> Outcome<String> {
    let file = arguments.file("advance", "a score")?;
    let tune = Tune::load(file, arguments.instead()?)?;
    tune.run()?;
    let score = tune.score()?;
    let (order, advance) = (score.header.order.into(), score.header.advance.into());
    let mut text =
        format!("{}: order {order}, {}\n", files::input_name(file), enough::words(&tune)?);
    let mut seen = HashSet::new();
    let tunings = crate::text::changed_to(&score);
    let rows: Vec<Tuning> = tunings.into_iter().filter(|tuning| seen.insert(*tuning)).collect();
    if rows.is_empty() {
        return Ok(text);
    }
    let _ = writeln!(
        text,
        "\n{:>5} {:>6} {:>10} {:>12} {:>12} {:>9}",
        "L", "d", "note", "sheet", "own", "least Na"
    );
    for tuning in rows {
        let delay = tuning.delay.into();
        let refused = |refusal| Failure::input(message(refusal));
        let own = own_figure(order, delay, advance).map_err(refused)?;
        let least = least_advance(order, delay).map_err(refused)?;
        let _ = writeln!(
            text,
            "{:>5} {delay:>6} {:>10} {:>12} {:>12} {:>9}",
            tuning.length,
            note(tuning, tune.rate),
            grouped(figure(order, advance).into()),
            grouped(own.into()),
            least.map_or(String::from("none"), |least| least.to_string())
        );
    }
    Ok(text)
}

/// The nearest note, with tenths of a cent.
fn note(tuning: Tuning, rate: u32) -> String {
    match Pitch::nearest(tuning.hertz(rate)) {
        Some(Pitch::Note { note, cents }) => {
            Pitch::Note { note, cents: (10.0 * cents).round() / 10.0 }.to_string()
        }
        _ => String::new(),
    }
}

/// The least advances by order, over all delays, as docs/CLICK.md has them.
fn table() -> String {
    let mut rows = [
        String::from("| within 2 at once |"),
        String::from("|---|"),
        String::from("| least |"),
        String::from("| median |"),
        String::from("| greatest |"),
        String::from("| delays with none |"),
        String::from("| by the sheet's figure |"),
    ];
    for order in ORDERS {
        let least = delays(order).filter_map(|delay| least_advance(order, delay).ok());
        let mut found: Vec<u32> = least.flatten().collect();
        found.sort_unstable();
        let all = delays(order).count();
        let of = |place: usize| found.get(place).map_or(String::from("none"), u32::to_string);
        let sheet = (0..=MOST_ADVANCE).find(|&advance| figure(order, advance) <= WITHIN);
        let cells = [
            format!("order {order}"),
            String::from("---:"),
            of(0),
            of((all - 1) / 2),
            of(found.len().saturating_sub(1)),
            format!("{} of {}", grouped((all - found.len()) as u64), grouped(all as u64)),
            sheet.map_or(String::from("none"), |advance| advance.to_string()),
        ];
        for (row, cell) in rows.iter_mut().zip(cells) {
            let _ = if cell.starts_with("---") {
                write!(row, "{cell}|")
            } else {
                write!(row, " {cell} |")
            };
        }
    }
    rows.join("\n") + "\n"
}

#[cfg(test)]
mod tests {
    use super::*;

    #[test]
    fn the_table_is_the_documents() {
        let document = include_str!("../../../docs/CLICK.md");
        assert!(document.contains(&table()), "{}", table());
    }
}
