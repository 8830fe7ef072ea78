//! A page for buyers: the same slide without and with an advance, to hear and to see, and the promise. One
//! file, which fetches nothing.

pub mod base64;
mod promise;

use crate::click::figure;
use crate::failure::{Failure, Outcome};
use crate::number::{decibels, grouped};
use crate::plot::{draw, Take};
use crate::refusal::message;
use crate::take::FULL_SCALE;
use crate::text::{Instead, QUIET};
use crate::tune::Tune;
use crate::tuning::ORDERS;
use jivaszte::wav_file;
use promise::PROMISES;
use std::fmt::Write;
use std::path::Path;

pub const SLIDE: &str = include_str!("../../../demos/slide.txt");
pub const FIGURE: &str = include_str!("../../../demos/figure8.txt");
const PAGE: &str = include_str!("page.html");
/// The advances that are shown beside each other, and those of the table.
pub const BESIDE: [u8; 2] = [0, 24];
const ADVANCES: [u32; 7] = [0, 8, 16, 24, 32, 48, 64];

/// A tune with each of the two advances.
fn takes(name: &str, text: &str, click: bool) -> Outcome<Vec<Take>> {
    let take = |advance: u8| {
        let instead = Instead { rate: None, advance: Some(advance) };
        let tune = Tune::of_text(Path::new(name), text.as_bytes().to_vec(), instead)?;
        Take::of(name, &tune, click)
    };
    BESIDE.into_iter().map(take).collect()
}

/// A take as sound in the page itself.
fn sound(take: &Take) -> Outcome<String> {
    let file = wav_file(take.rate, &take.samples);
    let file = file.map_err(|refusal| Failure::input(message(refusal)))?;
    Ok(format!("data:audio/wav;base64,{}", base64::encode(&file)))
}

/// What the advance buys in each order.
fn table() -> String {
    let mut rows = String::from(
        "<div class=\"wide\"><table>\n<caption>Greatest distance of the first sample after a change</caption>\n\
         <tr><th scope=\"col\" rowspan=\"2\">Na</th>",
    );
    for order in ORDERS {
        let _ = write!(rows, "<th scope=\"colgroup\" colspan=\"2\">order {order}</th>");
    }
    rows += "</tr>\n<tr>";
    for _ in ORDERS {
        rows += "<th scope=\"col\">units</th><th scope=\"col\">level</th>";
    }
    for advance in ADVANCES {
        let _ = write!(rows, "</tr>\n<tr><th scope=\"row\">{advance}</th>");
        for order in ORDERS {
            let units = figure(order, advance);
            let level = decibels(units.into(), FULL_SCALE.into());
            let level = format!("{level:.1} dB").replace('-', "−");
            let _ = write!(rows, "<td>{}</td><td>{level}</td>", grouped(units.into()));
        }
    }
    rows + "</tr>\n</table></div>"
}

fn promises() -> String {
    let mut items = String::new();
    for promise in &PROMISES {
        let _ = writeln!(
            items,
            "<li>{}<small>Theorem <code>{}</code> in <code>{}</code>; \
             it states <code>{}</code> of <code>{}</code>.</small></li>",
            promise.words, promise.theorem, promise.proof, promise.states, promise.statement
        );
    }
    items
}

/// The page.
pub fn page() -> Outcome<String> {
    let (slides, figures) =
        (takes("slide.txt", SLIDE, true)?, takes("figure8.txt", FIGURE, false)?);
    let [without, with] = [sound(&slides[0])?, sound(&slides[1])?];
    let steps = slides[0].timeline.changes.len().to_string();
    let parts = [
        ("{{STEPS}}", steps.as_str()),
        ("{{QUIET}}", &QUIET.to_string().replace('-', "−")),
        ("{{FIGURE}}", &draw(&figures).inline()),
        ("{{SLIDE}}", &draw(&slides).inline()),
        ("{{TABLE}}", &table()),
        ("{{PROMISES}}", &promises()),
        ("{{VERSION}}", jivaszte::VERSION),
        ("{{WITHOUT}}", &without),
        ("{{WITH}}", &with),
    ];
    Ok(parts.iter().fold(PAGE.to_string(), |page, (place, part)| page.replace(place, part)))
}
