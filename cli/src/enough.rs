//! Whether the advance of a score is enough, in words.

use crate::click::{enough_for, own_figure, WITHIN};
use crate::failure::Outcome;
use crate::number::grouped;
use crate::text::{changed_to, Advance};
use crate::tune::Tune;

/// The advance of a score: how far its changes can then be from the ideal, and which one is enough.
pub fn words(tune: &Tune) -> Outcome<String> {
    let score = tune.score()?;
    let (order, advance) = (u32::from(score.header.order), u32::from(score.header.advance));
    let tunings = changed_to(&score);
    let far =
        tunings.iter().filter_map(|to| own_figure(order, to.delay.into(), advance).ok()).max();
    let far = far.unwrap_or(0);
    Ok(match (tune.advance(), enough_for(order, &tunings)) {
        _ if tunings.is_empty() => format!("advance {advance}: nothing changes"),
        (Advance::Least, _) => {
            format!("advance {advance}, the least that keeps every change within {WITHIN} units of the ideal")
        }
        (Advance::Most, _) | (Advance::Set, None) if far > WITHIN => format!(
            "advance {advance}: a change can be {} units from the ideal, and no advance keeps all within {WITHIN}",
            grouped(far.into())
        ),
        (_, Some(least)) if far > WITHIN => format!(
            "advance {advance}: a change can be {} units from the ideal; {least} keeps every one within {WITHIN}",
            grouped(far.into())
        ),
        (_, least) => {
            let less = least.filter(|&least| least < advance);
            let also = less.map_or(String::new(), |least| format!("; {least} is enough"));
            format!("advance {advance}: every change is within {WITHIN} units of the ideal{also}")
        }
    })
}
