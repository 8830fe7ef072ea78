//! The advance of a text that sets none: the least that keeps every change of the text within 2 units of the
//! ideal, by the tunings' own figures.

use super::compile::{compile_once, Strings};
use super::line::Fault;
use super::values::Instead;
use crate::click::{enough_for, MOST_ADVANCE};
use crate::score::Score;
use crate::timeline::Timeline;
use crate::tuning::Tuning;

/// Where the advance of a text comes from.
#[derive(Clone, Copy, Debug, PartialEq, Eq)]
pub enum Advance {
    /// The text sets it, or an option does in its place.
    Set,
    /// It is the least that is enough.
    Least,
    /// It is the greatest, since none is enough.
    Most,
}

/// The tunings that a score changes to, in their order.
pub fn changed_to(score: &Score) -> Vec<Tuning> {
    Timeline::of(score).changes.iter().map(|change| change.tuning).collect()
}

/// The least advance that is enough for every change of a score; none where one of them has none.
pub fn needed(score: &Score) -> Option<u32> {
    enough_for(score.header.order.into(), &changed_to(score))
}

/// The changes of all strings, one string after the other.
fn changes(strings: &Strings) -> Vec<Tuning> {
    strings.iter().flat_map(|(_, string)| changed_to(&string.score)).collect()
}

/// The least advance that is enough for every change of every string.
fn needed_by(strings: &Strings) -> Option<u32> {
    strings.iter().try_fold(0, |most, (_, string)| Some(needed(&string.score)?.max(most)))
}

/// Compiles a text that sets no advance. The steps of a slide may depend on the advance, and so does then what
/// is enough: each advance is tried with the changes that it makes. All strings have the same.
pub fn with_least(text: &str, instead: Instead) -> Result<Strings, Vec<Fault>> {
    let most = MOST_ADVANCE as u8;
    let at = |advance: u8| compile_once(text, Instead { advance: Some(advance), ..instead });
    let fits = |strings: &Strings| {
        let advance = strings[0].1.score.header.advance.into();
        needed_by(strings).is_some_and(|needed| needed <= advance)
    };
    let from = |strings: Strings, advance| -> Strings {
        strings.into_iter().map(|(index, string)| (index, string.with_advance(advance))).collect()
    };
    let without = at(0)?;
    let wanted = needed_by(&without).map_or(most, |needed| needed as u8);
    let alike = at(most).is_ok_and(|with| changes(&with) == changes(&without));
    let tries = if alike { wanted..=wanted } else { 0..=most };
    let found = tries.filter_map(|advance| at(advance).ok()).find(fits);
    match found {
        Some(strings) => Ok(from(strings, Advance::Least)),
        // Where changes stand too close for an advance that would be enough, the text is faulty.
        None => {
            at(wanted)?;
            Ok(from(at(most)?, Advance::Most))
        }
    }
}

#[cfg(test)]
mod tests {
    use super::super::compile_with;
    use super::*;

    fn chosen(text: &str) -> (u8, Advance) {
        let compiled = compile_with(text, Instead::default()).unwrap();
        (compiled.score.header.advance, compiled.advance)
    }

    #[test]
    fn the_least_that_keeps_every_change_within_2() {
        for (text, advance) in [
            ("tune A4\nwait 1s", 0),
            ("tune C4\njump A4\nwait 1s", 10),
            ("order 2\ntune C4\nto A4\nwait 1s", 24),
            ("order 3\ntune C4\nto A4\nwait 1s, jump C4", 39),
            ("order 3\ntune A4\nto C4\nwait 1s", 18),
            ("tune C4\njump L 9 d 2049\nwait 1s", 16),
            ("order 3\ntune A4\njump L 9 d 10388", 63),
            ("order 2\ntune A4\njump d 8192", 2),
        ] {
            assert_eq!(chosen(text), (advance, Advance::Least), "{text}");
        }
        assert_eq!(chosen("order 3\ntune A4\njump L 9 d 10387"), (64, Advance::Most));
        assert_eq!(chosen("advance 7\ntune A4\njump C4"), (7, Advance::Set));
        assert_eq!(chosen("order 9\ntune L 9 d 9\njump L 8 d 8"), (0, Advance::Least));
    }

    /// At 8,000 samples a second a slide's steps follow the advance, and one that is less would not do.
    #[test]
    fn slides_whose_steps_follow_the_advance() {
        for order in 1..=3 {
            let text = format!("rate 8000\norder {order}\ntune A3\nslide E4 over 300ms\nwait 1s");
            let (advance, from) = chosen(&text);
            let at = |advance| {
                let instead = Instead { rate: None, advance: Some(advance) };
                needed(&compile_with(&text, instead).unwrap().score)
            };
            match from {
                Advance::Least => assert!(at(advance).unwrap() <= advance.into()),
                _ => assert_eq!((order, advance), (3, 64)),
            }
            for less in 0..advance {
                assert!(at(less).is_none_or(|needed| needed > less.into()), "{order} {less}");
            }
        }
    }

    /// Steps that are too dense for what is enough are a fault, which names that advance.
    #[test]
    fn too_dense() {
        let text = "order 3\ntune C4\nslide A4 over 100 samples steps 5";
        let faults = compile_with(text, Instead::default()).unwrap_err();
        assert!(faults[0].message.contains("(the advance)"), "{faults:?}");
    }
}
