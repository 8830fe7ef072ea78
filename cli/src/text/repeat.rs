//! The lines of a text in the order in which they are done: what stands between `repeat 4` and `end` is done
//! four times.

use super::band::Band;
use super::line::{Fault, Line, Spot};
use super::values;
use crate::number::grouped;

/// Lines are done at most so often, all together.
const MOST_LINES: u64 = 1 << 22;

/// A `repeat` that is not ended yet: the line after it, how often it is still to be done, and its place.
struct Open {
    first: usize,
    left: u64,
    spot: Spot,
}

/// Does the lines of a text; gives all that is wrong with them. What is wrong is not repeated.
pub fn lines(text: &str, band: &mut Band) -> Vec<Fault> {
    let lines: Vec<&str> = text.lines().collect();
    let (mut open, mut faults): (Vec<Open>, Vec<Fault>) = (Vec::new(), Vec::new());
    let (mut at, mut done) = (0, 0);
    while let Some(text) = lines.get(at) {
        let mut line = Line::new(at + 1, text);
        let spot = line.spot();
        at += 1;
        done += 1;
        if done > MOST_LINES {
            let most = grouped(MOST_LINES);
            return vec![Fault::new(
                spot,
                format!("with what is repeated, a text has at most {most} lines"),
            )];
        }
        let word = line.accept(&["repeat", "end"]).map(|word| word.text);
        let result = match word {
            Some("repeat") => {
                let times = times(&mut line, band.is_open());
                let left = *times.as_ref().unwrap_or(&1) - 1;
                open.push(Open { first: at, left, spot });
                times.map(|_| ())
            }
            Some(_) => match open.pop() {
                Some(Open { first, left: left @ 1.., spot }) if faults.is_empty() => {
                    at = first;
                    open.push(Open { first, left: left - 1, spot });
                    line.finish()
                }
                Some(_) => line.finish(),
                None => Err(Fault::new(spot, "no `repeat` stands before this `end`")),
            },
            None => band.line(line),
        };
        faults.extend(result.err());
    }
    let unended = |open: &Open| Fault::new(open.spot, "no `end` stands after this `repeat`");
    faults.extend(open.iter().map(unended));
    faults
}

/// The number of a line `repeat 4`, among the events.
fn times(line: &mut Line, opened: bool) -> Result<u64, Fault> {
    let spot = line.spot();
    let times = values::whole(line, "a number of times", "1 to 65535", 65_535)?;
    line.finish()?;
    match (times, opened) {
        (0, _) => Err(Fault::new(spot, "`0` is not a number of times, 1 to 65535")),
        (_, false) => {
            Err(Fault::new(spot, "a line `tune A4` must stand before the first `repeat`"))
        }
        _ => Ok(times),
    }
}
