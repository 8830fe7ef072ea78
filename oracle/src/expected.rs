//! What the console says of a line that is no command, and in answer to `help`.

use crate::command::{
    FILE_LIMIT, LINE_BYTES, LINE_LIMIT, MERGE_LIMIT, READ_LIMIT, RUN_LIMIT, STORE_LIMIT,
};
use crate::spelling::{words, BLOCK_LIMIT};

/// Each call, in the order of docs/CONSOLE.md, with what follows its name.
fn calls() -> Vec<(&'static str, String)> {
    let plain = [
        ("open", "N L D G NA"),
        ("loss", "G"),
        ("pluck", "A COUNT SEED"),
        ("announce", "N L D"),
        ("instant", "N L D"),
        ("ask", "N L D"),
        ("commit", "nothing"),
        ("withdraw", "nothing"),
        ("block", "OUT X1 X2 .. (at most BLOCK each)"),
        ("coefficients", "N D"),
        ("length", "N D THRESHOLD"),
        ("note", "N RATE M"),
        ("draw", "STATE"),
        ("record", "B1 B2 .."),
        ("run", "OUT B1 B2 .. (OUT at most RUN)"),
        ("state", "nothing"),
        ("line", "K (at most LINE)"),
        ("wavwrite", "RATE ROOM X1 X2 .. (ROOM at most FILE, X BLOCK)"),
        ("wavread", "ROOM B1 B2 .. (ROOM at most READ)"),
        ("gather", "START B1 B2 .."),
        ("least", "N D WANTED"),
        ("junction", "LEFT RIGHT D NA"),
        ("move", "D"),
        ("tube", "A B"),
        ("store", "ROOM (at most STORE)"),
        ("load", "B1 B2 .."),
        ("panel", "B1 B2 .."),
        ("merge", "ROOM B1 .. / C1 .. (ROOM at most MERGE)"),
        ("string", "K CALL .. (a call of a voice but block)"),
        ("mix", "OUT X1 X2 .. (at most BLOCK each)"),
        ("help", "nothing"),
    ];
    let limits = [
        ("BLOCK", BLOCK_LIMIT),
        ("RUN", RUN_LIMIT),
        ("LINE", LINE_LIMIT),
        ("FILE", FILE_LIMIT),
        ("READ", READ_LIMIT),
        ("STORE", STORE_LIMIT),
        ("MERGE", MERGE_LIMIT),
    ];
    let with_limits = |takes: &str| {
        limits
            .iter()
            .fold(takes.to_string(), |text, (name, limit)| text.replace(name, &limit.to_string()))
    };
    plain.map(|(name, takes)| (name, with_limits(takes))).to_vec()
}

/// A call and what it takes.
fn sentence((name, takes): (&'static str, String)) -> String {
    format!("{name} takes {takes}")
}

/// What was expected of a line that is no command; `None` is a line that is too long.
pub fn expected(line: Option<&[u8]>) -> String {
    let Some(line) = line else {
        return format!("a line has at most {LINE_BYTES} bytes");
    };
    let words = words(line);
    let found = calls().into_iter().find(|(name, _)| words.first() == Some(&name.as_bytes()));
    found.map_or("no call has this name: help lists them".to_string(), sentence)
}

/// `help` and all the calls.
pub fn help() -> String {
    let calls: Vec<String> = calls().into_iter().map(sentence).collect();
    format!("help {}", calls.join("; "))
}
