//! Plays a score in Rust: reads its bytes from standard input, prints each sample on a line, then `end` and what the
//! run returned, as the program of crates/player does. Words of a refusal go to standard error.
use std::io::{Read, Write};

fn main() -> std::io::Result<()> {
    let mut score = Vec::new();
    std::io::stdin().take(32_768).read_to_end(&mut score)?;
    let mut output = vec![0; 16_384];
    let played = jivaszte::run(&score, &mut output);
    let (number, place, written) = match played {
        Ok(played) => (0, played.records, played.written),
        Err(stopped) => (stopped.refusal.number(), stopped.place, stopped.written),
    };
    let mut out = std::io::BufWriter::new(std::io::stdout());
    for sample in &output[..written] {
        writeln!(out, "{sample}")?;
    }
    writeln!(out, "end {number} {place} {written}")?;
    if let Err(stopped) = played {
        eprintln!("{stopped}");
    }
    Ok(())
}
