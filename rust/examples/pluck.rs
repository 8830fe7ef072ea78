//! One string from Rust: A3, plucked, retuned to E4 while it sounds, and damped. Writes pluck.wav, or the
//! file that is named: `cargo run --example pluck -- NAME.wav`.

use jivaszte::{note, perform, wav_file, Call, Opening, Refusal};

const RATE: u32 = 44_100;
const ORDER: u32 = 1;
/// From this advance on no sample after a change is further than 2 units of 8,388,607 from that of an ideal
/// filter of the new tuning. The step from one tuning to the other remains.
const ADVANCE: u32 = 24;

/// So many seconds of nothing but the string.
fn wait(seconds: f64) -> Call {
    let samples = (seconds * f64::from(RATE)) as u32;
    Call::Block { input: samples, output: samples }
}

fn main() -> Result<(), Box<dyn std::error::Error>> {
    let (length, delay) = note(ORDER, RATE, 57)?;
    let e4 = note(ORDER, RATE, 64)?;
    let calls = [
        Call::Pluck { amplitude: 180, count: 200, seed: 7 },
        wait(0.8),
        Call::Announce { order: ORDER, length: e4.0, delay: e4.1 },
        wait(0.8),
        Call::Loss(63_000),
        wait(0.4),
    ];
    let opening = Opening { order: ORDER, length, delay, loss: 65_400, advance: ADVANCE };
    let input = vec![0; 2 * RATE as usize];
    let mut output = vec![0; input.len()];
    let mut numbers = [0; 6];
    let done = perform(opening, &Call::list(&calls), &input, &mut output, &mut numbers)?;
    done.opening?;
    numbers.into_iter().try_for_each(Refusal::of)?;
    let name = std::env::args().nth(1).unwrap_or_else(|| String::from("pluck.wav"));
    std::fs::write(name, wav_file(RATE, &output[..done.written])?)?;
    Ok(())
}
