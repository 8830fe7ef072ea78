//! Coefficients, effective lengths, least advances, notes and the noise.

use crate::c;
use crate::Refusal;

/// How many orders there are, and coefficients: those past a filter's order are 0.
pub const ORDERS: usize = 3;

/// A1, A2, .., in units of 1/65,536, of a delay in 1/4,096 of a sample. Refuses by `Order`, `Delay`.
pub fn coefficients(order: u32, delay: u32) -> Result<[i32; ORDERS], Refusal> {
    let mut a = [0; ORDERS];
    let [a1, a2, a3] = &mut a;
    // SAFETY: the references are valid, and none overlaps another.
    Refusal::of(unsafe { c::jivaszte_coefficients(order, delay, a1, a2, a3) })?;
    Ok(a)
}

/// The index of the last of the first 64 values of an eliminator's response to 1,000,000 that exceeds
/// the threshold, plus one; 0 where none does. Refuses by `Order`, `Delay`.
pub fn effective_length(order: u32, delay: u32, threshold: u32) -> Result<u32, Refusal> {
    let mut length = 0;
    // SAFETY: the reference is valid.
    let number = unsafe { c::jivaszte_effective_length(order, delay, threshold, &mut length) };
    Refusal::of(number)?;
    Ok(length)
}

/// The least advance, 0 to 64, with which every sample after a change to this order and delay is at most
/// `wanted` units from that of the ideal filter, whatever was played before. Refuses by `Order`, `Delay`,
/// and by `NoAdvance` where none is enough.
pub fn least_advance(order: u32, delay: u32, wanted: u32) -> Result<u32, Refusal> {
    let mut advance = 0;
    // SAFETY: the reference is valid.
    let number = unsafe { c::jivaszte_least_advance(order, delay, wanted, &mut advance) };
    Refusal::of(number)?;
    Ok(advance)
}

/// The length and the delay by which a voice sounds a note, numbered as in MIDI, at a rate in samples a
/// second. Refuses by `Order`, `Rate`, `Note`, `NoteLength`.
pub fn note(order: u32, rate: u32, note: u32) -> Result<(u32, u32), Refusal> {
    let (mut length, mut delay) = (0, 0);
    // SAFETY: the references are valid, and none overlaps another.
    Refusal::of(unsafe { c::jivaszte_note(order, rate, note, &mut length, &mut delay) })?;
    Ok((length, delay))
}

/// The length and the delay of a delay in samples, rounded to 1/4,096 of a sample, a half upward, and split as a
/// note's period is. Refuses by `Order`, `NotFinite`, `NoteLength`.
///
/// ```
/// use jivaszte::{split, Refusal};
/// assert_eq!(split(1, 100.25), Ok((99, 3_072)));
/// assert_eq!(split(1, f32::NAN), Err(Refusal::NotFinite));
/// assert_eq!(split(1, f32::MAX), Err(Refusal::NoteLength));
/// ```
pub fn split(order: u32, samples: f32) -> Result<(u32, u32), Refusal> {
    let (mut length, mut delay) = (0, 0);
    // SAFETY: the references are valid, and none overlaps another.
    Refusal::of(unsafe { c::jivaszte_split(order, samples, &mut length, &mut delay) })?;
    Ok((length, delay))
}

/// A draw, -32,768 to 32,767, on a noise state, which is moved on.
pub fn draw(noise: &mut u32) -> i32 {
    // SAFETY: the reference is valid.
    unsafe { c::jivaszte_draw(noise) }
}
