//! Section "Noise and plucks": the noise.

/// "it becomes 1,664,525 × state + 1,013,904,223, kept to the low 32 bits; the draw is the state's
/// upper 16 bits less 32,768." The state is lent and left advanced.
pub fn draw(state: &mut u32) -> i128 {
    let next = 1_664_525 * i128::from(*state) + 1_013_904_223;
    let low = next.rem_euclid(1 << 32);
    *state = u32::try_from(low).expect("a number below 2^32");
    low / 65_536 - 32_768
}
