//! Whole numbers of document 01: floor division, rounding and clip, and document 02's cut, all exact on i128.

/// "M = 8,388,607."
pub const M: i128 = 8_388_607;

/// "Floor goes downward, also below zero." The whole part, downward, of `u / v`; `v` is above 0.
pub fn floor_div(u: i128, v: i128) -> i128 {
    assert!(v > 0, "floor_div takes a divisor above 0");
    u.div_euclid(v)
}

/// "rounded to the nearest whole number, a half going upward": the fraction `u / v`, `v` above 0.
pub fn nearest(u: i128, v: i128) -> i128 {
    floor_div(2 * u + v, 2 * v)
}

/// "cut toward zero instead of rounding" (document 02, L7): the whole part of `|u| / v` with the sign of
/// `u`; `v` is above 0.
pub fn cut(u: i128, v: i128) -> i128 {
    floor_div(u.abs(), v) * u.signum()
}

/// "R and the loop's division shall cut toward zero": R(u), of u/65,536.
pub fn r(u: i128) -> i128 {
    cut(u, 65_536)
}

/// "A sample is a whole number from −M to M".
pub fn is_sample(u: i128) -> bool {
    (-M..=M).contains(&u)
}

/// "clip(u) is the nearest such number to u": the sample nearest to `u`.
pub fn clip(u: i128) -> i128 {
    u.clamp(-M, M)
}

/// A sample as calls take and give it: "Calls take samples as 32-bit signed numbers".
pub fn to_call(sample: i128) -> i32 {
    i32::try_from(sample).expect("a sample fits 32 bits")
}
