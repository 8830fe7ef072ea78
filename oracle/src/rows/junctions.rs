//! Rows of a tube junction, as lines of the console: r, the numbers, and samples one after the other.

/// Areas at the limits, equal ones, and one twice the other: a sample from each side shows r.
const AREAS: &[(u32, u32)] = &[(1, 65_535), (65_535, 1), (7, 7), (2, 1), (1, 2)];

/// Openings and moves on both sides of each limit, and where several are passed.
const LIMITS: &[&str] = &[
    "junction 0 1 2048 65",
    "junction 1 65536 2048 65",
    "junction 65535 1 2048 65",
    "junction 65535 1 6144 65",
    "junction 65535 1 6143 65",
    "junction 65535 1 6143 64",
    "move 2048",
    "move 6144",
    "move 2049",
    "move 6144",
    "move 6143",
    "tube 8388608 0",
    "tube 0 -8388608",
    "tube 8388607 -8388607",
    "tube -8388607 8388607",
];

/// A hundred samples from each side with three moves, one of them while another waits.
fn hundred(opening: &str) -> Vec<String> {
    let mut lines = vec![opening.to_string()];
    for n in 0..100_i32 {
        match n {
            10 => lines.push("move 5000".to_string()),
            14 => lines.push("move 2049".to_string()),
            40 => lines.push("move 2500".to_string()),
            70 => lines.push("move 6143".to_string()),
            _ => {}
        }
        let a = (n * 1_234_567).rem_euclid(16_777_215) - 8_388_607;
        lines.push(format!("tube {a} {}", (n * n * 7_919).rem_euclid(2_000_001) - 1_000_000));
    }
    lines
}

/// All rows.
pub fn lines() -> Vec<String> {
    let r = |&(left, right): &(u32, u32)| {
        [
            format!("junction {left} {right} 4096 0"),
            "tube 8388607 1000000".to_string(),
            "tube 0 0".to_string(),
            "tube 0 0".to_string(),
        ]
    };
    let mut lines: Vec<String> = AREAS.iter().flat_map(r).collect();
    lines.extend(LIMITS.iter().map(|line| line.to_string()));
    lines.extend(hundred("junction 3 1 3000 8"));
    lines.extend(hundred("junction 1 9 3000 0"));
    lines.extend(hundred("junction 0 9 3000 8"));
    lines
}
