//! Measures the pitch of the held notes of a take: pitch JIVASZTE TUNE.score RATE TAKE.wav..
//! What is held, and when, comes from `jivaszte show`; the pitch that it should have, from `jivaszte
//! note`; the pitch that it has, from the samples of the WAV files. Nothing of the library or the program
//! is linked. Prints the count and the greatest error in cents; status 1 where one is more than a cent.
use std::collections::HashMap;
use std::f64::consts::TAU;
use std::process::{Command, ExitCode};

/// A note that lasts this long, in seconds, is held.
const HELD: f64 = 0.4;
const MOST_CENTS: f64 = 1.0;

/// What a command of jivaszte prints.
fn said(program: &str, words: &[&str]) -> String {
    let done = Command::new(program).args(words).output().expect("jivaszte runs");
    assert!(done.status.success(), "{words:?}: {}", String::from_utf8_lossy(&done.stderr));
    String::from_utf8(done.stdout).expect("jivaszte prints text")
}

/// The samples of WAV files of 24 bits, one after the other.
fn samples(files: &[String]) -> Vec<f64> {
    let mut samples = Vec::new();
    for file in files {
        let bytes = std::fs::read(file).expect("a take can be read");
        let size = u32::from_le_bytes(bytes[40..44].try_into().unwrap()) as usize;
        let sample = |b: &[u8]| f64::from(i32::from_le_bytes([0, b[0], b[1], b[2]]) >> 8);
        samples.extend(bytes[44..44 + size].chunks_exact(3).map(sample));
    }
    samples
}

/// A stretch in which a tuning sounds on: from the change or the pluck before it to the next.
struct Held {
    tuning: String,
    from: usize,
    to: usize,
}

/// A time as `show` prints it, in samples.
fn wait(words: &str, rate: f64) -> usize {
    let (number, factor) = if let Some(number) = words.strip_suffix("ms") {
        (number, rate / 1_000.0)
    } else if let Some(number) = words.strip_suffix(" samples").or(words.strip_suffix(" sample")) {
        (number, 1.0)
    } else {
        (words.strip_suffix('s').expect(words), rate)
    };
    (number.parse::<f64>().expect(words) * factor).round() as usize
}

/// The stretches of a text that `show` printed, and its order.
fn held(text: &str, rate: f64) -> (String, Vec<Held>) {
    let (mut order, mut advance, mut now) = (String::new(), 0, 0);
    let mut held = vec![Held { tuning: String::new(), from: 0, to: 0 }];
    for line in text.lines() {
        let line = line.split("  #").next().unwrap_or(line);
        for part in line.split(", ") {
            let (word, rest) = part.split_once(' ').unwrap_or((part, ""));
            let last = held.last_mut().unwrap();
            match word {
                "order" => order = rest.to_string(),
                "advance" => advance = rest.parse().expect(rest),
                "tune" => last.tuning = rest.to_string(),
                "wait" => now += wait(rest, rate),
                "to" | "jump" => {
                    let from = now + if word == "to" { advance } else { 0 };
                    last.to = from;
                    held.push(Held { tuning: rest.to_string(), from, to: 0 });
                }
                "pluck" => {
                    let words: Vec<&str> = rest.split(' ').collect();
                    let count: usize = words[2].parse().unwrap_or(100);
                    last.to = last.to.max(now);
                    let tuning = last.tuning.clone();
                    let from = last.from.max(now + count);
                    held.push(Held { tuning, from, to: 0 });
                }
                _ => {}
            }
        }
    }
    held.last_mut().unwrap().to = now;
    held.retain(|note| note.to as f64 >= note.from as f64 + HELD * rate);
    (order, held)
}

/// The phase of a sine of `hertz` in some samples, through a Hann window.
fn phase(samples: &[f64], turn: f64) -> f64 {
    let (mut real, mut imaginary) = (0.0, 0.0);
    for (n, sample) in samples.iter().enumerate() {
        let window = 0.5 - 0.5 * (TAU * n as f64 / samples.len() as f64).cos();
        let angle = turn * n as f64;
        real += window * sample * angle.cos();
        imaginary -= window * sample * angle.sin();
    }
    imaginary.atan2(real)
}

/// The pitch near `hertz`: by how much the phase moves from a window to one that is later, first by a
/// little, so that no whole turn is missed, then by more and more.
fn measured(samples: &[f64], hertz: f64, rate: f64) -> f64 {
    let window = samples.len() / 2;
    let turn = TAU * hertz / rate;
    let first = phase(&samples[..window], turn);
    let mut past = 0.0; // radians a sample, beside `turn`
    for parts in [64, 16, 4, 2] {
        let apart = samples.len() / parts;
        let moved = phase(&samples[apart..apart + window], turn) - first - turn * apart as f64;
        let off = (moved - past * apart as f64).rem_euclid(TAU);
        past += if off > TAU / 2.0 { off - TAU } else { off } / apart as f64;
    }
    (turn + past) * rate / TAU
}

fn main() -> ExitCode {
    let words: Vec<String> = std::env::args().skip(1).collect();
    let [program, score, rate, takes @ ..] = &words[..] else {
        panic!("pitch JIVASZTE TUNE.score RATE TAKE.wav..")
    };
    let hertz: f64 = rate.parse().expect("a rate");
    let (order, held) = held(&said(program, &["show", score, "-r", rate]), hertz);
    let samples = samples(takes);
    let mut told: HashMap<&str, f64> = HashMap::new();
    let (mut worst, mut status) = (0f64, ExitCode::SUCCESS);
    for note in &held {
        let told = *told.entry(&note.tuning).or_insert_with(|| {
            let answer = said(program, &["note", &note.tuning, "-r", rate, "-n", &order]);
            let number = answer.split("sounds ").nth(1).and_then(|rest| rest.split(' ').next());
            number.and_then(|number| number.parse().ok()).expect(&answer)
        });
        let heard = measured(&samples[note.from..note.to], told, hertz);
        let cents = 1_200.0 * (heard / told).log2();
        worst = worst.max(cents.abs());
        if cents.is_nan() || cents.abs() > MOST_CENTS {
            let at = note.from as f64 / hertz;
            eprintln!(
                "{} at {at:.3} s: {heard:.3} Hz, and `jivaszte note` says {told:.3}: {cents:+.2} cents",
                note.tuning
            );
            status = ExitCode::FAILURE;
        }
    }
    println!("{} {worst:.2}", held.len());
    status
}
