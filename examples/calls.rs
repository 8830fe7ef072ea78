//! Each routine of include/jivaszte.h called from Rust, refused too. Prints examples/calls.txt, as calls.c does.
use jivaszte::{Call, Opening, Refusal};
use std::fmt::Display;

/// What a call returned, in words that calls.c prints too.
fn said(result: Result<String, Refusal>) -> String {
    result.unwrap_or_else(|refusal| format!("refused by {}", refusal.number()))
}

fn joined<T: Display>(values: &[T]) -> String {
    values.iter().map(|value| format!(" {value}")).collect()
}

fn coefficients(order: u32, delay: u32) {
    let a = jivaszte::coefficients(order, delay).map(|a| joined(&a).trim_start().to_string());
    println!("coefficients {order} {delay}: {}", said(a));
}

fn least_advance(order: u32, delay: u32, wanted: u32) {
    let advance = jivaszte::least_advance(order, delay, wanted).map(|advance| advance.to_string());
    println!("least advance {order} {delay} {wanted}: {}", said(advance));
}

fn effective_length(order: u32, delay: u32, threshold: u32) {
    let length = jivaszte::effective_length(order, delay, threshold).map(|length| length.to_string());
    println!("effective length {order} {delay} {threshold}: {}", said(length));
}

fn note(order: u32, rate: u32, number: u32) {
    let tuning = jivaszte::note(order, rate, number).map(|(length, delay)| format!("{length} {delay}"));
    println!("note {order} {rate} {number}: {}", said(tuning));
}

/// Prints the nine numbers of C: the refusal, the bit map, and the fields, 0 where they are absent.
fn record(what: &str, score: &[u8]) {
    let (refusal, record, rest) = match jivaszte::record(score) {
        Ok((record, rest)) => (0, record, rest),
        Err(refusal) => (refusal.number(), jivaszte::Record::default(), score),
    };
    let r = record;
    let fields = [r.wait, r.length, r.delay, r.loss, r.amplitude, r.count, r.seed];
    let bits = (0..).zip(fields).map(|(bit, field)| u32::from(field.is_some()) << bit);
    let map = bits.sum::<u32>() + (u32::from(r.instant) << 7);
    let numbers = fields.map(|field| field.unwrap_or(0));
    println!("record {what}: takes {}, {refusal} {map}{}", score.len() - rest.len(), joined(&numbers));
}

/// Two plucks of one voice, after 5 samples and after 7; the bytes behind the header are printed.
fn merge(room: usize) {
    let first = [1, 0, 50, 0, 0, 16, 232, 253, 17, 5, 0, 200, 0];
    let second = [1, 0, 50, 0, 0, 16, 232, 253, 17, 7, 0, 100, 0];
    let mut bytes = [0; 32];
    let answer = jivaszte::merge(&first, &second, &mut bytes[..room]);
    let (refusal, length) = match answer {
        Ok(length) => (0, length),
        Err(refusal) => (refusal.number(), 0),
    };
    let put: Vec<String> = bytes[..length].iter().skip(8).map(|byte| format!(" {byte}")).collect();
    println!("merge into {room} bytes: {refusal} {length},{}", put.concat());
}

fn gather(bytes: &[u8], start: usize) {
    println!("gather {} bytes from {start}: {}", bytes.len(), jivaszte::gather(bytes, start));
}

/// A sample before a move and three after it; the third call is refused.
fn junction(left: u32, right: u32, delay: u32, advance: u32) {
    let opened = jivaszte::Junction::open(left, right, delay, advance);
    let number = opened.as_ref().map_or_else(|refusal| refusal.number(), |_| 0);
    print!("junction {left} {right} {delay} {advance}: {number},");
    // A refused opening leaves areas 1 and 1, delay 4,096 and advance 0.
    let mut j = opened.unwrap_or_else(|_| jivaszte::Junction::open(1, 1, 4_096, 0).unwrap());
    let number = |answer: Result<(), jivaszte::Refusal>| answer.map_or_else(|no| no.number(), |()| 0);
    let samples = [(100_000, -200_000), (30_000, 40_000), (-50_000, 60_000), (7_000, 9_000)];
    for (i, (a, b)) in samples.into_iter().enumerate() {
        let (right, left) = j.sample(a, b).unwrap();
        print!(" 0 {right} {left}");
        if i == 0 {
            print!(" {} {}", number(j.move_to(5_000)), number(j.move_to(6_144)));
            print!(" {} 0 0", number(j.sample(5, -8_388_608).map(|_| ())));
        }
    }
    println!();
}

fn run(what: &str, score: &[u8], room: usize) {
    let mut output = [7; 16];
    let (number, place, written) = match jivaszte::run(score, &mut output[..room]) {
        Ok(played) => (0, played.records, played.written),
        Err(stopped) => (stopped.refusal.number(), stopped.place, stopped.written),
    };
    println!("run {what}: {number} {place} {written},{}", joined(&output));
}

fn perform(what: &str, order: u32, advance: u32, words: &[u32]) {
    let input = [1000, 0, 0, 0, 0, 0, 0, 0];
    let (mut output, mut numbers) = ([7; 12], [77; 6]);
    let opening = Opening { order, length: 3, delay: 4096, loss: 32_768, advance };
    let (refusal, opened, written) = match jivaszte::perform(opening, words, &input, &mut output, &mut numbers) {
        Ok(done) => (0, done.opening.map_or_else(Refusal::number, |()| 0), done.written),
        Err(refusal) => (refusal.number(), 0, 0),
    };
    println!("perform {what}: {refusal} {opened} {written},{},{}", joined(&numbers), joined(&output));
}

fn wav_write(rate: u32, samples: &[i32], room: usize) {
    let mut file = [77; 56];
    let (refusal, bytes) = match jivaszte::wav_write(rate, samples, &mut file[..room]) {
        Ok(bytes) => (0, bytes),
        Err(refusal) => (refusal.number(), 0),
    };
    print!("wav of {} samples at {rate} in {room} bytes: {refusal} {bytes},", samples.len());
    file.iter().for_each(|byte| print!(" {byte:02x}"));
    println!();
}

fn wav_read(what: &str, file: &[u8], room: usize) {
    let mut samples = [77; 4];
    let (refusal, rate, count) = match jivaszte::wav_read(file, &mut samples[..room]) {
        Ok((rate, count)) => (0, rate, count),
        Err(refusal) => (refusal.number(), 0, 0),
    };
    print!("wav read {what}: {refusal} {rate} {count},");
    samples.iter().for_each(|sample| print!(" {sample}"));
    println!();
}

fn main() {
    let samples = [8_388_607, -8_388_607, 8_388_608];
    let header = b"RIFF\x2e\0\0\0WAVEfmt \x10\0\0\0\x01\0\x01\0\x40\x1f\0\0\xc0\x5d\0\0\x03\0\x18\0data\x09\0\0\0";
    let file = [&header[..], &[255, 255, 127, 0, 0, 128, 1, 0, 0, 0]].concat();
    let paper = [1, 0, 3, 0, 0, 16, 0, 128, 48, 1, 0, 1, 0, 1, 10, 0];
    let third = [3, 0, 3, 0, 1, 40, 0, 128, 48, 1, 0, 1, 0, 1, 10, 0];
    let fourth = [4, 0, 3, 0, 0, 16, 0, 128, 1, 10, 0];
    let waits = [1, 4, 3, 0, 0, 16, 0, 128, 1, 2, 0, 2, 5, 0, 3, 3, 0, 6, 0];
    let every = [255, 1, 2, 3, 4, 5, 6, 7, 8, 9, 10, 11, 12, 13, 14, 99];
    let seed = [64, 1, 2];
    let calls = [0, 6, 6, 0, 0, 1, 2, 0, 1, 65_536, 0, 0, 4, 1, 1, 4096, 3, 1, 2, 6145, 0, 1, 1, 0];
    let asks = [0, 2, 2, 0, 5, 1, 2, 6144, 6, 0, 0, 0, 0, 3, 3, 0, 6, 0, 0, 0, 0, 3, 3, 0];
    let drops = [5, 1, 2, 6144, 0, 8, 8, 0, 7, 0, 0, 0, 6, 0, 0, 0, 3, 1, 2, 6144, 7, 0, 0, 0];
    let orders = Call::list(&[
        Call::Announce { order: 3, length: 1, delay: 10_241 },
        Call::Block { input: 5, output: 5 },
        Call::Instant { order: 1, length: 1, delay: 6_144 },
        Call::Ask { order: 2, length: 1, delay: 6_145 },
        Call::Block { input: 3, output: 3 },
        Call::Commit,
    ]);
    let named = Call::list(&[
        Call::Announce { order: 0, length: 0, delay: 0 },
        Call::Instant { order: 2, length: 0, delay: 4_096 },
        Call::Ask { order: 2, length: 1, delay: 4_096 },
        Call::Instant { order: 1, length: 1, delay: 10_241 },
        Call::Ask { order: 2, length: 1, delay: 10_240 },
        Call::Announce { order: 3, length: 1, delay: 10_241 },
    ]);
    let mut noise = 0;

    coefficients(1, 2979);
    coefficients(2, 6145);
    coefficients(3, 14336);
    coefficients(4, 16384);
    coefficients(1, 2048);
    coefficients(u32::MAX, u32::MAX);
    effective_length(2, 9159, 1000);
    effective_length(3, 14336, 1000);
    effective_length(1, 6144, 1_000_000);
    effective_length(0, 4096, 0);
    effective_length(2, 6144, 0);
    least_advance(1, 2979, 2);
    least_advance(3, 11171, 2);
    least_advance(4, 11171, 2);
    least_advance(1, 2048, 2);
    least_advance(3, 10241, 2);
    note(1, 44_100, 69);
    note(2, 44_100, 69);
    note(3, 44_100, 69);
    note(4, 44_100, 69);
    note(1, 7_999, 69);
    note(1, 44_100, 128);
    note(1, 192_000, 0);
    for _ in 0..3 {
        println!("draw: {}", jivaszte::draw(&mut noise));
    }
    record("of the paper", &paper[8..]);
    record("with every field", &every);
    record("cut short", &every[..14]);
    record("of no byte", &[]);
    record("with a seed alone", &seed);
    gather(&every, 0);
    gather(&every, 9);
    gather(&every, 16);
    gather(&every, usize::MAX);
    gather(&[], 0);
    merge(32);
    merge(21);
    run("of the paper", &paper, 16);
    run("with no room left", &paper, 9);
    run("of order 3", &third, 16);
    run("of order 4", &fourth, 16);
    run("of a header cut short", &paper[..7], 16);
    run("of a change that waits", &waits, 16);
    run("of nothing", &[], 0);
    perform("six calls", 1, 0, &calls);
    perform("an asked change, committed too early and then a sample late", 1, 2, &asks);
    perform("an asked change, withdrawn, and an announced one", 1, 2, &drops);
    perform("from order 1 to 3, to 1 and to 2", 1, 1, &orders);
    perform("an order that is not there, delays of another order, a change that waits", 1, 1, &named);
    perform("a block on the voice of a refused opening", 0, 0, &calls[..4]);
    perform("a call cut short", 1, 0, &calls[..7]);
    perform("a call of no kind", 1, 0, &[8, 0, 0, 0]);
    perform("nothing", 1, 0, &[]);
    wav_write(44_100, &samples[..2], 56);
    wav_write(192_000, &samples[..1], 48);
    wav_write(8_000, &[], 44);
    wav_write(7_999, &samples, 0);
    wav_write(8_000, &samples, 53);
    wav_write(8_000, &samples, 54);
    wav_read("whole", &file, 4);
    wav_read("in three places", &file, 3);
    wav_read("in two places", &file, 2);
    wav_read("without its pad byte", &file[..file.len() - 1], 4);
    wav_read("of nothing", &[], 4);
    junction(2, 1, 3_000, 2);
    junction(2, 1, 3_000, 0);
    junction(65_536, 1, 3_000, 2);
    println!("version {}: {}", jivaszte::VERSION, jivaszte::version());
}
