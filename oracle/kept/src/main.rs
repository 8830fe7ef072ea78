//! Holds the calls on a voice in lent memory to the reference: `kept SEED COUNT`. Each case is an opening and a random
//! list of calls. The reference makes the list as a whole; here its blocks are cut at random into shorter ones, some of
//! which are played without input. Numbers, samples and waits must agree, and so must `jivaszte_perform` over the
//! whole list. Then every word of the head is changed, one at a time, and samples of the line, and what
//! `check` returns must be what the limits of document 02 (L10) say. Exit status 1 with the case named where one
//! differs.

mod cases;
mod lent;
mod limits;

use cases::{any_call, any_opening, list_of};
use lent::Lent;
use oracle::call::Call;
use oracle::cases::random::Random;
use oracle::refusal::number;
use oracle::voice::Voice;

/// The reference makes a call, and the voice in lent memory makes it in pieces. What both gave must be the same.
fn same(
    call: &Call,
    reference: &mut Voice,
    voice: &mut Lent,
    random: &mut Random,
) -> Result<(u32, Vec<i32>), String> {
    let made = call.make(reference);
    let (returned, count, output) = voice.make(call, random);
    let wanted = (number(&made.answer), made.count, made.output);
    if (returned, count, &output) != (wanted.0, wanted.1, &wanted.2) {
        return Err(format!("{call:?} gave {returned}, {count}, {output:?}"));
    }
    let left = reference
        .waiting
        .as_ref()
        .map_or(0, |w| reference.advance - w.taken.min(reference.advance));
    if voice.waits() != left {
        return Err(format!("{call:?} left {} samples to wait, not {left}", voice.waits()));
    }
    Ok((returned, if returned == 0 { output } else { Vec::new() }))
}

/// One case; how often `check` was asked, and how often it held.
fn case(seed: u64, index: u64) -> Result<(u64, u64), String> {
    let mut random = Random::new(seed, index);
    let mut voice = Lent::any(&mut random);
    let (mut asked, mut held) = (0, 0);
    for _ in 0..1 + random.below(2) {
        let opening = any_opening(&mut random);
        let [order, length, delay, loss, advance] = opening;
        let (mut reference, answer) = Voice::open(order, length, delay, loss, advance);
        if voice.open(opening) != number(&answer) {
            return Err(format!("open {opening:?}"));
        }
        let (mut calls, mut numbers, mut samples) = (Vec::new(), Vec::new(), Vec::new());
        for _ in 0..5 + random.below(30) {
            let call = any_call(&mut random);
            let (returned, output) = same(&call, &mut reference, &mut voice, &mut random)?;
            calls.push(call);
            numbers.push(returned);
            samples.extend(output);
        }
        if list_of(opening, &calls) != (numbers, samples) {
            return Err(String::from("jivaszte_perform gave something else"));
        }
        let (times, true_times) = limits::agree(&voice, &mut random)?;
        (asked, held) = (asked + times, held + true_times);
    }
    Ok((asked, held))
}

fn main() {
    let mut numbers = std::env::args().skip(1).map(|word| word.parse::<u64>());
    let (Some(Ok(seed)), Some(Ok(count))) = (numbers.next(), numbers.next()) else {
        eprintln!("kept: takes a seed and a count");
        std::process::exit(2);
    };
    let (mut asked, mut held) = (0, 0);
    for index in 0..count {
        match case(seed, index) {
            Ok((times, true_times)) => (asked, held) = (asked + times, held + true_times),
            Err(what) => {
                eprintln!("kept: case {index} of seed {seed}: {what}");
                std::process::exit(1);
            }
        }
    }
    println!("kept: {count} lists of seed {seed} in blocks cut at random; check agrees {asked} times, {held} of them with 1");
}
