//! A host's loop: a voice that the program keeps renders blocks of 64 samples, and calls are made between them. The same
//! calls as one list, by `perform`, must return the same numbers and put out the same samples. Prints
//! examples/blocks.txt, as blocks.c does.
use jivaszte::{perform, Call, Opening, Refusal, Voice};

const BLOCK: usize = 64;
const BLOCKS: usize = 32;

/// Each call, and the block before which it is made.
const PLAN: [(usize, Call); 11] = [
    (0, Call::Pluck { amplitude: 200, count: 100, seed: 1 }),
    (4, Call::Announce { order: 1, length: 88, delay: 3_000 }),
    (4, Call::Ask { order: 1, length: 90, delay: 3_000 }),
    (10, Call::Ask { order: 2, length: 90, delay: 8_000 }),
    (10, Call::Commit),
    (12, Call::Commit),
    (16, Call::Loss(64_000)),
    (20, Call::Instant { order: 3, length: 80, delay: 12_000 }),
    (24, Call::Ask { order: 1, length: 99, delay: 2_979 }),
    (25, Call::Withdraw),
    (28, Call::Pluck { amplitude: 256, count: 100, seed: 2 }),
];

fn make(voice: &mut Voice, call: Call) -> Result<(), Refusal> {
    match call {
        Call::Loss(loss) => voice.loss(loss),
        Call::Pluck { amplitude, count, seed } => voice.pluck(amplitude, count, seed),
        Call::Announce { order, length, delay } => voice.announce(order, length, delay),
        Call::Instant { order, length, delay } => voice.instant(order, length, delay).map(|_| ()),
        Call::Ask { order, length, delay } => voice.ask(order, length, delay),
        Call::Commit => voice.commit(),
        _ => voice.withdraw(),
    }
}

fn number(result: Result<(), Refusal>) -> u32 {
    result.map_or_else(Refusal::number, |()| 0)
}

fn main() -> Result<(), Refusal> {
    let opening = Opening { order: 1, length: 99, delay: 2_979, loss: 65_535, advance: 64 };
    let mut voice = Voice::open(opening)?;
    let (mut input, mut output) = (vec![0; BLOCK * BLOCKS], vec![0; BLOCK * BLOCKS]);
    let (mut calls, mut returned) = (Vec::new(), Vec::new());

    for block in 0..BLOCKS {
        for (_, call) in PLAN.iter().filter(|(before, _)| *before == block) {
            calls.push(*call);
            returned.push(number(make(&mut voice, *call)));
            let (kind, last) = (call.words()[0], returned[returned.len() - 1]);
            println!("before block {block}, call of kind {kind}: {last}, {} samples to wait", voice.waits());
        }
        // every eighth block has an input; the others are played with none
        let places = BLOCK * block..BLOCK * (block + 1);
        let (input, output) = (&mut input[places.clone()], &mut output[places]);
        calls.push(Call::Block { input: BLOCK as u32, output: BLOCK as u32 });
        if block % 8 == 3 {
            input[0] = 100_000;
            returned.push(number(voice.block(input, output)));
        } else {
            voice.play(output);
            returned.push(0);
        }
    }

    let (mut whole, mut numbers) = (vec![0; output.len()], vec![0; calls.len()]);
    let done = perform(opening, &Call::list(&calls), &input, &mut whole, &mut numbers)?;
    assert_eq!((done.opening, done.written), (Ok(()), whole.len()));
    assert!(numbers == returned && whole == output, "the list differs from the calls");
    let sum: i64 = (1..).zip(&output).map(|(i, sample)| i * i64::from(*sample)).sum();
    println!("{} samples as the list has them, the sum of each times its number: {sum}", output.len());
    Ok(())
}
