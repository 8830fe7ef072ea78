//! A take that is stored and resumed: two voices take the same calls; one of them is stored after every third block and
//! loaded again, while a pluck sounds and while a change waits too. Both must return the same numbers and put out the
//! same samples. Prints examples/resume.txt, as resume.c does.
use jivaszte::{panel, Opening, Panel, Refusal, Voice};

const BLOCK: usize = 50;
const BLOCKS: usize = 24;
const OPENING: Opening = Opening { order: 1, length: 99, delay: 2_979, loss: 65_535, advance: 64 };

/// The calls that are made before a block.
fn make(voice: &mut Voice, block: usize) -> Result<(), Refusal> {
    match block {
        0 => voice.pluck(200, 170, 1),
        6 => voice.announce(2, 88, 8_000),
        12 => voice.ask(3, 80, 12_000),
        14 => voice.commit(),
        18 => voice.loss(60_000),
        _ => Ok(()),
    }
}

/// Stores a voice, and gives the one that is loaded.
fn moved(voice: &Voice, block: usize) -> Result<Voice, Refusal> {
    let bytes = voice.to_bytes();
    let Panel { length, delay, loss } = panel(&bytes)?;
    let voice = Voice::from_bytes(&bytes)?;
    let (count, map, waits) = (bytes.len(), bytes[0], voice.waits());
    print!("after block {block}: {count} bytes, bit map {map}; length {length}, ");
    println!("delay {delay}, loss {loss}; {waits} samples to wait");
    Ok(voice)
}

fn number<T>(result: Result<T, Refusal>) -> u32 {
    result.map_or_else(Refusal::number, |_| 0)
}

/// What each refusal leaves.
fn refuse() -> Result<(), Refusal> {
    let loss = [2, 0, 0, 1, 0];
    let mut voice = Voice::open(OPENING)?;
    let mut bytes = [77; 13];
    let refusal = number(voice.store(&mut bytes));
    println!("a slice too short: {refusal}, length 0, first byte {}", bytes[0]);
    for n in 0..=loss.len() {
        let (loaded, shown) = (voice.load(&loss[..n]), panel(&loss[..n]));
        print!("{n} bytes: {} {},", number(loaded), number(shown));
        // A refused panel is that of the voice that a refused load leaves.
        let Panel { length, delay, loss } = panel(&voice.to_bytes())?;
        let stored = voice.store(&mut bytes);
        let count = stored.unwrap_or(0);
        println!(" shown {length} {delay} {loss}, stored again {} {count} {}", number(stored), bytes[0]);
    }
    Ok(())
}

fn main() -> Result<(), Refusal> {
    let mut whole = Voice::open(OPENING)?;
    let mut resumed = whole.clone();
    let mut outputs = [[0; BLOCK * BLOCKS]; 2];
    for block in 0..BLOCKS {
        make(&mut whole, block)?;
        make(&mut resumed, block)?;
        let places = BLOCK * block..BLOCK * (block + 1);
        whole.play(&mut outputs[0][places.clone()]);
        resumed.play(&mut outputs[1][places]);
        if block % 3 == 0 {
            resumed = moved(&resumed, block)?;
        }
    }
    assert!(outputs[0] == outputs[1], "the stored voice does not go on");
    let sum: i64 = (1..).zip(&outputs[1]).map(|(i, sample)| i * i64::from(*sample)).sum();
    println!("{} samples as if never stopped, the sum of each times its number: {sum}", outputs[1].len());
    refuse()
}
