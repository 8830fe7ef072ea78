//! Random openings and calls, some outside their limits; and a list of them as a whole.

use jivaszte::{perform, Opening, Refusal};
use oracle::call::Call;
use oracle::cases::random::Random;
use oracle::thiran::delay_range;
use oracle::tuning::Tuning;

/// A tuning, of which one in 16 is outside its limits.
fn any_tuning(random: &mut Random) -> Tuning {
    let order = random.between(1, 3);
    let range = delay_range(order);
    let delay = match random.below(4) {
        0 => random.pick(&[*range.start(), *range.end()]),
        _ => random.between(*range.start(), *range.end()),
    };
    let longest = random.pick(&[4, 100, 2_048]);
    let length = random.between(1, longest);
    match random.below(64) {
        0 => Tuning { order: random.pick(&[0, 4, u32::MAX]), length, delay },
        1 => Tuning { order, length: random.pick(&[0, 2_049, u32::MAX]), delay },
        2 => Tuning { order, length, delay: random.pick(&[range.start() - 1, range.end() + 1]) },
        3 => Tuning { order, length, delay: random.number() as u32 },
        _ => Tuning { order, length, delay },
    }
}

pub fn any_opening(random: &mut Random) -> [u32; 5] {
    let Tuning { order, length, delay } = any_tuning(random);
    let loss =
        if random.one_in(16) { random.pick(&[0, 65_536]) } else { random.between(60_000, 65_535) };
    let advance = if random.one_in(16) { 65 } else { random.pick(&[0, 1, 2, 3, 64]) };
    [order, length, delay, loss, advance]
}

fn any_block(random: &mut Random) -> Call {
    let count = random.below(200) as usize;
    let loud = random.pick(&[0, 0, 1, 1_000, 8_388_607]);
    let mut input = vec![0; count];
    for x in &mut input {
        let value = random.below(2 * loud + 1) as i32 - loud as i32;
        *x = if random.one_in(3) { value } else { 0 };
    }
    if count > 0 && random.one_in(24) {
        input[random.below(count as u64) as usize] =
            random.pick(&[8_388_608, -8_388_608, i32::MIN, i32::MAX]);
    }
    let places = if random.one_in(24) { count + 1 } else { count };
    Call::Block { input, places }
}

pub fn any_call(random: &mut Random) -> Call {
    match random.below(20) {
        0..=7 => any_block(random),
        8..=9 => Call::Pluck {
            amplitude: random.pick(&[0, 1, 200, 255, 256]),
            count: random.pick(&[0, 1, 2, 70, 2_048, 2_049]),
            seed: random.number() as u32,
        },
        10 => Call::Loss { loss: random.pick(&[0, 50_000, 65_535, 65_536]) },
        11..=12 => Call::Announced { to: any_tuning(random) },
        13 => Call::Instant { to: any_tuning(random) },
        14..=15 => Call::Asked { to: any_tuning(random) },
        16..=18 => Call::Commit,
        _ => Call::Withdraw,
    }
}

/// The same calls as a list: the numbers and the samples.
pub fn list_of(opening: [u32; 5], calls: &[Call]) -> (Vec<u32>, Vec<i32>) {
    let [order, length, delay, loss, advance] = opening;
    let (mut words, mut input, mut room) = (Vec::new(), Vec::new(), 0);
    for call in calls {
        words.extend(match call {
            Call::Loss { loss } => [1, *loss, 0, 0],
            Call::Pluck { amplitude, count, seed } => [2, *amplitude, *count, *seed],
            Call::Announced { to } => [3, to.order, to.length, to.delay],
            Call::Instant { to } => [4, to.order, to.length, to.delay],
            Call::Asked { to } => [5, to.order, to.length, to.delay],
            Call::Commit => [6, 0, 0, 0],
            Call::Withdraw => [7, 0, 0, 0],
            Call::Block { input: xs, places } => {
                input.extend(xs);
                room += places;
                [0, xs.len() as u32, *places as u32, 0]
            }
        });
    }
    let (mut output, mut numbers) = (vec![0; room], vec![0; calls.len()]);
    let opening = Opening { order, length, delay, loss, advance };
    let done = perform(opening, &words, &input, &mut output, &mut numbers);
    let written = done.map_or_else(|refusal: Refusal| panic!("{refusal}"), |done| done.written);
    output.truncate(written);
    (numbers, output)
}
