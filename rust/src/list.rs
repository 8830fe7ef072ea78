//! Any list of calls on one voice.

use crate::c;
use crate::Refusal;

/// What a voice is opened with. `delay` is in 1/4,096 of a sample, `loss` in 1/65,536.
#[derive(Clone, Copy, Debug, PartialEq, Eq)]
pub struct Opening {
    pub order: u32,
    pub length: u32,
    pub delay: u32,
    pub loss: u32,
    pub advance: u32,
}

/// A call on a voice.
#[derive(Clone, Copy, Debug, PartialEq, Eq)]
#[non_exhaustive]
pub enum Call {
    /// Takes so many samples from the input, into so many places of the output.
    Block {
        input: u32,
        output: u32,
    },
    Loss(u32),
    Pluck {
        amplitude: u32,
        count: u32,
        seed: u32,
    },
    /// A change that takes effect when its second copy of the filter has taken as many samples as the advance.
    /// Each change names an order, which may be another one than that in force.
    Announce {
        order: u32,
        length: u32,
        delay: u32,
    },
    Instant {
        order: u32,
        length: u32,
        delay: u32,
    },
    /// A change that waits for its commit.
    Ask {
        order: u32,
        length: u32,
        delay: u32,
    },
    /// Puts the asked change in force before the next sample.
    Commit,
    /// Drops the asked change.
    Withdraw,
}

impl Call {
    /// The four words of the call: its kind, and three numbers.
    pub fn words(self) -> [u32; 4] {
        match self {
            Call::Block { input, output } => [0, input, output, 0],
            Call::Loss(loss) => [1, loss, 0, 0],
            Call::Pluck { amplitude, count, seed } => [2, amplitude, count, seed],
            Call::Announce { order, length, delay } => [3, order, length, delay],
            Call::Instant { order, length, delay } => [4, order, length, delay],
            Call::Ask { order, length, delay } => [5, order, length, delay],
            Call::Commit => [6, 0, 0, 0],
            Call::Withdraw => [7, 0, 0, 0],
        }
    }

    /// The words of calls, one after the other.
    pub fn list(calls: &[Call]) -> Vec<u32> {
        calls.iter().flat_map(|call| call.words()).collect()
    }
}

/// What a list of calls did.
#[derive(Clone, Copy, Debug, PartialEq, Eq)]
pub struct Performed {
    /// What the opening returned, which makes a voice also where it refuses.
    pub opening: Result<(), Refusal>,
    /// Samples of the output that were filled.
    pub written: usize,
}

/// Makes calls, four words each, on a voice of its own, one after the other. `numbers` has what each of
/// them returned: `Refusal::of` says what. What a block puts out follows what those before it put out.
/// Refuses by `ListForm`, before anything is done, where the words are no list, or need more input,
/// output or numbers than there is.
pub fn perform(
    opening: Opening,
    words: &[u32],
    input: &[i32],
    output: &mut [i32],
    numbers: &mut [u32],
) -> Result<Performed, Refusal> {
    let Opening { order, length, delay, loss, advance } = opening;
    let (mut opened, mut written) = (0, 0);
    let (room, to) = (output.len(), output.as_mut_ptr());
    let (places, codes) = (numbers.len(), numbers.as_mut_ptr());
    // SAFETY: each pointer is valid for its length, and none overlaps another.
    let number = unsafe {
        c::jivaszte_perform(
            order,
            length,
            delay,
            loss,
            advance,
            words.as_ptr(),
            words.len(),
            input.as_ptr(),
            input.len(),
            to,
            room,
            codes,
            places,
            &mut opened,
            &mut written,
        )
    };
    Refusal::of(number)?;
    Ok(Performed { opening: Refusal::of(opened), written })
}
