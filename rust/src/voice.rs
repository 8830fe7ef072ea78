//! A voice that the host keeps, for calls between blocks.

use crate::c;
use crate::{Opening, Refusal};
use std::fmt;

/// A voice of 8,556 bytes in the caller's memory. [`Voice::open`] and [`Voice::from_bytes`] make it, and only
/// the calls below change it, so that safe code cannot give the library any other. A clone goes on by itself.
///
/// ```
/// use jivaszte::{Opening, Refusal, Voice};
/// let opening = Opening { order: 1, length: 99, delay: 2_979, loss: 65_000, advance: 64 };
/// let mut voice = Voice::open(opening)?;
/// let mut block = [0; 64];
/// voice.pluck(200, 100, 1)?;
/// voice.play(&mut block);
/// voice.announce(1, 88, 3_000)?;
/// assert_eq!(voice.waits(), 64);
/// assert_eq!(voice.announce(1, 80, 3_000), Err(Refusal::ChangeWaits));
/// voice.play(&mut block);
/// assert_eq!(voice.waits(), 0);
/// # Ok::<(), Refusal>(())
/// ```
#[derive(Clone)]
pub struct Voice {
    pub(crate) head: [u32; 27],
    pub(crate) line: [i32; 2112],
}

impl Voice {
    /// A voice at rest. Refuses by `Order`, `Length`, `Delay`, `Loss`, `Advance`.
    pub fn open(opening: Opening) -> Result<Voice, Refusal> {
        let mut voice = Voice { head: [0; 27], line: [0; 2112] };
        voice.reopen(opening).map(|()| voice)
    }

    /// Opens the voice anew. Where that is refused, a voice at rest of order 1, length 1, delay 4,096, loss 0
    /// and advance 0 is left.
    pub fn reopen(&mut self, opening: Opening) -> Result<(), Refusal> {
        let Opening { order, length, delay, loss, advance } = opening;
        // SAFETY: an opening asks nothing of the memory, and leaves a voice in it.
        Refusal::of(unsafe {
            c::jivaszte_packed_open(
                &mut self.head,
                &mut self.line,
                order,
                length,
                delay,
                loss,
                advance,
            )
        })
    }

    // SAFETY of all that follows: head and line are a voice, since an opening or a load made them and each call
    // leaves one; the slices are valid for their lengths, and overlap neither each other nor the voice.

    /// Sets the loss. Refuses by `Loss`.
    pub fn loss(&mut self, loss: u32) -> Result<(), Refusal> {
        Refusal::of(unsafe { c::jivaszte_packed_loss(&mut self.head, loss) })
    }

    /// Starts a pluck in place of the rest of the old one. Refuses by `Amplitude`, `Count`.
    pub fn pluck(&mut self, amplitude: u32, count: u32, seed: u32) -> Result<(), Refusal> {
        Refusal::of(unsafe { c::jivaszte_packed_pluck(&mut self.head, amplitude, count, seed) })
    }

    /// Announces a change, which takes effect after as many samples as the advance. Refuses by `Order`, `Length`,
    /// `Delay`, `ChangeWaits`.
    pub fn announce(&mut self, order: u32, length: u32, delay: u32) -> Result<(), Refusal> {
        Refusal::of(unsafe { c::jivaszte_packed_announce(&mut self.head, order, length, delay) })
    }

    /// Changes at once, and returns how many samples of the line its second filter was run over. Refuses as
    /// [`Voice::announce`] does.
    pub fn instant(&mut self, order: u32, length: u32, delay: u32) -> Result<u32, Refusal> {
        let mut count = 0;
        let number = unsafe {
            c::jivaszte_packed_instant(&mut self.head, &self.line, order, length, delay, &mut count)
        };
        Refusal::of(number).map(|()| count)
    }

    /// Asks for a change, which waits for its commit. Refuses as [`Voice::announce`] does.
    pub fn ask(&mut self, order: u32, length: u32, delay: u32) -> Result<(), Refusal> {
        Refusal::of(unsafe { c::jivaszte_packed_ask(&mut self.head, order, length, delay) })
    }

    /// Puts the asked change in force, before the next sample. Refuses by `NothingAsked`, `CommitEarly`.
    pub fn commit(&mut self) -> Result<(), Refusal> {
        Refusal::of(unsafe { c::jivaszte_packed_commit(&mut self.head) })
    }

    /// Drops the asked change. Refuses by `NothingAsked`.
    pub fn withdraw(&mut self) -> Result<(), Refusal> {
        Refusal::of(unsafe { c::jivaszte_packed_withdraw(&mut self.head) })
    }

    /// A block: an output for each input. Refuses by `BlockLengths`, `Sample`, and then leaves the output as it
    /// was.
    pub fn block(&mut self, input: &[i32], output: &mut [i32]) -> Result<(), Refusal> {
        let (room, to) = (output.len(), output.as_mut_ptr());
        Refusal::of(unsafe {
            c::jivaszte_packed_block(
                &mut self.head,
                &mut self.line,
                input.as_ptr(),
                input.len(),
                to,
                room,
            )
        })
    }

    /// A block of zeros, as long as the output: never refused.
    pub fn play(&mut self, output: &mut [i32]) {
        let (count, to) = (output.len(), output.as_mut_ptr());
        unsafe { c::jivaszte_packed_play(&mut self.head, &mut self.line, to, count) };
    }

    /// How many samples an announced change still takes, or an asked one until its commit is accepted; 0 where
    /// none waits.
    pub fn waits(&self) -> u32 {
        unsafe { c::jivaszte_packed_waits(&self.head) }
    }

    /// Whether this is a voice by the library's own test, as it always is: for tests of a host.
    pub fn check(&self) -> bool {
        unsafe { c::jivaszte_packed_check(&self.head, &self.line) == 1 }
    }
}

impl fmt::Debug for Voice {
    fn fmt(&self, f: &mut fmt::Formatter) -> fmt::Result {
        f.debug_struct("Voice").field("waits", &self.waits()).finish_non_exhaustive()
    }
}
