//! Six strings that the host keeps, with one output.

use crate::c;
use crate::{Opening, Refusal, STORED_MOST};
use std::fmt;

/// How many strings an instrument has.
pub const STRINGS: u32 = 6;

/// A frame: strings 0 to 2 left and 3 to 5 right, each side from -1 to 1.
#[derive(Clone, Copy, Debug, PartialEq)]
#[repr(C)]
pub struct Frame {
    pub left: f32,
    pub right: f32,
}

/// Six strings of 51,336 bytes in the caller's memory, each a voice with calls of its own, and the mix of all.
/// [`Instrument::new`] makes it, and only the calls below change it, so that safe code cannot give the library any
/// other. A clone goes on by itself. Each call on a string refuses by `String` first where the number is above 5,
/// and a refused call changes nothing, but that a refused opening or load leaves the refusal voice on its string,
/// where there is one.
///
/// ```
/// use jivaszte::{Instrument, Opening, Refusal};
/// let opening = Opening { order: 1, length: 99, delay: 2_979, loss: 65_000, advance: 64 };
/// let mut instrument = Instrument::new();
/// instrument.open(0, opening)?;
/// instrument.open(5, Opening { length: 74, ..opening })?;
/// instrument.pluck(0, 200, 100, 1)?;
/// instrument.pluck(5, 200, 100, 2)?;
/// let mut block = [0; 256];
/// instrument.play(&mut block);
/// assert!(block.iter().any(|&y| y != 0));
/// assert_eq!(instrument.pluck(6, 200, 100, 1), Err(Refusal::String));
/// # Ok::<(), Refusal>(())
/// ```
#[derive(Clone)]
pub struct Instrument {
    heads: [[u32; 27]; 6],
    lines: [[i32; 2112]; 6],
}

impl Instrument {
    /// Six strings, each a voice at rest of order 1, length 1, delay 4,096, loss 0 and advance 0.
    pub fn new() -> Instrument {
        let mut instrument = Instrument { heads: [[0; 27]; 6], lines: [[0; 2112]; 6] };
        // SAFETY: a reset asks nothing of the memory, and leaves six voices in it.
        unsafe { c::jivaszte_strings_reset(&mut instrument.heads, &mut instrument.lines) };
        instrument
    }

    // SAFETY of all that follows: each head and its line are a voice, since a reset made them and each call leaves
    // six; the slices are valid for their lengths, and overlap neither each other nor the instrument.

    /// Opens a voice on a string. Refuses by `String`, `Order`, `Length`, `Delay`, `Loss`, `Advance`.
    pub fn open(&mut self, string: u32, opening: Opening) -> Result<(), Refusal> {
        let Opening { order, length, delay, loss, advance } = opening;
        Refusal::of(unsafe {
            c::jivaszte_strings_open(
                &mut self.heads,
                &mut self.lines,
                string,
                order,
                length,
                delay,
                loss,
                advance,
            )
        })
    }

    /// Sets the loss of a string. Refuses by `String`, `Loss`.
    pub fn loss(&mut self, string: u32, loss: u32) -> Result<(), Refusal> {
        Refusal::of(unsafe { c::jivaszte_strings_loss(&mut self.heads, string, loss) })
    }

    /// Starts a pluck on a string. Refuses by `String`, `Amplitude`, `Count`.
    pub fn pluck(
        &mut self,
        string: u32,
        amplitude: u32,
        count: u32,
        seed: u32,
    ) -> Result<(), Refusal> {
        Refusal::of(unsafe {
            c::jivaszte_strings_pluck(&mut self.heads, string, amplitude, count, seed)
        })
    }

    /// Announces a change on a string, which takes effect after as many samples as its advance. Refuses by `String`,
    /// `Order`, `Length`, `Delay`, `ChangeWaits`.
    pub fn announce(
        &mut self,
        string: u32,
        order: u32,
        length: u32,
        delay: u32,
    ) -> Result<(), Refusal> {
        Refusal::of(unsafe {
            c::jivaszte_strings_announce(&mut self.heads, string, order, length, delay)
        })
    }

    /// Changes a string at once, and returns how many samples of its line the second filter was run over. Refuses as
    /// [`Instrument::announce`] does.
    pub fn instant(
        &mut self,
        string: u32,
        order: u32,
        length: u32,
        delay: u32,
    ) -> Result<u32, Refusal> {
        let mut count = 0;
        let number = unsafe {
            c::jivaszte_strings_instant(
                &mut self.heads,
                &self.lines,
                string,
                order,
                length,
                delay,
                &mut count,
            )
        };
        Refusal::of(number).map(|()| count)
    }

    /// Asks for a change on a string, which waits for its commit. Refuses as [`Instrument::announce`] does.
    pub fn ask(&mut self, string: u32, order: u32, length: u32, delay: u32) -> Result<(), Refusal> {
        Refusal::of(unsafe {
            c::jivaszte_strings_ask(&mut self.heads, string, order, length, delay)
        })
    }

    /// Puts a string's asked change in force, before the next sample. Refuses by `String`, `NothingAsked`,
    /// `CommitEarly`.
    pub fn commit(&mut self, string: u32) -> Result<(), Refusal> {
        Refusal::of(unsafe { c::jivaszte_strings_commit(&mut self.heads, string) })
    }

    /// Drops a string's asked change. Refuses by `String`, `NothingAsked`.
    pub fn withdraw(&mut self, string: u32) -> Result<(), Refusal> {
        Refusal::of(unsafe { c::jivaszte_strings_withdraw(&mut self.heads, string) })
    }

    /// A block of all six strings: an output, the clipped sum of the six, for each input. Refuses by `BlockLengths`,
    /// `Sample`, and then leaves the strings and the output as they were.
    pub fn mix(&mut self, input: &[i32], output: &mut [i32]) -> Result<(), Refusal> {
        let (room, to) = (output.len(), output.as_mut_ptr());
        Refusal::of(unsafe {
            c::jivaszte_strings_mix(
                &mut self.heads,
                &mut self.lines,
                input.as_ptr(),
                input.len(),
                to,
                room,
            )
        })
    }

    /// A mix of zeros, as long as the output: never refused.
    pub fn play(&mut self, output: &mut [i32]) {
        let (count, to) = (output.len(), output.as_mut_ptr());
        unsafe { c::jivaszte_strings_play(&mut self.heads, &mut self.lines, to, count) };
    }

    /// Stores a string in the bytes lent; gives how many they are, at most [`STORED_MOST`]. Refuses by `String`, `Room`,
    /// and then touches no byte.
    pub fn store(&self, string: u32, bytes: &mut [u8]) -> Result<usize, Refusal> {
        let mut length = 0;
        let (room, to) = (bytes.len(), bytes.as_mut_ptr());
        let number = unsafe {
            c::jivaszte_strings_store(&self.heads, &self.lines, string, to, room, &mut length)
        };
        Refusal::of(number).map(|()| length)
    }

    /// The stored voice of a string, which [`Instrument::load`] and [`Voice::from_bytes`](crate::Voice::from_bytes)
    /// take up. Refuses by `String`.
    ///
    /// ```
    /// use jivaszte::{Instrument, Opening, Refusal};
    /// let mut instrument = Instrument::new();
    /// instrument.open(2, Opening { order: 1, length: 99, delay: 2_979, loss: 65_000, advance: 64 })?;
    /// instrument.pluck(2, 200, 100, 1)?;
    /// let bytes = instrument.to_bytes(2)?;
    /// let mut other = Instrument::new();
    /// other.load(2, &bytes)?;
    /// let (mut here, mut there) = ([0; 256], [0; 256]);
    /// instrument.play(&mut here);
    /// other.play(&mut there);
    /// assert_eq!(here, there);
    /// assert_eq!(instrument.to_bytes(0), Ok(vec![0]));
    /// assert_eq!(instrument.to_bytes(6), Err(Refusal::String));
    /// assert_eq!(other.load(6, &bytes), Err(Refusal::String));
    /// assert_eq!(other.load(2, &[]), Err(Refusal::StoredLength));
    /// assert_eq!(other.to_bytes(2), Ok(vec![0]));
    /// # Ok::<(), Refusal>(())
    /// ```
    pub fn to_bytes(&self, string: u32) -> Result<Vec<u8>, Refusal> {
        let mut bytes = vec![0; STORED_MOST];
        let length = self.store(string, &mut bytes)?;
        bytes.truncate(length);
        Ok(bytes)
    }

    /// Loads a stored voice into a string. Refuses by `String`, and then changes nothing, or by `StoredLength`,
    /// `StoredPart`, and then leaves the refusal voice on the string.
    pub fn load(&mut self, string: u32, bytes: &[u8]) -> Result<(), Refusal> {
        let (heads, lines) = (&mut self.heads, &mut self.lines);
        let (from, length) = (bytes.as_ptr(), bytes.len());
        Refusal::of(unsafe { c::jivaszte_strings_load(heads, lines, string, from, length) })
    }

    /// A host's delay in samples: an announced change of the string, its order kept. Refuses by `String`,
    /// `NotFinite`, `NoteLength`, `ChangeWaits`.
    pub fn event_delay(&mut self, string: u32, samples: f32) -> Result<(), Refusal> {
        Refusal::of(unsafe { c::jivaszte_strings_event_delay(&mut self.heads, string, samples) })
    }

    /// A host's loss, 0 to 1. Refuses by `String`, `NotFinite`, `FloatRange`.
    pub fn event_loss(&mut self, string: u32, loss: f32) -> Result<(), Refusal> {
        Refusal::of(unsafe { c::jivaszte_strings_event_loss(&mut self.heads, string, loss) })
    }

    /// Takes one sample, -1 to 1, for all six strings, and gives one frame. Refuses by `NotFinite`, `FloatRange`.
    ///
    /// ```
    /// use jivaszte::{Frame, Instrument, Refusal};
    /// let mut instrument = Instrument::new();
    /// assert_eq!(instrument.frame(0.25), Ok(Frame { left: 0.0, right: 0.0 }));
    /// assert_eq!(instrument.frame(f32::NAN), Err(Refusal::NotFinite));
    /// ```
    pub fn frame(&mut self, sample: f32) -> Result<Frame, Refusal> {
        let (heads, lines, mut number) = (&mut self.heads, &mut self.lines, 0);
        let frame = unsafe { c::jivaszte_strings_frame(heads, lines, sample, &mut number) };
        Refusal::of(number)?;
        Ok(frame)
    }
}

impl Default for Instrument {
    fn default() -> Instrument {
        Instrument::new()
    }
}

impl fmt::Debug for Instrument {
    fn fmt(&self, f: &mut fmt::Formatter) -> fmt::Result {
        f.debug_struct("Instrument").finish_non_exhaustive()
    }
}
