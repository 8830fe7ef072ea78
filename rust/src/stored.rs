//! A stored voice, and what a panel shows of one.

use crate::c;
use crate::{Refusal, Voice};

/// The most bytes that a stored voice has.
pub const STORED_MOST: usize = 8_529;

impl Voice {
    /// The voice that [`Voice::to_bytes`] stored, which goes on as if it had never stopped. Refuses by
    /// `StoredLength`, `StoredPart`. Bytes that pass but that no voice stored give a voice too, for which the
    /// click figure is not claimed until it is opened anew.
    ///
    /// ```
    /// use jivaszte::{Opening, Refusal, Voice};
    /// let opening = Opening { order: 1, length: 99, delay: 2_979, loss: 65_000, advance: 64 };
    /// let mut voice = Voice::open(opening)?;
    /// voice.pluck(200, 100, 1)?;
    /// let mut loaded = Voice::from_bytes(&voice.to_bytes())?;
    /// let (mut one, mut other) = ([0; 64], [0; 64]);
    /// voice.play(&mut one);
    /// loaded.play(&mut other);
    /// assert_eq!(one, other);
    /// assert_eq!(Voice::from_bytes(&[]).unwrap_err(), Refusal::StoredLength);
    /// # Ok::<(), Refusal>(())
    /// ```
    pub fn from_bytes(bytes: &[u8]) -> Result<Voice, Refusal> {
        let mut voice = Voice { head: [0; 27], line: [0; 2112] };
        voice.load(bytes).map(|()| voice)
    }

    /// Loads a stored voice in place of this one. Refuses as [`Voice::from_bytes`] does, and then leaves the
    /// voice that a refused [`Voice::reopen`] leaves.
    pub fn load(&mut self, bytes: &[u8]) -> Result<(), Refusal> {
        let (head, line) = (&mut self.head, &mut self.line);
        // SAFETY: a load asks nothing of the memory nor of the bytes, and leaves a voice.
        Refusal::of(unsafe { c::jivaszte_packed_load(head, line, bytes.as_ptr(), bytes.len()) })
    }

    /// Stores the voice in the bytes lent; gives how many they are, at most [`STORED_MOST`]. Nothing past them is
    /// touched. Refuses by `Room` where fewer are lent, and then touches nothing.
    pub fn store(&self, bytes: &mut [u8]) -> Result<usize, Refusal> {
        let mut length = 0;
        let (room, to) = (bytes.len(), bytes.as_mut_ptr());
        // SAFETY: head and line are a voice, as src/voice.rs has it; the bytes overlap neither.
        let number =
            unsafe { c::jivaszte_packed_store(&self.head, &self.line, to, room, &mut length) };
        Refusal::of(number).map(|()| length)
    }

    /// The stored voice, which [`Voice::from_bytes`] takes up: the parts that differ from those of a refused
    /// opening's voice.
    pub fn to_bytes(&self) -> Vec<u8> {
        let mut bytes = vec![0; STORED_MOST];
        let length = self.store(&mut bytes).expect("no stored voice is longer");
        bytes.truncate(length);
        bytes
    }
}

/// What a panel shows of a stored voice.
#[derive(Clone, Copy, Debug, PartialEq, Eq)]
pub struct Panel {
    pub length: u32,
    /// In 1/4,096 of a sample.
    pub delay: u32,
    /// In 1/65,536.
    pub loss: u32,
}

/// The length, the delay and the loss of a stored voice. Refuses as [`Voice::from_bytes`] does.
///
/// ```
/// use jivaszte::{panel, Panel, Refusal};
/// // the byte 00 is the voice of a refused opening
/// assert_eq!(panel(&[0]), Ok(Panel { length: 1, delay: 4_096, loss: 0 }));
/// assert_eq!(panel(&[2, 0, 0, 1, 0]), Err(Refusal::StoredPart));
/// ```
pub fn panel(bytes: &[u8]) -> Result<Panel, Refusal> {
    let (mut length, mut delay, mut loss) = (0, 0, 0);
    // SAFETY: the pointer is valid for its length, and the numbers overlap neither it nor each other.
    let number = unsafe {
        c::jivaszte_panel(bytes.as_ptr(), bytes.len(), &mut length, &mut delay, &mut loss)
    };
    Refusal::of(number).map(|()| Panel { length, delay, loss })
}
