//! A junction of two tubes that the host keeps.

use crate::c;
use crate::Refusal;
use std::fmt;

/// A junction of 64 bytes in the caller's memory. [`Junction::open`] makes it, and only the calls below change
/// it, so that safe code cannot give the library any other. A clone goes on by itself.
///
/// ```
/// use jivaszte::{Junction, Refusal};
/// let mut junction = Junction::open(2, 1, 4_096, 8)?;
/// assert_eq!(junction.sample(3_000, 0)?, (0, 0));
/// assert_eq!(junction.sample(0, 0)?, (4_000, 1_000));
/// junction.move_to(5_000)?;
/// assert_eq!(junction.move_to(6_000), Err(Refusal::ChangeWaits));
/// assert_eq!(Junction::open(0, 1, 4_096, 8).unwrap_err(), Refusal::Area);
/// # Ok::<(), Refusal>(())
/// ```
#[derive(Clone)]
pub struct Junction {
    words: [u32; 16],
}

impl Junction {
    /// A junction at rest: two areas, the delay in 1/4,096 of a sample and the advance of a move. Refuses by
    /// `Area`, `Delay`, `Advance`.
    pub fn open(left: u32, right: u32, delay: u32, advance: u32) -> Result<Junction, Refusal> {
        let mut words = [0; 16];
        // SAFETY: an opening asks nothing of the memory, and leaves a junction in it.
        let number = unsafe { c::jivaszte_junction_open(&mut words, left, right, delay, advance) };
        Refusal::of(number).map(|()| Junction { words })
    }

    // SAFETY of what follows: the words are a junction, since an opening made them and each call leaves one.

    /// Announces another delay, which takes effect after as many samples as the advance. Refuses by `Delay`,
    /// `ChangeWaits`.
    pub fn move_to(&mut self, delay: u32) -> Result<(), Refusal> {
        Refusal::of(unsafe { c::jivaszte_junction_move(&mut self.words, delay) })
    }

    /// Takes a sample from the left and one from the right, and returns what goes to the right and to the left.
    /// Refuses by `Sample`.
    pub fn sample(&mut self, from_left: i32, from_right: i32) -> Result<(i32, i32), Refusal> {
        let (mut right, mut left) = (0, 0);
        let number = unsafe {
            c::jivaszte_junction_sample(
                &mut self.words,
                from_left,
                from_right,
                &mut right,
                &mut left,
            )
        };
        Refusal::of(number).map(|()| (right, left))
    }
}

impl fmt::Debug for Junction {
    fn fmt(&self, f: &mut fmt::Formatter) -> fmt::Result {
        f.debug_struct("Junction").finish_non_exhaustive()
    }
}
