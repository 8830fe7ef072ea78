//! A voice of the library beside one of the reference: each call, store and load is made by both, and what they give
//! must be the same. Every byte lent is compared.

#[path = "../../src/cases.rs"]
pub mod cases;

use jivaszte::{panel, Opening, Panel, Voice};
use oracle::call::{Call, UNTOUCHED};
use oracle::refusal::number;
use oracle::stored::{self, stored};
use oracle::tuning::Tuning;
use oracle::voice::Voice as Reference;

fn code<T>(result: Result<T, jivaszte::Refusal>) -> u32 {
    result.err().map_or(0, |refusal| refusal.number())
}

/// A call of the library: its number, its count, its output.
fn make(voice: &mut Voice, call: &Call) -> (u32, u32, Vec<i32>) {
    let (mut count, mut output) = (0, Vec::new());
    let answer = match call {
        Call::Loss { loss } => voice.loss(*loss),
        Call::Pluck { amplitude, count, seed } => voice.pluck(*amplitude, *count, *seed),
        Call::Announced { to: Tuning { order, length, delay } } => {
            voice.announce(*order, *length, *delay)
        }
        Call::Instant { to: Tuning { order, length, delay } } => {
            voice.instant(*order, *length, *delay).map(|run| count = run)
        }
        Call::Asked { to: Tuning { order, length, delay } } => voice.ask(*order, *length, *delay),
        Call::Commit => voice.commit(),
        Call::Withdraw => voice.withdraw(),
        Call::Block { input, places } => {
            output = vec![UNTOUCHED; *places];
            voice.block(input, &mut output)
        }
    };
    (code(answer), count, output)
}

/// A voice of the library and one of the reference.
pub struct Pair {
    pub voice: Voice,
    pub reference: Reference,
}

impl Pair {
    pub fn open(opening: [u32; 5]) -> Pair {
        let [order, length, delay, loss, advance] = opening;
        let (reference, answer) = Reference::open(order, length, delay, loss, advance);
        let mut voice = Voice::from_bytes(&[0]).unwrap();
        let opened = voice.reopen(Opening { order, length, delay, loss, advance });
        assert_eq!(code(opened), number(&answer), "{opening:?}");
        Pair { voice, reference }
    }

    pub fn make(&mut self, call: &Call) {
        let wanted = call.make(&mut self.reference);
        let wanted = (number(&wanted.answer), wanted.count, wanted.output);
        assert_eq!(make(&mut self.voice, call), wanted, "{call:?}");
    }

    /// Stores both into so many bytes; gives the number.
    pub fn store(&self, room: usize) -> u32 {
        let (mut got, mut wanted) = (vec![0x4d; room], vec![0x4d; room]);
        let answer = self.voice.store(&mut got);
        let (expected, length) = stored::store(&self.reference, &mut wanted);
        assert_eq!((code(answer), answer.unwrap_or(0)), (number(&expected), length));
        assert!(got == wanted, "stored {got:?}, not {wanted:?}");
        code(answer)
    }

    /// Loads both from the bytes, and shows them on the panel; gives the number.
    pub fn load(&mut self, bytes: &[u8]) -> u32 {
        let (reference, answer) = stored::load(bytes);
        self.reference = reference;
        let loaded = code(self.voice.load(bytes));
        assert_eq!(loaded, number(&answer), "{:?}", &bytes[..bytes.len().min(100)]);
        let (shown, numbers) = stored::panel(bytes);
        assert_eq!(code(panel(bytes)), number(&shown));
        if let Ok(Panel { length, delay, loss }) = panel(bytes) {
            assert_eq!([length, delay, loss], numbers);
        }
        assert_eq!(self.voice.to_bytes(), stored(&self.reference));
        loaded
    }
}
