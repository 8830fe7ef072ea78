//! A voice in lent memory, with its words open to be changed.

use oracle::call::{Call, UNTOUCHED};
use oracle::cases::random::Random;
use oracle::tuning::Tuning;

extern "C" {
    fn jivaszte_packed_open(
        head: *mut u32,
        line: *mut i32,
        n: u32,
        l: u32,
        d: u32,
        g: u32,
        na: u32,
    ) -> u32;
    fn jivaszte_packed_loss(head: *mut u32, loss: u32) -> u32;
    fn jivaszte_packed_pluck(head: *mut u32, amplitude: u32, count: u32, seed: u32) -> u32;
    fn jivaszte_packed_announce(head: *mut u32, n: u32, l: u32, d: u32) -> u32;
    fn jivaszte_packed_instant(
        head: *mut u32,
        line: *const i32,
        n: u32,
        l: u32,
        d: u32,
        count: *mut u32,
    ) -> u32;
    fn jivaszte_packed_ask(head: *mut u32, n: u32, l: u32, d: u32) -> u32;
    fn jivaszte_packed_commit(head: *mut u32) -> u32;
    fn jivaszte_packed_withdraw(head: *mut u32) -> u32;
    fn jivaszte_packed_block(
        head: *mut u32,
        line: *mut i32,
        input: *const i32,
        samples: usize,
        output: *mut i32,
        room: usize,
    ) -> u32;
    fn jivaszte_packed_play(head: *mut u32, line: *mut i32, output: *mut i32, count: usize) -> u32;
    fn jivaszte_packed_waits(head: *const u32) -> u32;
    fn jivaszte_packed_check(head: *const u32, line: *const i32) -> u32;
}

#[derive(Clone)]
pub struct Lent {
    pub head: [u32; 27],
    pub line: [i32; 2112],
}

impl Lent {
    /// Memory that holds anything: an opening asks nothing of it.
    pub fn any(random: &mut Random) -> Lent {
        let head = std::array::from_fn(|_| random.number() as u32);
        Lent { head, line: std::array::from_fn(|_| random.number() as i32) }
    }

    // SAFETY of what follows: head and line are as long as the routines take them, and slices as long as is said; a
    // voice was opened in them before any other call is made.

    pub fn open(&mut self, opening: [u32; 5]) -> u32 {
        let [n, l, d, g, na] = opening;
        unsafe {
            jivaszte_packed_open(self.head.as_mut_ptr(), self.line.as_mut_ptr(), n, l, d, g, na)
        }
    }

    pub fn waits(&self) -> u32 {
        unsafe { jivaszte_packed_waits(self.head.as_ptr()) }
    }

    pub fn check(&self) -> u32 {
        unsafe { jivaszte_packed_check(self.head.as_ptr(), self.line.as_ptr()) }
    }

    fn block(&mut self, input: &[i32], output: &mut [i32]) -> u32 {
        let (head, line) = (self.head.as_mut_ptr(), self.line.as_mut_ptr());
        let (room, to) = (output.len(), output.as_mut_ptr());
        unsafe { jivaszte_packed_block(head, line, input.as_ptr(), input.len(), to, room) }
    }

    fn play(&mut self, output: &mut [i32]) -> u32 {
        let (head, line) = (self.head.as_mut_ptr(), self.line.as_mut_ptr());
        let (count, to) = (output.len(), output.as_mut_ptr());
        unsafe { jivaszte_packed_play(head, line, to, count) }
    }

    /// A block in pieces cut at random, unless it is refused, which is seen in one piece. Zeros are played half of the
    /// time.
    fn pieces(&mut self, input: &[i32], output: &mut [i32], random: &mut Random) -> u32 {
        let sample = |x: &i32| x.unsigned_abs() <= 8_388_607;
        if input.len() != output.len() || !input.iter().all(sample) {
            return self.block(input, output);
        }
        let (mut at, mut code) = (0, 0);
        loop {
            let most = (input.len() - at) as u64;
            let end = at + random.below(most + 1) as usize;
            let zeros = input[at..end].iter().all(|x| *x == 0);
            code |= if zeros && random.one_in(2) {
                self.play(&mut output[at..end])
            } else {
                self.block(&input[at..end], &mut output[at..end])
            };
            at = end;
            if at == input.len() {
                return code;
            }
        }
    }

    /// A call: its number, its count, its output.
    pub fn make(&mut self, call: &Call, random: &mut Random) -> (u32, u32, Vec<i32>) {
        let head = self.head.as_mut_ptr();
        let (mut count, mut output) = (0, Vec::new());
        let code = match call {
            Call::Loss { loss } => unsafe { jivaszte_packed_loss(head, *loss) },
            Call::Pluck { amplitude, count, seed } => unsafe {
                jivaszte_packed_pluck(head, *amplitude, *count, *seed)
            },
            Call::Announced { to: Tuning { order, length, delay } } => unsafe {
                jivaszte_packed_announce(head, *order, *length, *delay)
            },
            Call::Instant { to: Tuning { order, length, delay } } => unsafe {
                jivaszte_packed_instant(
                    head,
                    self.line.as_ptr(),
                    *order,
                    *length,
                    *delay,
                    &mut count,
                )
            },
            Call::Asked { to: Tuning { order, length, delay } } => unsafe {
                jivaszte_packed_ask(head, *order, *length, *delay)
            },
            Call::Commit => unsafe { jivaszte_packed_commit(head) },
            Call::Withdraw => unsafe { jivaszte_packed_withdraw(head) },
            Call::Block { input, places } => {
                output = vec![UNTOUCHED; *places];
                self.pieces(input, &mut output, random)
            }
        };
        (code, count, output)
    }
}
