//! The routines of include/jivaszte.h as they are linked. Every number and every byte is safe; of the
//! pointers they ask what Rust's references give: valid for their lengths, and no overlap. Those over a
//! head ask for a voice that `jivaszte_packed_open` or `jivaszte_packed_load` made, which src/voice.rs and
//! src/stored.rs alone give them, and those over a junction for one that `jivaszte_junction_open` made,
//! which src/junction.rs alone gives them.

use crate::Frame;

#[link(name = "jivaszte", kind = "static")]
extern "C" {
    pub fn jivaszte_version() -> u32;
    pub fn jivaszte_coefficients(
        order: u32,
        delay: u32,
        a1: &mut i32,
        a2: &mut i32,
        a3: &mut i32,
    ) -> u32;
    pub fn jivaszte_effective_length(
        order: u32,
        delay: u32,
        threshold: u32,
        length: &mut u32,
    ) -> u32;
    pub fn jivaszte_least_advance(order: u32, delay: u32, wanted: u32, advance: &mut u32) -> u32;
    pub fn jivaszte_note(
        order: u32,
        rate: u32,
        note: u32,
        length: &mut u32,
        delay: &mut u32,
    ) -> u32;
    pub fn jivaszte_draw(noise: &mut u32) -> i32;
    pub fn jivaszte_record(score: *const u8, length: usize, fields: &mut [u32; 9]) -> usize;
    pub fn jivaszte_gather(bytes: *const u8, length: usize, start: usize) -> u64;
    pub fn jivaszte_perform(
        order: u32,
        length: u32,
        delay: u32,
        loss: u32,
        advance: u32,
        words: *const u32,
        count: usize,
        input: *const i32,
        samples: usize,
        output: *mut i32,
        room: usize,
        numbers: *mut u32,
        places: usize,
        opening: &mut u32,
        written: &mut usize,
    ) -> u32;
    pub fn jivaszte_packed_open(
        head: &mut [u32; 27],
        line: &mut [i32; 2112],
        order: u32,
        length: u32,
        delay: u32,
        loss: u32,
        advance: u32,
    ) -> u32;
    pub fn jivaszte_packed_loss(head: &mut [u32; 27], loss: u32) -> u32;
    pub fn jivaszte_packed_pluck(
        head: &mut [u32; 27],
        amplitude: u32,
        count: u32,
        seed: u32,
    ) -> u32;
    pub fn jivaszte_packed_announce(
        head: &mut [u32; 27],
        order: u32,
        length: u32,
        delay: u32,
    ) -> u32;
    pub fn jivaszte_packed_instant(
        head: &mut [u32; 27],
        line: &[i32; 2112],
        order: u32,
        length: u32,
        delay: u32,
        count: &mut u32,
    ) -> u32;
    pub fn jivaszte_packed_ask(head: &mut [u32; 27], order: u32, length: u32, delay: u32) -> u32;
    pub fn jivaszte_packed_commit(head: &mut [u32; 27]) -> u32;
    pub fn jivaszte_packed_withdraw(head: &mut [u32; 27]) -> u32;
    pub fn jivaszte_packed_block(
        head: &mut [u32; 27],
        line: &mut [i32; 2112],
        input: *const i32,
        samples: usize,
        output: *mut i32,
        room: usize,
    ) -> u32;
    pub fn jivaszte_packed_play(
        head: &mut [u32; 27],
        line: &mut [i32; 2112],
        output: *mut i32,
        count: usize,
    ) -> u32;
    pub fn jivaszte_packed_waits(head: &[u32; 27]) -> u32;
    pub fn jivaszte_packed_check(head: &[u32; 27], line: &[i32; 2112]) -> u32;
    pub fn jivaszte_packed_store(
        head: &[u32; 27],
        line: &[i32; 2112],
        bytes: *mut u8,
        room: usize,
        length: &mut usize,
    ) -> u32;
    pub fn jivaszte_packed_load(
        head: &mut [u32; 27],
        line: &mut [i32; 2112],
        bytes: *const u8,
        length: usize,
    ) -> u32;
    pub fn jivaszte_panel(
        bytes: *const u8,
        length: usize,
        string_length: &mut u32,
        delay: &mut u32,
        loss: &mut u32,
    ) -> u32;
    pub fn jivaszte_strings_reset(heads: &mut [[u32; 27]; 6], lines: &mut [[i32; 2112]; 6]);
    pub fn jivaszte_strings_open(
        heads: &mut [[u32; 27]; 6],
        lines: &mut [[i32; 2112]; 6],
        string: u32,
        order: u32,
        length: u32,
        delay: u32,
        loss: u32,
        advance: u32,
    ) -> u32;
    pub fn jivaszte_strings_loss(heads: &mut [[u32; 27]; 6], string: u32, loss: u32) -> u32;
    pub fn jivaszte_strings_pluck(
        heads: &mut [[u32; 27]; 6],
        string: u32,
        amplitude: u32,
        count: u32,
        seed: u32,
    ) -> u32;
    pub fn jivaszte_strings_announce(
        heads: &mut [[u32; 27]; 6],
        string: u32,
        order: u32,
        length: u32,
        delay: u32,
    ) -> u32;
    pub fn jivaszte_strings_instant(
        heads: &mut [[u32; 27]; 6],
        lines: &[[i32; 2112]; 6],
        string: u32,
        order: u32,
        length: u32,
        delay: u32,
        count: &mut u32,
    ) -> u32;
    pub fn jivaszte_strings_ask(
        heads: &mut [[u32; 27]; 6],
        string: u32,
        order: u32,
        length: u32,
        delay: u32,
    ) -> u32;
    pub fn jivaszte_strings_commit(heads: &mut [[u32; 27]; 6], string: u32) -> u32;
    pub fn jivaszte_strings_withdraw(heads: &mut [[u32; 27]; 6], string: u32) -> u32;
    pub fn jivaszte_strings_mix(
        heads: &mut [[u32; 27]; 6],
        lines: &mut [[i32; 2112]; 6],
        input: *const i32,
        samples: usize,
        output: *mut i32,
        room: usize,
    ) -> u32;
    pub fn jivaszte_strings_play(
        heads: &mut [[u32; 27]; 6],
        lines: &mut [[i32; 2112]; 6],
        output: *mut i32,
        count: usize,
    ) -> u32;
    pub fn jivaszte_strings_store(
        heads: &[[u32; 27]; 6],
        lines: &[[i32; 2112]; 6],
        string: u32,
        bytes: *mut u8,
        room: usize,
        length: &mut usize,
    ) -> u32;
    pub fn jivaszte_strings_load(
        heads: &mut [[u32; 27]; 6],
        lines: &mut [[i32; 2112]; 6],
        string: u32,
        bytes: *const u8,
        length: usize,
    ) -> u32;
    pub fn jivaszte_run(
        score: *const u8,
        length: usize,
        output: *mut i32,
        room: usize,
        place: &mut usize,
        written: &mut usize,
    ) -> u32;
    pub fn jivaszte_merge(
        first: *const u8,
        n: usize,
        second: *const u8,
        m: usize,
        bytes: *mut u8,
        room: usize,
        length: &mut usize,
    ) -> u32;
    pub fn jivaszte_wav_write(
        rate: u32,
        samples: *const i32,
        count: usize,
        file: *mut u8,
        room: usize,
        bytes: &mut usize,
    ) -> u32;
    pub fn jivaszte_wav_read(
        file: *const u8,
        length: usize,
        samples: *mut i32,
        room: usize,
        rate: &mut u32,
        count: &mut usize,
    ) -> u32;
    pub fn jivaszte_junction_open(
        junction: &mut [u32; 16],
        left_area: u32,
        right_area: u32,
        delay: u32,
        advance: u32,
    ) -> u32;
    pub fn jivaszte_junction_move(junction: &mut [u32; 16], delay: u32) -> u32;
    pub fn jivaszte_junction_sample(
        junction: &mut [u32; 16],
        from_left: i32,
        from_right: i32,
        to_right: &mut i32,
        to_left: &mut i32,
    ) -> u32;
    pub fn jivaszte_split(order: u32, samples: f32, length: &mut u32, delay: &mut u32) -> u32;
    pub fn jivaszte_strings_event_delay(
        heads: &mut [[u32; 27]; 6],
        string: u32,
        samples: f32,
    ) -> u32;
    pub fn jivaszte_strings_event_loss(heads: &mut [[u32; 27]; 6], string: u32, loss: f32) -> u32;
    pub fn jivaszte_strings_frame(
        heads: &mut [[u32; 27]; 6],
        lines: &mut [[i32; 2112]; 6],
        sample: f32,
        number: &mut u32,
    ) -> Frame;
}
