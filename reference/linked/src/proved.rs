//! The functions of include/fibexp.h. Each service answers the refusal's number, 0 where the call isn't
//! refused; `hofstadter` answers G(n) and `height` h. `reply` answers the status of the tool's reply.

mod c {
    extern "C" {
        pub fn fibexp_fibonacci(index: u32, value: *mut u64) -> u32;
        pub fn fibexp_places(n: u64, places: *mut u8, room: usize, count: *mut u32) -> u32;
        pub fn fibexp_number(places: *const u8, count: usize, n: *mut u64) -> u32;
        pub fn fibexp_hofstadter(n: u64) -> u64;
        pub fn fibexp_height(r: u32) -> u32;
        pub fn fibexp_inverse(k: u32, r: u32, inverse: *mut u32) -> u32;
        pub fn fibexp_build(
            p: u32,
            r: u32,
            k: u32,
            variant: u32,
            words: *mut u32,
            room: usize,
            count: *mut u32,
        ) -> u32;
        pub fn fibexp_check(tape: *const u32, words: usize) -> u32;
        pub fn fibexp_load(tape: *const u32, words: usize, base: u32, record: *mut u32) -> u32;
        pub fn fibexp_run(tape: *const u32, words: usize, record: *mut u32, to: u32) -> u32;
        pub fn fibexp_step(tape: *const u32, words: usize, record: *mut u32, backward: u32) -> u32;
        pub fn fibexp_preview(
            tape: *const u32,
            words: usize,
            record: *const u32,
            to: u32,
            registers: *mut u32,
            counts: *mut u32,
        ) -> u32;
        pub fn fibexp_raise(tape: *const u32, words: usize, bases: *mut u32, count: usize) -> u32;
        pub fn fibexp_trace(
            tape: *const u32,
            words: usize,
            position: u32,
            exponents: *mut i64,
        ) -> u32;
        pub fn fibexp_table(tape: *const u32, words: usize, position: u32, table: *mut i64) -> u32;
        pub fn fibexp_cut(
            tape: *const u32,
            words: usize,
            first: u32,
            last: u32,
            start: *mut u32,
            count: *mut u32,
        ) -> u32;
        pub fn fibexp_listing(
            bytes: *const u8,
            count: usize,
            lines: *mut u8,
            room: usize,
            written: *mut u32,
        ) -> u32;
        pub fn fibexp_reply(
            arguments: *const u8,
            count: usize,
            input: *const u8,
            bytes: usize,
            text: *mut u8,
            room: usize,
            written: *mut usize,
        ) -> u32;
        pub fn fibexp_reads(arguments: *const u8, count: usize) -> u32;
    }
}

pub fn fibonacci(index: u32, value: &mut u64) -> u32 {
    unsafe { c::fibexp_fibonacci(index, value) }
}

pub fn places(n: u64, list: &mut [u8], count: &mut u32) -> u32 {
    unsafe { c::fibexp_places(n, list.as_mut_ptr(), list.len(), count) }
}

pub fn number(list: &[u8], n: &mut u64) -> u32 {
    unsafe { c::fibexp_number(list.as_ptr(), list.len(), n) }
}

pub fn hofstadter(n: u64) -> u64 {
    unsafe { c::fibexp_hofstadter(n) }
}

pub fn height(r: u32) -> u32 {
    unsafe { c::fibexp_height(r) }
}

pub fn inverse(k: u32, r: u32, inverse: &mut u32) -> u32 {
    unsafe { c::fibexp_inverse(k, r, inverse) }
}

pub fn build(p: u32, r: u32, k: u32, variant: u32, row: &mut [u32], count: &mut u32) -> u32 {
    unsafe { c::fibexp_build(p, r, k, variant, row.as_mut_ptr(), row.len(), count) }
}

pub fn check(tape: &[u32]) -> u32 {
    unsafe { c::fibexp_check(tape.as_ptr(), tape.len()) }
}

pub fn load(tape: &[u32], base: u32, record: &mut [u32; 5]) -> u32 {
    unsafe { c::fibexp_load(tape.as_ptr(), tape.len(), base, record.as_mut_ptr()) }
}

pub fn run(tape: &[u32], record: &mut [u32; 5], to: u32) -> u32 {
    unsafe { c::fibexp_run(tape.as_ptr(), tape.len(), record.as_mut_ptr(), to) }
}

/// Forward where `backward` is 0.
pub fn step(tape: &[u32], record: &mut [u32; 5], backward: u32) -> u32 {
    unsafe { c::fibexp_step(tape.as_ptr(), tape.len(), record.as_mut_ptr(), backward) }
}

/// The counts are of mul, div and swp; the record stays.
pub fn preview(
    tape: &[u32],
    record: &[u32; 5],
    to: u32,
    registers: &mut [u32; 4],
    counts: &mut [u32; 3],
) -> u32 {
    unsafe {
        c::fibexp_preview(
            tape.as_ptr(),
            tape.len(),
            record.as_ptr(),
            to,
            registers.as_mut_ptr(),
            counts.as_mut_ptr(),
        )
    }
}

pub fn raise(tape: &[u32], bases: &mut [u32]) -> u32 {
    unsafe { c::fibexp_raise(tape.as_ptr(), tape.len(), bases.as_mut_ptr(), bases.len()) }
}

pub fn trace(tape: &[u32], position: u32, exponents: &mut [i64; 4]) -> u32 {
    unsafe { c::fibexp_trace(tape.as_ptr(), tape.len(), position, exponents.as_mut_ptr()) }
}

/// The table row by row.
pub fn table(tape: &[u32], position: u32, table: &mut [i64; 16]) -> u32 {
    unsafe { c::fibexp_table(tape.as_ptr(), tape.len(), position, table.as_mut_ptr()) }
}

pub fn cut(tape: &[u32], first: u32, last: u32, start: &mut u32, count: &mut u32) -> u32 {
    unsafe { c::fibexp_cut(tape.as_ptr(), tape.len(), first, last, start, count) }
}

pub fn listing(bytes: &[u8], lines: &mut [u8], written: &mut u32) -> u32 {
    unsafe {
        c::fibexp_listing(
            bytes.as_ptr(),
            bytes.len(),
            lines.as_mut_ptr(),
            lines.len(),
            written,
        )
    }
}

/// The arguments have a zero byte after each word.
pub fn reply(arguments: &[u8], input: &[u8], text: &mut [u8], written: &mut usize) -> u32 {
    unsafe {
        c::fibexp_reply(
            arguments.as_ptr(),
            arguments.len(),
            input.as_ptr(),
            input.len(),
            text.as_mut_ptr(),
            text.len(),
            written,
        )
    }
}

/// 1 where the tool reads a tape for these arguments.
pub fn reads(arguments: &[u8]) -> u32 {
    unsafe { c::fibexp_reads(arguments.as_ptr(), arguments.len()) }
}
