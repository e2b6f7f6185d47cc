//! The library's functions as `include/sqimrutta.h` declares them, and a wrapper for each that takes slices. This is the only module with `unsafe`.
//!
//! Three things make each wrapper safe for any arguments:
//! - the header asks that a pointer be valid for the length that goes with it. Pointer and length come from one slice, so it is, and a slice of no bytes
//!   has a pointer that is aligned and not null;
//! - it asks that two buffers of one call do not overlap. One that is written to is a `&mut`, which overlaps nothing else that is alive. Two that are
//!   only read may overlap, since nobody changes them;
//! - it promises an answer for any bytes, lengths and numbers, and that nothing is written outside the buffers that are `*mut` here. The library keeps
//!   no pointer after the call.
#![allow(unsafe_code)]

unsafe extern "C" {
    fn sqimrutta_good(image: *const u8, image_len: usize) -> u32;
    fn sqimrutta_start(image: *mut u8, image_len: usize, number: u8, table: *const u8, table_len: usize) -> u32;
    fn sqimrutta_read(image: *const u8, image_len: usize, job: u8, point: u16, out: *mut u8, out_len: usize) -> u32;
    fn sqimrutta_write(
        image: *mut u8,
        image_len: usize,
        job: u8,
        point: u16,
        value: *const u8,
        value_len: usize,
        context: *const u32,
        context_len: usize,
        out: *mut u8,
        out_len: usize,
    ) -> u32;
    fn sqimrutta_delete(
        image: *mut u8,
        image_len: usize,
        job: u8,
        point: u16,
        context: *const u32,
        context_len: usize,
        out: *mut u8,
        out_len: usize,
    ) -> u32;
    fn sqimrutta_take_in(image: *mut u8, image_len: usize, message: *const u8, message_len: usize) -> u32;
    fn sqimrutta_ask(image: *const u8, image_len: usize, to: u8, out: *mut u8, out_len: usize) -> u32;
    fn sqimrutta_reply(
        image: *const u8,
        image_len: usize,
        ask: *const u8,
        ask_len: usize,
        out: *mut u8,
        out_len: usize,
        count: *mut u32,
    ) -> u32;
    fn sqimrutta_repair(image: *mut u8, image_len: usize, reply: *const u8, reply_len: usize) -> u32;
    fn sqimrutta_strip_pass(image: *mut u8, image_len: usize, count: *mut u32) -> u32;
}

pub fn good(image: &[u8]) -> u32 {
    // SAFETY: pointer and length are of one slice, which is only read.
    unsafe { sqimrutta_good(image.as_ptr(), image.len()) }
}

pub fn start(image: &mut [u8], number: u8, table: &[u8]) -> u32 {
    // SAFETY: each pointer goes with the length of its own slice; `image`, the one written to, is borrowed mutably and so overlaps no other.
    unsafe { sqimrutta_start(image.as_mut_ptr(), image.len(), number, table.as_ptr(), table.len()) }
}

pub fn read(image: &[u8], job: u8, point: u16, out: &mut [u8]) -> u32 {
    // SAFETY: each pointer goes with the length of its own slice; `out`, the one written to, is borrowed mutably and so overlaps no other.
    unsafe { sqimrutta_read(image.as_ptr(), image.len(), job, point, out.as_mut_ptr(), out.len()) }
}

pub fn write(image: &mut [u8], job: u8, point: u16, value: &[u8], context: &[u32], out: &mut [u8]) -> u32 {
    // SAFETY: each pointer goes with the length of its own slice, of `context` in counters, as the header counts it; `image` and `out`, which are written
    // to, are borrowed mutably and so overlap no other.
    unsafe {
        sqimrutta_write(
            image.as_mut_ptr(),
            image.len(),
            job,
            point,
            value.as_ptr(),
            value.len(),
            context.as_ptr(),
            context.len(),
            out.as_mut_ptr(),
            out.len(),
        )
    }
}

pub fn delete(image: &mut [u8], job: u8, point: u16, context: &[u32], out: &mut [u8]) -> u32 {
    // SAFETY: each pointer goes with the length of its own slice, of `context` in counters, as the header counts it; `image` and `out`, which are written
    // to, are borrowed mutably and so overlap no other.
    unsafe {
        sqimrutta_delete(
            image.as_mut_ptr(),
            image.len(),
            job,
            point,
            context.as_ptr(),
            context.len(),
            out.as_mut_ptr(),
            out.len(),
        )
    }
}

pub fn take_in(image: &mut [u8], message: &[u8]) -> u32 {
    // SAFETY: each pointer goes with the length of its own slice; `image`, the one written to, is borrowed mutably and so overlaps no other.
    unsafe { sqimrutta_take_in(image.as_mut_ptr(), image.len(), message.as_ptr(), message.len()) }
}

pub fn ask(image: &[u8], to: u8, out: &mut [u8]) -> u32 {
    // SAFETY: each pointer goes with the length of its own slice; `out`, the one written to, is borrowed mutably and so overlaps no other.
    unsafe { sqimrutta_ask(image.as_ptr(), image.len(), to, out.as_mut_ptr(), out.len()) }
}

/// The answer, and the count that goes with it.
pub fn reply(image: &[u8], ask: &[u8], out: &mut [u8]) -> (u32, u32) {
    let mut count = 0;
    // SAFETY: each pointer goes with the length of its own slice; `out` and `count`, which are written to, are borrowed mutably and so overlap no other.
    let answer = unsafe {
        sqimrutta_reply(image.as_ptr(), image.len(), ask.as_ptr(), ask.len(), out.as_mut_ptr(), out.len(), &mut count)
    };
    (answer, count)
}

pub fn repair(image: &mut [u8], reply: &[u8]) -> u32 {
    // SAFETY: each pointer goes with the length of its own slice; `image`, the one written to, is borrowed mutably and so overlaps no other.
    unsafe { sqimrutta_repair(image.as_mut_ptr(), image.len(), reply.as_ptr(), reply.len()) }
}

/// The answer, and the count that goes with it.
pub fn strip_pass(image: &mut [u8]) -> (u32, u32) {
    let mut count = 0;
    // SAFETY: pointer and length are of one slice; it and `count`, which are written to, are borrowed mutably and do not overlap.
    let answer = unsafe { sqimrutta_strip_pass(image.as_mut_ptr(), image.len(), &mut count) };
    (answer, count)
}
