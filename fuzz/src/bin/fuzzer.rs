//! The target that libFuzzer drives; `fuzz/run` builds and starts it. Where FUZZ_BRANCHES names a file, it is written at the end: a byte for each branch,
//! 1 where some input has taken it (`fuzz/branches` reads it).
#![no_main]
#![allow(unsafe_code)]

use fuzz::mutate::mutate;
use second::random::Random;
use std::arch::global_asm;
use std::sync::Mutex;
use std::{env, fs, slice};

unsafe extern "C" {
    /// libFuzzer's own changes: some bytes of the first `size`, of which there may then be up to `max_size`.
    fn LLVMFuzzerMutate(data: *mut u8, size: usize, max_size: usize) -> usize;
    fn atexit(then: extern "C" fn()) -> i32;
    /// The first of the counters, one for each branch, and what follows the last.
    fn first_branch() -> *const u8;
    fn end_of_branches() -> *const u8;
}

// The linker gives names to the ends of the section of the counters. They are written in assembly, since what counts branches has these names too, and
// would come to stand without counters if this module declared them.
global_asm!(
    "first_branch: lea __start___sancov_cntrs(%rip), %rax",
    "ret",
    "end_of_branches: lea __stop___sancov_cntrs(%rip), %rax",
    "ret",
    options(att_syntax)
);

/// Which branches were taken by any input; libFuzzer sets the counters back before each.
static TAKEN: Mutex<Vec<u8>> = Mutex::new(Vec::new());

fn note_branches() {
    // SAFETY: both are ends of one section of bytes, which nobody changes while this runs: there is one thread.
    let counters = unsafe {
        let first = first_branch();
        slice::from_raw_parts(first, end_of_branches().offset_from_unsigned(first))
    };
    let mut taken = TAKEN.lock().expect("one thread");
    taken.resize(counters.len(), 0);
    taken.iter_mut().zip(counters).for_each(|(taken, counter)| *taken |= u8::from(*counter != 0));
}

extern "C" fn write_branches() {
    if let Some(file) = env::var_os("FUZZ_BRANCHES") {
        fs::write(file, &*TAKEN.lock().expect("one thread")).expect("the file for the branches");
    }
}

/// Before the first input.
#[unsafe(no_mangle)]
pub extern "C" fn LLVMFuzzerInitialize(_argc: *mut i32, _argv: *mut *mut *mut u8) -> i32 {
    // SAFETY: the function takes nothing and lives as long as the program.
    unsafe { atexit(write_branches) }
}

/// One input. A difference between the programs ends the process, and libFuzzer keeps the input.
#[unsafe(no_mangle)]
pub extern "C" fn LLVMFuzzerTestOneInput(data: *const u8, size: usize) -> i32 {
    // SAFETY: libFuzzer lends `size` bytes; an empty input may come without any.
    let bytes = if size == 0 { &[][..] } else { unsafe { slice::from_raw_parts(data, size) } };
    if let Err(what) = fuzz::tried(bytes) {
        panic!("{what}");
    }
    if env::var_os("FUZZ_BRANCHES").is_some() {
        note_branches();
    }
    0
}

/// Another input made of this one.
#[unsafe(no_mangle)]
pub extern "C" fn LLVMFuzzerCustomMutator(data: *mut u8, size: usize, max_size: usize, seed: u32) -> usize {
    // SAFETY: libFuzzer lends `max_size` bytes, of which the first `size` are the input.
    let room = unsafe { slice::from_raw_parts_mut(data, max_size) };
    let mut bytes = room[..size].to_vec();
    let mut blindly = |part: &mut [u8]| {
        // SAFETY: pointer and length are of one slice, and what libFuzzer makes may not be longer than it.
        unsafe { LLVMFuzzerMutate(part.as_mut_ptr(), part.len(), part.len()) };
    };
    mutate(&mut bytes, max_size, &mut Random::new(u64::from(seed)), &mut blindly);
    bytes.truncate(max_size);
    room[..bytes.len()].copy_from_slice(&bytes);
    bytes.len()
}
