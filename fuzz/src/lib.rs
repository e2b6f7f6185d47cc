//! A call as a string of bytes that a fuzzer can change: what stands where (`input`), how it is changed (`mutate`), and what both programs say to it.

pub mod input;
pub mod mutate;

use beside::{compared, compared_good, Library};
use input::{Asked, Input};
use second::store::{Second, Store};

/// The number under which the question whether an image is good is counted; the calls have the numbers of `Op`.
pub const GOOD: u8 = 0;

/// Makes the call by two stores: which one it was, and the answer's number (for `good` 0 or 2), or what differs.
pub fn tried_by(bytes: &[u8], one: &dyn Store, other: &dyn Store) -> Result<(u8, u32), String> {
    match Input::read(bytes).asked() {
        Asked::Good(image) => compared_good(&image, one, other).map(|good| (GOOD, if good { 0 } else { 2 })),
        Asked::Call(call) => compared(&call, one, other).map(|(answer, _)| (call.op as u8, answer)),
    }
}

/// The same by the library and the second program.
pub fn tried(bytes: &[u8]) -> Result<(u8, u32), String> {
    tried_by(bytes, &Library, &Second)
}
