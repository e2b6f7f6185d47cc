//! One call with its lent buffers, and the two programs that can make it.

use beside::Library;
use second::store::{Second, Store};

unsafe extern "C" {
    fn bare_checks(image: *const u8) -> u32;
    fn bare_checks_unrolled(image: *const u8) -> u32;
}

/// Who makes the call.
#[derive(Clone, Copy, PartialEq, Eq)]
#[repr(u8)]
pub enum Maker {
    /// The verified library.
    Library,
    /// The second program.
    Second,
    /// The bare check sums in C, beside `good`: at -O3, and with unrolled loops.
    Checks,
    ChecksUnrolled,
}

#[derive(Clone, Copy, PartialEq, Eq)]
pub enum Name {
    Good,
    Start,
    Read,
    Write,
    Delete,
    TakeIn,
    Ask,
    Reply,
    Repair,
    StripPass,
}

/// A call with everything lent to it. What a call does not lend is empty.
#[derive(Clone, PartialEq, Eq)]
pub struct Case {
    pub name: Name,
    /// start: the number; read, write, delete: the job; ask: whom.
    pub number: u8,
    pub point: u16,
    pub image: Vec<u8>,
    /// The table, value, message, ask or reply.
    pub input: Vec<u8>,
    pub context: [u32; 8],
    pub out: Vec<u8>,
}

impl Case {
    /// Puts back what a call may have changed, without new memory.
    pub fn restore(&mut self, from: &Case) {
        self.image.copy_from_slice(&from.image);
        self.out.copy_from_slice(&from.out);
    }

    /// Makes the call: the answer's number (of `good`: 0 for good, 2 for not) and the count, 0 where there is none.
    #[inline(never)]
    pub fn make(&mut self, maker: Maker) -> (u32, u32) {
        match maker {
            Maker::Library => self.by(&Library),
            Maker::Second => self.by(&Second),
            // They count the blocks whose check is right.
            // SAFETY: both read 67 blocks, and the image has as many.
            Maker::Checks => (0, unsafe { bare_checks(self.image.as_ptr()) }),
            // SAFETY: as above.
            Maker::ChecksUnrolled => (0, unsafe { bare_checks_unrolled(self.image.as_ptr()) }),
        }
    }

    /// `good` is answered by 0, "accepted", or by 2, "not good".
    fn by(&mut self, store: &dyn Store) -> (u32, u32) {
        let Case { name, number, point, image, input, context, out } = self;
        let answer = match name {
            Name::Good => return (if store.good(image) { 0 } else { 2 }, 0),
            Name::Start => store.start(image, *number, input).map(|()| 0),
            Name::Read => store.read(image, *number, *point, out).map(|()| 0),
            Name::Write => store.write(image, *number, *point, input, context, out).map(|()| 0),
            Name::Delete => store.delete(image, *number, *point, context, out).map(|()| 0),
            Name::TakeIn => store.take_in(image, input).map(|()| 0),
            Name::Ask => store.ask(image, *number, out).map(|()| 0),
            Name::Reply => store.reply(image, input, out),
            Name::Repair => store.repair(image, input).map(|()| 0),
            Name::StripPass => store.strip_pass(image),
        };
        match answer {
            Ok(count) => (0, count),
            Err(refusal) => (refusal.number(), 0),
        }
    }
}
