//! The layout of a fuzzer's input: a head of 72 bytes, then the first bytes of the image, then the message.
//!
//! | bytes | what |
//! |---|---|
//! | 0 | modulo 10: 0 `good`, 1 to 9 the calls |
//! | 1 | the number: start the controller's, read, write and delete the job, ask whom |
//! | 2-3 | the point |
//! | 4 | bit 0: the checks of the image's blocks are mended before the call; bit 1: those of the message's |
//! | 5 | modulo 16: how many counters the context has |
//! | 6-7 | the length of the buffer to write to |
//! | 8-9 | how many bytes of the image stand here |
//! | 10-11 | the length of the image: it is cut to it, or lengthened with zeros |
//! | 12-71 | 15 counters, of which the context has the first |
//!
//! All numbers are little-endian. Since a fuzzer does not guess check sums, they are mended where the input says so; a block that begins with 0 is left
//! alone, as those after an image's last point are zeros.

use second::block::{mend, BLOCK};
use second::call::{Call, Op};

/// The length of the head.
pub const HEAD: usize = 72;
/// The length of a whole image.
const IMAGE: usize = 67 * BLOCK;
/// What stands in a buffer before a call writes to it.
const OLD: u8 = 0xa5;
const COUNTERS: usize = 15;

/// What the input asks for.
pub enum Asked {
    /// Whether these bytes are a good image.
    Good(Vec<u8>),
    /// One of the nine calls.
    Call(Call),
}

/// An input, taken apart.
pub struct Input {
    head: [u8; HEAD],
    image: Vec<u8>,
    message: Vec<u8>,
}

fn mend_all(bytes: &mut [u8]) {
    bytes.chunks_exact_mut(BLOCK).filter(|block| block[0] != 0).for_each(mend);
}

/// Whether all its blocks have the right check, but for those that begin with 0.
pub fn mended(bytes: &[u8]) -> bool {
    let mut copy = bytes.to_vec();
    mend_all(&mut copy);
    copy == bytes
}

impl Input {
    /// Any bytes are an input: what is missing of the head is 0.
    pub fn read(bytes: &[u8]) -> Input {
        let mut head = [0; HEAD];
        let here = bytes.len().min(HEAD);
        head[..here].copy_from_slice(&bytes[..here]);
        let rest = &bytes[here..];
        let given = usize::from(u16::from_le_bytes([head[8], head[9]])).min(rest.len());
        Input { head, image: rest[..given].to_vec(), message: rest[given..].to_vec() }
    }

    fn short(&self, at: usize) -> u16 {
        u16::from_le_bytes([self.head[at], self.head[at + 1]])
    }

    /// The call with its buffers.
    pub fn asked(self) -> Asked {
        let (point, out, length) = (self.short(2), self.short(6), self.short(10));
        let Input { head, mut image, message: mut input } = self;
        image.resize(usize::from(length), 0);
        if head[4] & 1 != 0 {
            mend_all(&mut image);
        }
        if head[4] & 2 != 0 {
            mend_all(&mut input);
        }
        let Some(op) = Op::numbered(head[0] % 10) else {
            return Asked::Good(image);
        };
        let counters = head[12..].chunks_exact(4).map(|four| u32::from_le_bytes(four.try_into().expect("four bytes")));
        let context = counters.take(usize::from(head[5] % 16)).collect();
        Asked::Call(Call { op, number: head[1], point, image, input, context, out: vec![OLD; usize::from(out)] })
    }

    /// The input that asks for this call; none for one that has a longer buffer than an input can say.
    pub fn of(call: &Call) -> Option<Vec<u8>> {
        let used = call.image.iter().rposition(|byte| *byte != 0).map_or(0, |last| last + 1);
        let given = used.next_multiple_of(BLOCK).min(call.image.len());
        let mut head = [0; HEAD];
        head[..2].copy_from_slice(&[call.op as u8, call.number]);
        head[2..4].copy_from_slice(&call.point.to_le_bytes());
        head[4] = u8::from(mended(&call.image)) | u8::from(mended(&call.input)) << 1;
        head[5] = u8::try_from(call.context.len()).ok().filter(|many| usize::from(*many) <= COUNTERS)?;
        for (at, length) in [(6, call.out.len()), (8, given), (10, call.image.len())] {
            head[at..at + 2].copy_from_slice(&u16::try_from(length).ok()?.to_le_bytes());
        }
        for (place, counter) in head[12..].chunks_exact_mut(4).zip(&call.context) {
            place.copy_from_slice(&counter.to_le_bytes());
        }
        Some([&head[..], &call.image[..given], &call.input].concat())
    }

    /// The input that asks whether this image is good, which is whole or has an input's length.
    pub fn of_good(image: &[u8]) -> Option<Vec<u8>> {
        let mut bytes = Input::of(&Call::on(Op::StripPass, image.to_vec()))?;
        bytes[0] = crate::GOOD;
        Some(bytes)
    }
}

/// Where the image's and the message's whole blocks stand in an input.
pub fn blocks(bytes: &[u8]) -> Vec<usize> {
    if bytes.len() < HEAD {
        return Vec::new();
    }
    let given = usize::from(u16::from_le_bytes([bytes[8], bytes[9]])).min(bytes.len() - HEAD).min(IMAGE);
    let (image, message) = (HEAD..HEAD + given, HEAD + given..bytes.len());
    [image, message]
        .into_iter()
        .flat_map(|part| part.clone().step_by(BLOCK).filter(move |at| at + BLOCK <= part.end))
        .collect()
}
