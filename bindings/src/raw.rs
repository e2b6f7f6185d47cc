//! The ten functions on buffers that the caller keeps, of any length: for firmware that has its image in memory of its own, and no allocator.
//!
//! A wrong length, like anything else that is wrong, is the library's to refuse. A refused call has changed no byte of any buffer. What each call does and
//! when it refuses is said more fully at the methods of [`Image`](crate::Image) and in `include/sqimrutta.h`.

use crate::{ffi, Refusal};

/// The library's number as a result: 0 is "accepted".
fn answer(number: u32) -> Result<(), Refusal> {
    match number {
        0 => Ok(()),
        refused => Err(Refusal::from_number(refused).unwrap_or(Refusal::Unknown(refused))),
    }
}

/// The same for a call that also counts. A refused one counts nothing.
fn counted((number, count): (u32, u32)) -> Result<u32, Refusal> {
    answer(number).map(|()| count)
}

/// Whether these bytes are a good image. It refuses nothing: bytes of another length are not one.
///
/// ```
/// use sqimrutta::raw;
///
/// let mut image = [0; sqimrutta::IMAGE];
/// assert!(!raw::good(&image));
/// raw::start(&mut image, 1, &[1, 0, 0, 0, 0, 0, 0, 0])?;
/// assert!(raw::good(&image));
/// assert!(!raw::good(&image[1..]));
/// # Ok::<(), sqimrutta::Refusal>(())
/// ```
pub fn good(image: &[u8]) -> bool {
    ffi::good(image) == 1
}

/// A fresh image for the controller `number`, 1..8, with the crew's table. `image` has [`IMAGE`](crate::IMAGE) bytes, `table` [`TABLE`](crate::TABLE).
/// Refusals 1, 5.
///
/// ```
/// use sqimrutta::{raw, Refusal};
///
/// let mut image = [0; sqimrutta::IMAGE];
/// let table = [0b11, 0, 0, 0, 0, 0, 0, 0];
/// assert_eq!(raw::start(&mut image, 1, &table), Ok(()));
/// assert_eq!(raw::start(&mut image, 9, &table), Err(Refusal::OutOfRange));
/// assert_eq!(raw::start(&mut image, 1, &table[1..]), Err(Refusal::WrongLength));
/// ```
pub fn start(image: &mut [u8], number: u8, table: &[u8]) -> Result<(), Refusal> {
    answer(ffi::start(image, number, table))
}

/// What a point shows, as a block of kind 7 in `out`, of [`BLOCK`](crate::BLOCK) bytes; [`Reading::from_block`](crate::Reading::from_block) takes it apart.
/// Refusals 1, 2, 5.
///
/// ```
/// use sqimrutta::{raw, Reading};
///
/// let mut image = [0; sqimrutta::IMAGE];
/// let mut block = [0; sqimrutta::BLOCK];
/// raw::start(&mut image, 1, &[1, 0, 0, 0, 0, 0, 0, 0])?;
/// raw::read(&image, 0, 7, &mut block)?;
/// assert_eq!(Reading::from_block(&block).map(|reading| reading.point()), Some(7));
/// # Ok::<(), sqimrutta::Refusal>(())
/// ```
pub fn read(image: &[u8], job: u8, point: u16, out: &mut [u8]) -> Result<(), Refusal> {
    answer(ffi::read(image, job, point, out))
}

/// Writes a value; the message to send is then in `out`, of [`BLOCK`](crate::BLOCK) bytes. `context` has [`CONTEXT`](crate::CONTEXT) counters. Store the
/// image before the message is sent. Refusals 1, 2, 5, 7, 8, 12, 13, 14, 15.
///
/// ```
/// use sqimrutta::{raw, Context, Refusal};
///
/// let mut image = [0; sqimrutta::IMAGE];
/// let mut message = [0; sqimrutta::BLOCK];
/// raw::start(&mut image, 1, &[1, 0, 0, 0, 0, 0, 0, 0])?;
/// let nothing_seen = Context::EMPTY;
/// raw::write(&mut image, 0, 7, b"BASE", nothing_seen.counters(), &mut message)?;
/// assert_eq!(message[0], 4);
///
/// let too_long = [0; sqimrutta::VALUE + 1];
/// let answer = raw::write(&mut image, 0, 7, &too_long, nothing_seen.counters(), &mut message);
/// assert_eq!(answer, Err(Refusal::ValueTooLong));
/// # Ok::<(), sqimrutta::Refusal>(())
/// ```
pub fn write(
    image: &mut [u8],
    job: u8,
    point: u16,
    value: &[u8],
    context: &[u32],
    out: &mut [u8],
) -> Result<(), Refusal> {
    answer(ffi::write(image, job, point, value, context, out))
}

/// Deletes what was seen of a point; `context` and `out` are as for [`write()`]. Refusals 1, 2, 5, 8, 12, 14, 15.
///
/// ```
/// use sqimrutta::{raw, Reading};
///
/// let mut image = [0; sqimrutta::IMAGE];
/// let (mut message, mut block) = ([0; sqimrutta::BLOCK], [0; sqimrutta::BLOCK]);
/// raw::start(&mut image, 1, &[1, 0, 0, 0, 0, 0, 0, 0])?;
/// raw::write(&mut image, 0, 7, b"BASE", &[0; 8], &mut message)?;
/// raw::delete(&mut image, 0, 7, &[1, 0, 0, 0, 0, 0, 0, 0], &mut message)?;
/// raw::read(&image, 0, 7, &mut block)?;
/// assert_eq!(Reading::from_block(&block).map(|reading| reading.versions().len()), Some(0));
/// # Ok::<(), sqimrutta::Refusal>(())
/// ```
pub fn delete(image: &mut [u8], job: u8, point: u16, context: &[u32], out: &mut [u8]) -> Result<(), Refusal> {
    answer(ffi::delete(image, job, point, context, out))
}

/// Takes in the message of another's write or deletion, of [`BLOCK`](crate::BLOCK) bytes. Refusals 1, 2, 3, 4, 5, 6, 9, 10, 11, 12, 13.
///
/// ```
/// use sqimrutta::{raw, Refusal};
///
/// let (mut one, mut two) = ([0; sqimrutta::IMAGE], [0; sqimrutta::IMAGE]);
/// let mut message = [0; sqimrutta::BLOCK];
/// let table = [0b11, 0, 0, 0, 0, 0, 0, 0];
/// raw::start(&mut one, 1, &table)?;
/// raw::start(&mut two, 2, &table)?;
/// raw::write(&mut one, 0, 7, b"BASE", &[0; 8], &mut message)?;
/// raw::take_in(&mut two, &message)?;
///
/// message[100] ^= 1;
/// assert_eq!(raw::take_in(&mut two, &message), Err(Refusal::WrongCheck));
/// # Ok::<(), sqimrutta::Refusal>(())
/// ```
pub fn take_in(image: &mut [u8], message: &[u8]) -> Result<(), Refusal> {
    answer(ffi::take_in(image, message))
}

/// Asks the peer `to`, 1..8, for what is lacking here: a message to it in `out`, of [`BLOCK`](crate::BLOCK) bytes. Refusals 1, 2, 5, 6.
///
/// ```
/// use sqimrutta::{raw, Refusal};
///
/// let mut image = [0; sqimrutta::IMAGE];
/// let mut ask = [0; sqimrutta::BLOCK];
/// raw::start(&mut image, 1, &[0b11, 0, 0, 0, 0, 0, 0, 0])?;
/// assert_eq!(raw::ask(&image, 2, &mut ask), Ok(()));
/// assert_eq!(raw::ask(&image, 3, &mut ask), Err(Refusal::NotPeer));
/// # Ok::<(), sqimrutta::Refusal>(())
/// ```
pub fn ask(image: &[u8], to: u8, out: &mut [u8]) -> Result<(), Refusal> {
    answer(ffi::ask(image, to, out))
}

/// Answers an ask, in `out`, of [`REPLY`](crate::REPLY) bytes or more. The number of points, n, comes back: the first 512 * (1 + n) bytes are to be sent to
/// the asker alone, and the rest of `out` is as it was. Refusals 1, 2, 3, 4, 6, 9.
///
/// ```
/// use sqimrutta::raw;
///
/// let (mut one, mut two) = ([0; sqimrutta::IMAGE], [0; sqimrutta::IMAGE]);
/// let (mut message, mut ask, mut reply) = ([0; sqimrutta::BLOCK], [0; sqimrutta::BLOCK], [0; sqimrutta::REPLY]);
/// let table = [0b11, 0, 0, 0, 0, 0, 0, 0];
/// raw::start(&mut one, 1, &table)?;
/// raw::start(&mut two, 2, &table)?;
/// raw::write(&mut one, 0, 7, b"BASE", &[0; 8], &mut message)?;
/// raw::ask(&two, 1, &mut ask)?;
/// assert_eq!(raw::reply(&one, &ask, &mut reply), Ok(1));
/// # Ok::<(), sqimrutta::Refusal>(())
/// ```
pub fn reply(image: &[u8], ask: &[u8], out: &mut [u8]) -> Result<u32, Refusal> {
    counted(ffi::reply(image, ask, out))
}

/// Repairs the image from a reply: whole blocks, 1 to 121 of them, as they came. Refusals 1, 2, 3, 4, 5, 6, 9, 10, 11, 12, 13.
///
/// ```
/// use sqimrutta::{raw, Refusal};
///
/// let (mut one, mut two) = ([0; sqimrutta::IMAGE], [0; sqimrutta::IMAGE]);
/// let (mut ask, mut reply) = ([0; sqimrutta::BLOCK], [0; sqimrutta::REPLY]);
/// let table = [0b11, 0, 0, 0, 0, 0, 0, 0];
/// raw::start(&mut one, 1, &table)?;
/// raw::start(&mut two, 2, &table)?;
/// raw::ask(&two, 1, &mut ask)?;
/// let points = raw::reply(&one, &ask, &mut reply)? as usize;
/// let sent = &reply[..sqimrutta::BLOCK * (1 + points)];
/// assert_eq!(raw::repair(&mut two, sent), Ok(()));
/// assert_eq!(raw::repair(&mut two, &sent[1..]), Err(Refusal::WrongLength));
/// # Ok::<(), sqimrutta::Refusal>(())
/// ```
pub fn repair(image: &mut [u8], reply: &[u8]) -> Result<(), Refusal> {
    answer(ffi::repair(image, reply))
}

/// Frees what is known by now and changes no reading. The number of records gone comes back. Refusals 1, 2.
///
/// ```
/// use sqimrutta::{raw, Refusal};
///
/// let mut image = [0; sqimrutta::IMAGE];
/// assert_eq!(raw::strip_pass(&mut image), Err(Refusal::ImageNotGood));
/// raw::start(&mut image, 1, &[1, 0, 0, 0, 0, 0, 0, 0])?;
/// assert_eq!(raw::strip_pass(&mut image), Ok(0));
/// # Ok::<(), sqimrutta::Refusal>(())
/// ```
pub fn strip_pass(image: &mut [u8]) -> Result<u32, Refusal> {
    counted(ffi::strip_pass(image))
}

#[cfg(test)]
mod tests {
    use super::*;

    #[test]
    fn each_number_is_its_answer() {
        assert_eq!(answer(0), Ok(()));
        for refusal in Refusal::ALL {
            assert_eq!(answer(refusal.number()), Err(refusal));
            assert_eq!(counted((refusal.number(), 5)), Err(refusal));
        }
        assert_eq!(answer(16), Err(Refusal::Unknown(16)));
        assert_eq!(counted((0, 5)), Ok(5));
    }
}
