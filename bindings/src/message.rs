//! What goes from handheld to handheld by radio.
//!
//! A message is made of whatever bytes came in, of any length. Whether it is one is for the library to say, when the message is handed to it: 1 for a wrong
//! length, 3 for damage on the way, 4 for anything else that it should not be. So nothing is refused here.

use crate::BLOCK;
use alloc::vec::Vec;

/// The message of a write or deletion, one block: from [`Image::write`](crate::Image::write) or [`Image::delete`](crate::Image::delete) to the
/// [`Image::take_in`](crate::Image::take_in) of every peer.
#[derive(Clone, PartialEq, Eq, Hash, Debug)]
pub struct Outgoing(Vec<u8>);

impl Outgoing {
    /// What came in by radio.
    ///
    /// ```
    /// use sqimrutta::{Image, Outgoing, Refusal};
    ///
    /// let mut image = Image::start(1, &[0b11, 0, 0, 0, 0, 0, 0, 0])?;
    /// let cut = Outgoing::from_bytes(&[0; 100]);
    /// assert_eq!(image.take_in(&cut), Err(Refusal::WrongLength));
    /// # Ok::<(), Refusal>(())
    /// ```
    pub fn from_bytes(bytes: &[u8]) -> Outgoing {
        Outgoing(bytes.to_vec())
    }

    /// The bytes to send.
    ///
    /// ```
    /// use sqimrutta::{Context, Image, Outgoing};
    ///
    /// let mut image = Image::start(1, &[0b11, 0, 0, 0, 0, 0, 0, 0])?;
    /// let message = image.write(0, 7, b"BASE", &Context::EMPTY)?;
    /// assert_eq!(message.as_bytes().len(), sqimrutta::BLOCK);
    /// assert_eq!(Outgoing::from_bytes(message.as_bytes()), message);
    /// # Ok::<(), sqimrutta::Refusal>(())
    /// ```
    pub fn as_bytes(&self) -> &[u8] {
        &self.0
    }
}

impl AsRef<[u8]> for Outgoing {
    fn as_ref(&self) -> &[u8] {
        self.as_bytes()
    }
}

/// A question for what the asker lacks, one block: from [`Image::ask`](crate::Image::ask) to the [`Image::reply`](crate::Image::reply) of the one asked.
#[derive(Clone, PartialEq, Eq, Hash, Debug)]
pub struct Ask(Vec<u8>);

impl Ask {
    /// What came in by radio.
    ///
    /// ```
    /// use sqimrutta::{Ask, Image, Refusal};
    ///
    /// let image = Image::start(1, &[0b11, 0, 0, 0, 0, 0, 0, 0])?;
    /// assert_eq!(image.reply(&Ask::from_bytes(&[])), Err(Refusal::WrongLength));
    /// # Ok::<(), Refusal>(())
    /// ```
    pub fn from_bytes(bytes: &[u8]) -> Ask {
        Ask(bytes.to_vec())
    }

    /// The bytes to send.
    ///
    /// ```
    /// use sqimrutta::{Ask, Image};
    ///
    /// let image = Image::start(1, &[0b11, 0, 0, 0, 0, 0, 0, 0])?;
    /// let ask = image.ask(2)?;
    /// assert_eq!(ask.as_bytes().len(), sqimrutta::BLOCK);
    /// assert_eq!(Ask::from_bytes(ask.as_bytes()), ask);
    /// # Ok::<(), sqimrutta::Refusal>(())
    /// ```
    pub fn as_bytes(&self) -> &[u8] {
        &self.0
    }
}

impl AsRef<[u8]> for Ask {
    fn as_ref(&self) -> &[u8] {
        self.as_bytes()
    }
}

/// The answer to an ask, a head and a block for each point, 1 to 121 blocks: from [`Image::reply`](crate::Image::reply) to the
/// [`Image::repair`](crate::Image::repair) of the asker.
#[derive(Clone, PartialEq, Eq, Hash, Debug)]
pub struct Reply(Vec<u8>);

impl Reply {
    /// What came in by radio.
    ///
    /// ```
    /// use sqimrutta::{Image, Refusal, Reply};
    ///
    /// let mut image = Image::start(1, &[0b11, 0, 0, 0, 0, 0, 0, 0])?;
    /// let not_whole_blocks = Reply::from_bytes(&[0; 1000]);
    /// assert_eq!(image.repair(&not_whole_blocks), Err(Refusal::WrongLength));
    /// # Ok::<(), Refusal>(())
    /// ```
    pub fn from_bytes(bytes: &[u8]) -> Reply {
        Reply(bytes.to_vec())
    }

    /// The bytes to send.
    ///
    /// ```
    /// use sqimrutta::{Image, Reply};
    ///
    /// let table = [0b11, 0, 0, 0, 0, 0, 0, 0];
    /// let (one, two) = (Image::start(1, &table)?, Image::start(2, &table)?);
    /// let reply = one.reply(&two.ask(1)?)?;
    /// assert_eq!(reply.as_bytes().len(), sqimrutta::BLOCK);
    /// assert_eq!(Reply::from_bytes(reply.as_bytes()), reply);
    /// # Ok::<(), sqimrutta::Refusal>(())
    /// ```
    pub fn as_bytes(&self) -> &[u8] {
        &self.0
    }

    /// How many points it brings, going by its length: the blocks after the first.
    ///
    /// ```
    /// use sqimrutta::{Context, Image, Reply};
    ///
    /// let table = [0b11, 0, 0, 0, 0, 0, 0, 0];
    /// let (mut one, two) = (Image::start(1, &table)?, Image::start(2, &table)?);
    /// one.write(0, 7, b"BASE", &Context::EMPTY)?;
    /// assert_eq!(one.reply(&two.ask(1)?)?.points(), 1);
    /// assert_eq!(Reply::from_bytes(&[]).points(), 0);
    /// # Ok::<(), sqimrutta::Refusal>(())
    /// ```
    pub fn points(&self) -> usize {
        (self.0.len() / BLOCK).saturating_sub(1)
    }

    /// The reply in a buffer that the library has written this number of points to.
    pub(crate) fn in_buffer(mut buffer: Vec<u8>, points: u32) -> Reply {
        let blocks = usize::try_from(points).unwrap_or(usize::MAX).saturating_add(1);
        buffer.truncate(blocks.saturating_mul(BLOCK));
        Reply(buffer)
    }
}

impl AsRef<[u8]> for Reply {
    fn as_ref(&self) -> &[u8] {
        self.as_bytes()
    }
}

#[cfg(test)]
mod tests {
    use super::*;
    use std::vec;

    #[test]
    fn a_reply_is_cut_to_its_points() {
        for (points, length) in [(0, 512), (1, 1024), (120, 61_952), (121, 61_952), (u32::MAX, 61_952)] {
            assert_eq!(Reply::in_buffer(vec![0; crate::REPLY], points).as_bytes().len(), length);
        }
    }
}
