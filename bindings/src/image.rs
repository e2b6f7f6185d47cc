//! The shared points of one handheld, and the nine steps on them.

use crate::{raw, Ask, Context, Outgoing, Reading, Refusal, Reply, BLOCK, IMAGE, REPLY, TABLE};
use alloc::boxed::Box;
use alloc::vec;
use core::fmt;

/// What a handheld stores: 34,304 bytes that the library made and changes.
///
/// A call that is refused has changed nothing. After one that changed the image ([`write`](Image::write), [`delete`](Image::delete),
/// [`take_in`](Image::take_in), [`repair`](Image::repair), [`strip_pass`](Image::strip_pass)) store [`as_bytes`](Image::as_bytes) to flash; after a write or
/// deletion do so before its message is sent. If a reset took back a write that peers have, its counter would go to another write.
///
/// Jobs are 0..7, points 1..65535, controllers 1..8. Numbers outside are refused with 5.
#[derive(Clone, PartialEq, Eq)]
pub struct Image(Box<[u8]>);

impl Image {
    /// A fresh image for the controller `number` with the crew's table: a byte for each job, whose bit n-1 says that controller n holds it. A number is
    /// started once in the life of a crew. Refusal 5.
    ///
    /// ```
    /// use sqimrutta::{Image, Refusal};
    ///
    /// // Job 0 is held by controllers 1 and 2.
    /// let table = [0b11, 0, 0, 0, 0, 0, 0, 0];
    /// let image = Image::start(1, &table)?;
    /// assert!(image.good());
    /// assert_eq!(Image::start(9, &table), Err(Refusal::OutOfRange));
    /// # Ok::<(), Refusal>(())
    /// ```
    pub fn start(number: u8, table: &[u8; TABLE]) -> Result<Image, Refusal> {
        // Made in place, since an array of this size would go over the stack.
        let mut image = Image(vec![0; IMAGE].into_boxed_slice());
        raw::start(&mut image.0, number, table)?;
        Ok(image)
    }

    /// An image as it was stored, of [`IMAGE`] bytes. Other lengths are refused with 1, and nothing else is: whether it is a good image is what each call
    /// asks first, and [`good`](Image::good) after a reset.
    ///
    /// ```
    /// use sqimrutta::{Image, Refusal};
    ///
    /// let image = Image::start(1, &[1, 0, 0, 0, 0, 0, 0, 0])?;
    /// let flash: Vec<u8> = image.as_bytes().to_vec();
    /// assert_eq!(Image::from_bytes(&flash), Ok(image));
    /// assert_eq!(Image::from_bytes(&flash[1..]), Err(Refusal::WrongLength));
    /// # Ok::<(), Refusal>(())
    /// ```
    pub fn from_bytes(bytes: &[u8]) -> Result<Image, Refusal> {
        if bytes.len() != IMAGE {
            return Err(Refusal::WrongLength);
        }
        Ok(Image(bytes.into()))
    }

    /// The bytes to store, [`IMAGE`] of them.
    ///
    /// ```
    /// let image = sqimrutta::Image::start(1, &[1, 0, 0, 0, 0, 0, 0, 0])?;
    /// assert_eq!(image.as_bytes().len(), 34_304);
    /// # Ok::<(), sqimrutta::Refusal>(())
    /// ```
    pub fn as_bytes(&self) -> &[u8] {
        &self.0
    }

    /// Whether it is a good image: one that the library left. No call needs this beforehand; it is there for a look after a reset.
    ///
    /// ```
    /// use sqimrutta::{Image, Refusal};
    ///
    /// let mut flash = Image::start(1, &[1, 0, 0, 0, 0, 0, 0, 0])?.as_bytes().to_vec();
    /// flash[20] ^= 1;
    /// let damaged = Image::from_bytes(&flash)?;
    /// assert!(!damaged.good());
    /// assert_eq!(damaged.read(0, 7), Err(Refusal::ImageNotGood));
    /// # Ok::<(), Refusal>(())
    /// ```
    pub fn good(&self) -> bool {
        raw::good(&self.0)
    }

    /// What a point shows. Refusals 2, 5.
    ///
    /// ```
    /// use sqimrutta::{Context, Image, Refusal};
    ///
    /// let mut image = Image::start(1, &[1, 0, 0, 0, 0, 0, 0, 0])?;
    /// image.write(0, 7, b"BASE", &Context::EMPTY)?;
    /// let reading = image.read(0, 7)?;
    /// assert_eq!(reading.versions().len(), 1);
    /// assert_eq!(reading.versions()[0].value(), b"BASE");
    ///
    /// // Job 1 is not held here.
    /// assert_eq!(image.read(1, 7), Err(Refusal::OutOfRange));
    /// # Ok::<(), Refusal>(())
    /// ```
    pub fn read(&self, job: u8, point: u16) -> Result<Reading, Refusal> {
        let mut block = [0; BLOCK];
        raw::read(&self.0, job, point, &mut block)?;
        Ok(Reading::decode(&block))
    }

    /// Writes a value of 0 to 24 bytes. `context` is that of the reading which stood on the screen when the user decided, not of one made since: the write
    /// replaces the versions that it covers, and what has come in since is shown beside the new value. Store the image, then send the message to every peer.
    /// After refusal 12 let the user see the present reading; after 14 repair with the peers. Refusals 2, 5, 7, 8, 12, 13, 14, 15.
    ///
    /// ```
    /// use sqimrutta::{Context, Image, Refusal};
    ///
    /// let table = [0b11, 0, 0, 0, 0, 0, 0, 0];
    /// let mut one = Image::start(1, &table)?;
    /// let mut two = Image::start(2, &table)?;
    /// let message = one.write(0, 7, b"BASE", &Context::EMPTY)?;
    /// two.take_in(&message)?;
    /// assert_eq!(two.read(0, 7)?.versions()[0].value(), b"BASE");
    ///
    /// let never_seen = Context::new([2, 0, 0, 0, 0, 0, 0, 0]);
    /// assert_eq!(one.write(0, 7, b"BASE", &never_seen), Err(Refusal::ContextAhead));
    /// # Ok::<(), Refusal>(())
    /// ```
    pub fn write(&mut self, job: u8, point: u16, value: &[u8], context: &Context) -> Result<Outgoing, Refusal> {
        let mut block = [0; BLOCK];
        raw::write(&mut self.0, job, point, value, context.counters(), &mut block)?;
        Ok(Outgoing::from_bytes(&block))
    }

    /// Deletes what the user saw of a point: the versions that `context` covers. Others stay. What to do with the image and the message is as for
    /// [`write`](Image::write). Refusals 2, 5, 8, 12, 14, 15.
    ///
    /// ```
    /// use sqimrutta::{Context, Image};
    ///
    /// let mut image = Image::start(1, &[1, 0, 0, 0, 0, 0, 0, 0])?;
    /// image.write(0, 7, b"BASE", &Context::EMPTY)?;
    /// let seen = image.read(0, 7)?;
    /// image.delete(0, 7, seen.context())?;
    /// assert!(image.read(0, 7)?.versions().is_empty());
    /// # Ok::<(), sqimrutta::Refusal>(())
    /// ```
    pub fn delete(&mut self, job: u8, point: u16, context: &Context) -> Result<Outgoing, Refusal> {
        let mut block = [0; BLOCK];
        raw::delete(&mut self.0, job, point, context.counters(), &mut block)?;
        Ok(Outgoing::from_bytes(&block))
    }

    /// Takes in the message of another's write or deletion. It may come again, late or out of order, and changes no reading that it should not; one that is
    /// lost comes by a repair. After refusal 11 ask the sender; after 9 this image must not go on. Refusals 1, 2, 3, 4, 5, 6, 9, 10, 11, 12, 13.
    ///
    /// ```
    /// use sqimrutta::{Context, Image, Refusal};
    ///
    /// let table = [0b11, 0, 0, 0, 0, 0, 0, 0];
    /// let mut one = Image::start(1, &table)?;
    /// let mut two = Image::start(2, &table)?;
    /// let message = one.write(0, 7, b"BASE", &Context::EMPTY)?;
    /// two.take_in(&message)?;
    /// two.take_in(&message)?;
    /// assert_eq!(two.read(0, 7)?.versions().len(), 1);
    ///
    /// // It came from 1 itself.
    /// assert_eq!(one.take_in(&message), Err(Refusal::NotPeer));
    /// # Ok::<(), Refusal>(())
    /// ```
    pub fn take_in(&mut self, message: &Outgoing) -> Result<(), Refusal> {
        raw::take_in(&mut self.0, message.as_bytes())
    }

    /// Asks the peer `to` for what is lacking here: a message to that peer alone. Refusals 2, 5, 6.
    ///
    /// ```
    /// use sqimrutta::{Image, Refusal};
    ///
    /// let image = Image::start(1, &[0b11, 0, 0, 0, 0, 0, 0, 0])?;
    /// let ask = image.ask(2)?;
    /// assert_eq!(ask.as_bytes()[4..6], [1, 2]);
    /// assert_eq!(image.ask(1), Err(Refusal::NotPeer));
    /// assert_eq!(image.ask(0), Err(Refusal::OutOfRange));
    /// # Ok::<(), Refusal>(())
    /// ```
    pub fn ask(&self, to: u8) -> Result<Ask, Refusal> {
        let mut block = [0; BLOCK];
        raw::ask(&self.0, to, &mut block)?;
        Ok(Ask::from_bytes(&block))
    }

    /// Answers an ask: the points of which the asker lacks a write that is still listed here, also those that are gone. To be sent to the asker alone.
    /// Refusals 1, 2, 3, 4, 6, 9.
    ///
    /// ```
    /// use sqimrutta::{Context, Image, Refusal};
    ///
    /// let table = [0b11, 0, 0, 0, 0, 0, 0, 0];
    /// let mut one = Image::start(1, &table)?;
    /// let two = Image::start(2, &table)?;
    /// one.write(0, 7, b"BASE", &Context::EMPTY)?;
    /// let reply = one.reply(&two.ask(1)?)?;
    /// assert_eq!(reply.points(), 1);
    ///
    /// // Controller 2 itself is not whom it asked.
    /// assert_eq!(two.reply(&two.ask(1)?), Err(Refusal::NotPeer));
    /// # Ok::<(), Refusal>(())
    /// ```
    pub fn reply(&self, ask: &Ask) -> Result<Reply, Refusal> {
        let mut buffer = vec![0; REPLY];
        let points = raw::reply(&self.0, ask.as_bytes(), &mut buffer)?;
        Ok(Reply::in_buffer(buffer, points))
    }

    /// Repairs this image from the reply to an ask of its own: all that the sender had of the points in it is merged with what is here, and dots that all
    /// peers have leave the lists, which makes room for own writes. After 9 this image must not go on; after 13 delete points that are not needed.
    /// Refusals 1, 2, 3, 4, 5, 6, 9, 10, 11, 12, 13.
    ///
    /// ```
    /// use sqimrutta::{Context, Image};
    ///
    /// let table = [0b11, 0, 0, 0, 0, 0, 0, 0];
    /// let mut one = Image::start(1, &table)?;
    /// let mut two = Image::start(2, &table)?;
    /// // The message of this write is lost.
    /// one.write(0, 7, b"BASE", &Context::EMPTY)?;
    /// let reply = one.reply(&two.ask(1)?)?;
    /// two.repair(&reply)?;
    /// assert_eq!(two.read(0, 7)?.versions()[0].value(), b"BASE");
    /// # Ok::<(), sqimrutta::Refusal>(())
    /// ```
    pub fn repair(&mut self, reply: &Reply) -> Result<(), Refusal> {
        raw::repair(&mut self.0, reply.as_bytes())
    }

    /// Frees what is known by now and changes no reading. The number of records gone comes back. Refusal 2.
    ///
    /// ```
    /// use sqimrutta::{Context, Image};
    ///
    /// let table = [0b11, 0, 0, 0, 0, 0, 0, 0];
    /// let mut one = Image::start(1, &table)?;
    /// let mut two = Image::start(2, &table)?;
    /// let written = one.write(0, 7, b"BASE", &Context::EMPTY)?;
    /// let deleted = one.delete(0, 8, &Context::EMPTY)?;
    /// // The deletion of point 8 overtakes the write of point 7: 2 keeps a record of 8 as long as it misses something before it.
    /// two.take_in(&deleted)?;
    /// assert_eq!(two.strip_pass()?, 0);
    /// two.take_in(&written)?;
    /// assert_eq!(two.strip_pass()?, 1);
    /// # Ok::<(), sqimrutta::Refusal>(())
    /// ```
    pub fn strip_pass(&mut self) -> Result<u32, Refusal> {
        raw::strip_pass(&mut self.0)
    }
}

impl AsRef<[u8]> for Image {
    fn as_ref(&self) -> &[u8] {
        self.as_bytes()
    }
}

impl fmt::Debug for Image {
    /// Without its bytes: they would fill a screen a hundred times over.
    fn fmt(&self, f: &mut fmt::Formatter<'_>) -> fmt::Result {
        f.debug_struct("Image").field("good", &self.good()).finish_non_exhaustive()
    }
}
