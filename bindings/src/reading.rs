//! What a point shows.

use crate::{Context, Dot, BLOCK, CONTEXT, VALUE, VERSIONS};

/// Document 01's number for a reading's block, and the format that is read here.
const KIND: u8 = 7;
const FORMAT: u8 = 1;
/// The bytes that a version takes in the block.
const SLOT: usize = 32;

/// One shown value of a point, and the dot of the write that it came by.
#[derive(Clone, Copy, PartialEq, Eq, Hash, Debug)]
pub struct Version {
    dot: Dot,
    length: usize,
    padded: [u8; VALUE],
}

impl Version {
    /// What stands in the places of a reading that has fewer than eight versions. It is never handed out.
    const NONE: Version = Version { dot: Dot { controller: 0, counter: 0 }, length: 0, padded: [0; VALUE] };

    /// "controller, length, two zero bytes, counter (4), value padded with zeros to 24"
    fn from_slot(slot: &[u8; SLOT]) -> Version {
        let mut padded = [0; VALUE];
        padded.copy_from_slice(&slot[8..]);
        let counter = u32::from_le_bytes([slot[4], slot[5], slot[6], slot[7]]);
        Version { dot: Dot { controller: slot[0], counter }, length: usize::from(slot[1]), padded }
    }

    /// The write that it came by.
    ///
    /// ```
    /// use sqimrutta::{Context, Dot, Image};
    ///
    /// let mut image = Image::start(1, &[1, 0, 0, 0, 0, 0, 0, 0])?;
    /// image.write(0, 7, b"BASE", &Context::EMPTY)?;
    /// let reading = image.read(0, 7)?;
    /// assert_eq!(reading.versions()[0].dot(), Dot { controller: 1, counter: 1 });
    /// # Ok::<(), sqimrutta::Refusal>(())
    /// ```
    pub fn dot(&self) -> Dot {
        self.dot
    }

    /// Its value, 0 to 24 bytes.
    ///
    /// ```
    /// use sqimrutta::{Context, Image};
    ///
    /// let mut image = Image::start(1, &[1, 0, 0, 0, 0, 0, 0, 0])?;
    /// image.write(0, 7, b"BASE", &Context::EMPTY)?;
    /// assert_eq!(image.read(0, 7)?.versions()[0].value(), b"BASE");
    /// # Ok::<(), sqimrutta::Refusal>(())
    /// ```
    pub fn value(&self) -> &[u8] {
        self.padded.get(..self.length).unwrap_or(&self.padded)
    }
}

/// What a point shows: no version where it was deleted or never written, one as a rule, and up to eight where writes did not know of each other. And the
/// context, which a write that replaces these versions gives back.
#[derive(Clone, Copy, PartialEq, Eq, Hash, Debug)]
pub struct Reading {
    controller: u8,
    job: u8,
    point: u16,
    context: Context,
    count: usize,
    versions: [Version; VERSIONS],
}

impl Reading {
    /// The reading in a block of kind 7, such as [`raw::read`](crate::raw::read) writes. None for anything that is visibly something else: of another
    /// length, kind or format, with more than 8 versions, or with a value of more than 24 bytes. The check is not computed, since a reading does not
    /// travel.
    ///
    /// ```
    /// use sqimrutta::{raw, Reading};
    ///
    /// let mut image = [0; sqimrutta::IMAGE];
    /// let mut block = [0; sqimrutta::BLOCK];
    /// assert_eq!(Reading::from_block(&block), None);
    ///
    /// raw::start(&mut image, 1, &[1, 0, 0, 0, 0, 0, 0, 0])?;
    /// raw::read(&image, 0, 7, &mut block)?;
    /// let reading = Reading::from_block(&block).expect("what raw::read has written is a reading");
    /// assert_eq!(reading.versions(), &[]);
    /// # Ok::<(), sqimrutta::Refusal>(())
    /// ```
    pub fn from_block(block: &[u8]) -> Option<Reading> {
        let block: &[u8; BLOCK] = block.try_into().ok()?;
        let of_this_form = block[0] == KIND && block[1] == FORMAT && usize::from(block[5]) <= VERSIONS;
        let reading = Reading::decode(block);
        let values_fit = reading.versions().iter().all(|version| version.length <= VALUE);
        (of_this_form && values_fit).then_some(reading)
    }

    /// Makes something of any block, so that there is nothing to go wrong with those that the library has written.
    pub(crate) fn decode(block: &[u8; BLOCK]) -> Reading {
        let mut counters = [0; CONTEXT];
        for (counter, bytes) in counters.iter_mut().zip(block[8..40].as_chunks().0) {
            *counter = u32::from_le_bytes(*bytes);
        }
        let count = usize::from(block[5]).min(VERSIONS);
        let mut versions = [Version::NONE; VERSIONS];
        for (version, slot) in versions.iter_mut().zip(block[40..296].as_chunks().0).take(count) {
            *version = Version::from_slot(slot);
        }
        Reading {
            controller: block[296],
            job: block[4],
            point: u16::from_le_bytes([block[6], block[7]]),
            context: Context::new(counters),
            count,
            versions,
        }
    }

    /// The shown versions, ascending by dot.
    ///
    /// ```
    /// use sqimrutta::{Context, Image};
    ///
    /// let mut image = Image::start(1, &[1, 0, 0, 0, 0, 0, 0, 0])?;
    /// assert!(image.read(0, 7)?.versions().is_empty());
    ///
    /// // The second write has not seen the first: both are shown.
    /// image.write(0, 7, b"E 100.0", &Context::EMPTY)?;
    /// image.write(0, 7, b"E 101.3", &Context::EMPTY)?;
    /// let reading = image.read(0, 7)?;
    /// let values: Vec<&[u8]> = reading.versions().iter().map(|version| version.value()).collect();
    /// assert_eq!(values, [b"E 100.0", b"E 101.3"]);
    /// # Ok::<(), sqimrutta::Refusal>(())
    /// ```
    pub fn versions(&self) -> &[Version] {
        self.versions.get(..self.count).unwrap_or(&self.versions)
    }

    /// What was seen with this reading: it covers all its versions. Keep it with what stands on the screen, and give it to the write or deletion that the
    /// user decides on there.
    ///
    /// ```
    /// use sqimrutta::{Context, Image};
    ///
    /// let mut image = Image::start(1, &[1, 0, 0, 0, 0, 0, 0, 0])?;
    /// image.write(0, 7, b"E 100.0", &Context::EMPTY)?;
    /// let on_the_screen = image.read(0, 7)?;
    /// image.write(0, 7, b"E 101.3", on_the_screen.context())?;
    /// assert_eq!(image.read(0, 7)?.versions().len(), 1);
    /// # Ok::<(), sqimrutta::Refusal>(())
    /// ```
    pub fn context(&self) -> &Context {
        &self.context
    }

    /// Whose image was read.
    ///
    /// ```
    /// let image = sqimrutta::Image::start(3, &[4, 0, 0, 0, 0, 0, 0, 0])?;
    /// assert_eq!(image.read(0, 7)?.controller(), 3);
    /// # Ok::<(), sqimrutta::Refusal>(())
    /// ```
    pub fn controller(&self) -> u8 {
        self.controller
    }

    /// The job of the point that was read.
    ///
    /// ```
    /// let image = sqimrutta::Image::start(1, &[0, 0, 0, 0, 0, 1, 0, 0])?;
    /// assert_eq!(image.read(5, 7)?.job(), 5);
    /// # Ok::<(), sqimrutta::Refusal>(())
    /// ```
    pub fn job(&self) -> u8 {
        self.job
    }

    /// The point that was read, by its number within the job.
    ///
    /// ```
    /// let image = sqimrutta::Image::start(1, &[1, 0, 0, 0, 0, 0, 0, 0])?;
    /// assert_eq!(image.read(0, 65_535)?.point(), 65_535);
    /// # Ok::<(), sqimrutta::Refusal>(())
    /// ```
    pub fn point(&self) -> u16 {
        self.point
    }
}

#[cfg(test)]
mod tests {
    use super::*;

    /// A block that begins like a reading of `count` versions, whose other bytes are all the same.
    fn block(count: u8, filling: u8) -> [u8; BLOCK] {
        let mut block = [filling; BLOCK];
        block[0] = KIND;
        block[1] = FORMAT;
        block[5] = count;
        block
    }

    #[test]
    fn any_block_is_decoded_without_a_panic() {
        for filling in 0..=u8::MAX {
            for count in 0..=u8::MAX {
                let reading = Reading::decode(&block(count, filling));
                assert_eq!(reading.versions().len(), usize::from(count.min(8)));
                for version in reading.versions() {
                    assert!(version.value().len() <= VALUE);
                }
            }
        }
    }

    #[test]
    fn only_what_looks_like_a_reading_is_one() {
        let right = block(8, 24);
        assert!(Reading::from_block(&right).is_some());
        assert_eq!(Reading::from_block(&block(9, 24)), None);
        assert_eq!(Reading::from_block(&block(1, 25)), None);
        // a length in a place that the count leaves out does not matter
        assert!(Reading::from_block(&block(0, 25)).is_some());
        for at in [0, 1] {
            let mut other = right;
            other[at] += 1;
            assert_eq!(Reading::from_block(&other), None);
        }
        for length in [0, 1, 511] {
            assert_eq!(Reading::from_block(&right[..length]), None);
        }
        assert_eq!(Reading::from_block(&[right, right].concat()), None);
    }
}
