//! The image maker: good images and others, of many kinds, each recorded with this program's verdict. With them the
//! verified library's `good` is compared with this program's.

use crate::block::{is_zero, mend, u16_at, BLOCK};
use crate::calls;
use crate::crew::Shape;
use crate::flaws::{flawed_image_block, image_flaws, BlockFlaw, ANY_BLOCK, POINT_BLOCK, STORED_SENDER};
use crate::image::{self, BLOCKS, IMAGE};
use crate::madeup::{full_state, good_state, some_controller};
use crate::random::Random;
use crate::refusal::Refusal;
use crate::simulate::{simulate, Settings};
use crate::state::State;
use crate::store::{Second, Store};
use crate::stream::{Recorder, SLOT_BYTES};
use std::cell::RefCell;
use std::collections::BTreeMap;
use std::io::{self, Write};
use std::ops::RangeInclusive;

/// How many images of each kind were not good, and how many were.
pub type Tally = BTreeMap<String, [u64; 2]>;

/// The slot that every image stands in: the next one is recorded by what differs.
const SLOT: u8 = 0;

/// Writes a stream of that many images, each with the verdict, and hands back how many there were of each kind.
pub fn images(seed: u64, count: u64, out: impl Write) -> io::Result<Tally> {
    let recorder = Recorder::new(&Second, out)?;
    let mut maker = Maker { recorder, random: Random::new(seed), count, tally: Tally::new() };
    maker.one_of_each()?;
    while maker.more() {
        maker.round()?;
    }
    maker.recorder.end()?;
    Ok(maker.tally)
}

struct Maker<'a, W: Write> {
    recorder: Recorder<'a, W>,
    random: Random,
    count: u64,
    tally: Tally,
}

impl<W: Write> Maker<'_, W> {
    fn more(&self) -> bool {
        self.recorder.calls < self.count
    }

    /// Records an image, unless the stream has enough of them.
    fn image(&mut self, kind: &str, bytes: &[u8]) -> io::Result<()> {
        if !self.more() {
            return Ok(());
        }
        self.recorder.label(kind)?;
        self.recorder.put(SLOT, bytes)?;
        let good = self.recorder.good(SLOT)?;
        self.tally.entry(kind.into()).or_default()[usize::from(good)] += 1;
        Ok(())
    }

    /// A fresh image and two full ones, which the measures take from here; then each flaw, length and damage.
    fn one_of_each(&mut self) -> io::Result<()> {
        let (kind, fresh) = fresh(&mut self.random);
        self.image(kind, &fresh)?;
        for versions in [1, 8] {
            let (kind, image) = full(&mut self.random, versions);
            self.image(kind, &image)?;
        }
        for (name, flaw) in all_flaws() {
            let flawed = loop {
                let state = good_state(&mut self.random);
                if let Some(image) = flaw(&mut self.random, &state) {
                    break image;
                }
            };
            self.image(&format!("flaw: {name}"), &flawed)?;
        }
        for length in LENGTHS {
            self.of_length(&fresh, length)?;
        }
        for (name, damage) in DAMAGES.iter().chain(NOISE) {
            let damaged = loop {
                let mut bytes = image::encode(&good_state(&mut self.random));
                if damage(&mut self.random, &mut bytes).is_some() {
                    break bytes;
                }
            };
            self.image(name, &damaged)?;
        }
        Ok(())
    }

    /// The images of a crew at work, made-up and full ones, and what flaws and damages make of each.
    fn round(&mut self) -> io::Result<()> {
        let shape = self.random.pick(&Shape::ALL).1;
        let kind = format!("crew {}", shape.name());
        for bytes in crew_images(&mut self.random, shape) {
            self.image(&kind, &bytes)?;
            if self.random.percent(8) {
                self.changed(&bytes)?;
            }
        }
        for _ in 0..20 {
            let (kind, bytes) = match self.random.below(12) {
                0 => fresh(&mut self.random),
                1 => full(&mut self.random, 1),
                2 => full(&mut self.random, 8),
                _ => ("made up", image::encode(&good_state(&mut self.random))),
            };
            self.image(kind, &bytes)?;
            self.changed(&bytes)?;
        }
        Ok(())
    }

    /// What flaws, damages and a wrong length make of a good image.
    fn changed(&mut self, good: &[u8]) -> io::Result<()> {
        let state = image::decode(good).expect("a good image");
        for (name, flaw) in all_flaws() {
            if self.random.percent(5) {
                if let Some(flawed) = flaw(&mut self.random, &state) {
                    self.image(&format!("flaw: {name}"), &flawed)?;
                }
            }
        }
        for (name, damage) in DAMAGES {
            for _ in 0..self.random.below(3) {
                let mut bytes = good.to_vec();
                if damage(&mut self.random, &mut bytes).is_some() {
                    self.image(name, &bytes)?;
                }
            }
        }
        if self.random.percent(10) {
            let (name, noise) = self.random.pick(NOISE);
            let mut bytes = good.to_vec();
            noise(&mut self.random, &mut bytes);
            self.image(name, &bytes)?;
        }
        if self.random.percent(30) {
            let near = *self.random.pick(&LENGTHS);
            let any = self.random.between(0, SLOT_BYTES);
            let length = *self.random.pick(&[near, any]);
            self.of_length(good, length)?;
        }
        Ok(())
    }

    /// A good image cut, or lengthened with zeros.
    fn of_length(&mut self, good: &[u8], length: usize) -> io::Result<()> {
        let mut bytes = good.to_vec();
        bytes.resize(length, 0);
        let named = LENGTHS.contains(&length);
        self.image(&if named { format!("length {length}") } else { "length: any".into() }, &bytes)
    }
}

/// Lengths near those that matter: none, a block, an image, and whole blocks around it.
pub const LENGTHS: [usize; 11] =
    [0, 1, 511, 512, 513, 1536, IMAGE - BLOCK, IMAGE - 1, IMAGE + 1, IMAGE + BLOCK, SLOT_BYTES];

fn fresh(random: &mut Random) -> (&'static str, Vec<u8>) {
    let own = some_controller(random);
    ("fresh", image::encode(&State::fresh(own, Shape::Any.table(random))))
}

fn full(random: &mut Random, versions: usize) -> (&'static str, Vec<u8>) {
    let kind = if versions == 1 { "full, one version a point" } else { "full, eight versions a point" };
    (kind, image::encode(&full_state(random, versions)))
}

/// A flaw of an image, as a thing to call.
type Flaw = Box<dyn Fn(&mut Random, &State) -> Option<Vec<u8>>>;

/// Every flaw of an image, and those of a block one by one.
fn all_flaws() -> impl Iterator<Item = (&'static str, Flaw)> {
    let whole = image_flaws().map(|(name, flaw)| (*name, Box::new(flaw) as Flaw));
    let used = ANY_BLOCK.iter().map(|flaw| in_a_block(flaw, false));
    let stored = POINT_BLOCK.iter().chain(STORED_SENDER).map(|flaw| in_a_block(flaw, true));
    whole.chain(used).chain(stored)
}

/// A flaw in any used block, or in a stored point's.
fn in_a_block(flaw: &'static BlockFlaw, stored: bool) -> (&'static str, Flaw) {
    (flaw.0, Box::new(move |random, state| flawed_image_block(random, state, flaw, stored)))
}

// Crews.

/// This program's calls; it keeps the image that each accepted call left.
#[derive(Default)]
struct Kept(RefCell<Vec<Vec<u8>>>);

impl Kept {
    fn keep<T>(&self, image: &[u8], answer: Result<T, Refusal>) -> Result<T, Refusal> {
        if answer.is_ok() {
            self.0.borrow_mut().push(image.to_vec());
        }
        answer
    }
}

impl Store for Kept {
    fn write(
        &self,
        image: &mut [u8],
        job: u8,
        point: u16,
        value: &[u8],
        context: &[u32],
        out: &mut [u8],
    ) -> Result<(), Refusal> {
        let answer = calls::write(image, job, point, value, context, out);
        self.keep(image, answer)
    }
    fn delete(&self, image: &mut [u8], job: u8, point: u16, context: &[u32], out: &mut [u8]) -> Result<(), Refusal> {
        let answer = calls::delete(image, job, point, context, out);
        self.keep(image, answer)
    }
    fn take_in(&self, image: &mut [u8], message: &[u8]) -> Result<(), Refusal> {
        let answer = calls::take_in(image, message);
        self.keep(image, answer)
    }
    fn repair(&self, image: &mut [u8], reply: &[u8]) -> Result<(), Refusal> {
        let answer = calls::repair(image, reply);
        self.keep(image, answer)
    }
    fn strip_pass(&self, image: &mut [u8]) -> Result<u32, Refusal> {
        let answer = calls::strip_pass(image);
        self.keep(image, answer)
    }
}

/// Some of the images that a crew leaves behind at its work.
fn crew_images(random: &mut Random, shape: Shape) -> Vec<Vec<u8>> {
    let kept = Kept::default();
    let steps = random.between(50, 800);
    let settings = Settings { seed: random.bits(), steps: steps as u64, shape: Some(shape), longest: steps };
    simulate(&kept, &settings).expect("this program's own calls hold the demand");
    let share = *random.pick(&[5, 20, 60]);
    kept.0.into_inner().into_iter().filter(|_| random.percent(share)).collect()
}

// Damages: what a fault of the store or of a driver makes of an image's bytes. Some leave a good image.

/// A damage of a good image's bytes; none where it is not possible there or changes nothing.
pub type Damage = (&'static str, fn(&mut Random, &mut Vec<u8>) -> Option<()>);

/// All damages.
pub const DAMAGES: &[Damage] = &[
    ("byte of the head", |random, image| byte_of_head(random, image, false)),
    ("byte of the head, resealed", |random, image| byte_of_head(random, image, true)),
    ("byte of a list", |random, image| byte_of_list(random, image, false)),
    ("byte of a list, resealed", |random, image| byte_of_list(random, image, true)),
    ("byte of a record", |random, image| byte_of_record(random, image, false)),
    ("byte of a record, resealed", |random, image| byte_of_record(random, image, true)),
    ("byte of the zeros", |random, image| byte_of_zeros(random, image, false)),
    ("byte of the zeros, resealed", |random, image| byte_of_zeros(random, image, true)),
    ("byte of a check", |random, image| {
        let number = random.below(BLOCKS);
        let at = random.between(508, 511);
        change_byte(random, image, number, at, false)
    }),
    ("byte anywhere", |random, image| byte_anywhere(random, image, false)),
    ("byte anywhere, resealed", |random, image| byte_anywhere(random, image, true)),
    ("word of 0 to 65535, which no check notices", |random, image| {
        let start = some_block(random, image) * BLOCK;
        let words = (0..254).map(|word| start + 2 * word);
        let zeros: Vec<usize> = words.filter(|&at| u16_at(image, at) == 0).collect();
        let at = *random.pick(&zeros);
        image[at..at + 2].fill(255);
        Some(())
    }),
    ("blocks swapped", |random, image| swapped(random, image, false)),
    ("blocks swapped, renumbered", |random, image| swapped(random, image, true)),
    ("block doubled", |random, image| doubled(random, image, false)),
    ("block doubled, renumbered", |random, image| doubled(random, image, true)),
    ("block removed", |random, image| removed(random, image, false)),
    ("block removed, renumbered", |random, image| removed(random, image, true)),
    ("block of another image", |random, image| {
        let other = image::encode(&good_state(random));
        let number = some_block(random, image);
        replaced(image, number, &other[number * BLOCK..(number + 1) * BLOCK])
    }),
    ("block of zeros", |random, image| {
        let number = some_block(random, image);
        replaced(image, number, &[0; BLOCK])
    }),
    ("cut short, then zeros", |random, image| {
        let at = random.below(used_blocks(image) * BLOCK);
        let before = image.clone();
        image[at..].fill(0);
        (*image != before).then_some(())
    }),
    ("bytes from a place on one late", |random, image| {
        let at = random.below(used_blocks(image) * BLOCK);
        let before = image.clone();
        image.copy_within(at..IMAGE - 1, at + 1);
        (*image != before).then_some(())
    }),
    ("row copied, resealed", |random, image| copied(random, image, 0..=0, 12, 16, |_| 8)),
    ("watermark entry copied, resealed", |random, image| copied(random, image, 0..=0, 4, 112, |_| 64)),
    ("listed dot copied, resealed", |random, image| {
        copied(random, image, 1..=2, 8, 8, |block| usize::from(u16_at(block, 4)))
    }),
    ("context entry copied, resealed", |random, image| copied(random, image, 3..=66, 4, 8, |_| 8)),
    ("version copied, resealed", |random, image| copied(random, image, 3..=66, 32, 40, |block| usize::from(block[5]))),
];

/// What was never an image.
pub const NOISE: &[Damage] = &[
    ("one byte everywhere", |random, image| {
        image.fill(*random.pick(&[0, 1, 2, 3, 255]));
        Some(())
    }),
    ("noise", |random, image| {
        image.iter_mut().for_each(|byte| *byte = random.below(256) as u8);
        Some(())
    }),
    ("noise, renumbered", |random, image| {
        image.iter_mut().for_each(|byte| *byte = random.below(256) as u8);
        for (number, block) in image.chunks_exact_mut(BLOCK).enumerate() {
            block[0] = [1, 2, 2, 3][number.min(3)];
            block[1] = 1;
        }
        renumber(image, 0);
        Some(())
    }),
];

/// How many blocks are used: three and the stored points.
fn used_blocks(image: &[u8]) -> usize {
    3 + image[3 * BLOCK..].chunks_exact(BLOCK).take_while(|block| !is_zero(block)).count()
}

/// A block, mostly a used one.
fn some_block(random: &mut Random, image: &[u8]) -> usize {
    if random.percent(10) {
        random.below(BLOCKS)
    } else {
        random.below(used_blocks(image))
    }
}

/// Gives a byte of a block another value, and the block its right check where it is resealed.
fn change_byte(random: &mut Random, image: &mut [u8], number: usize, at: usize, reseal: bool) -> Option<()> {
    let block = &mut image[number * BLOCK..(number + 1) * BLOCK];
    let old = block[at];
    block[at] = match random.below(5) {
        0 => old.wrapping_add(1),
        1 => old.wrapping_sub(1),
        2 => random.below(256) as u8,
        3 => *random.pick(&[0, 1, 8, 9, 24, 25, 60, 255]),
        _ => old ^ 1 << random.below(8),
    };
    if reseal {
        mend(block);
    }
    (block[at] != old).then_some(())
}

fn byte_of_head(random: &mut Random, image: &mut [u8], reseal: bool) -> Option<()> {
    let limit = *random.pick(&[8, 16, 112, 112, 368, 508]);
    let at = random.below(limit);
    change_byte(random, image, 0, at, reseal)
}

/// A byte of one of the lists, mostly of its entries.
fn byte_of_list(random: &mut Random, image: &mut [u8], reseal: bool) -> Option<()> {
    let number = random.between(1, 2);
    let entries = 8 + 8 * usize::from(u16_at(image, number * BLOCK + 4));
    let limit = *random.pick(&[8, entries, entries, entries, 508]);
    let at = random.below(limit);
    change_byte(random, image, number, at, reseal)
}

/// A byte of a stored point, mostly of its key, context and versions.
fn byte_of_record(random: &mut Random, image: &mut [u8], reseal: bool) -> Option<()> {
    let used = used_blocks(image);
    let number = if used > 3 { random.between(3, used - 1) } else { return None };
    let versions = 40 + 32 * usize::from(image[number * BLOCK + 5]);
    let limit = *random.pick(&[8, 40, versions, versions, 297, 508]);
    let at = random.below(limit);
    change_byte(random, image, number, at, reseal)
}

fn byte_of_zeros(random: &mut Random, image: &mut [u8], reseal: bool) -> Option<()> {
    let used = used_blocks(image);
    let number = if used < BLOCKS { random.between(used, BLOCKS - 1) } else { return None };
    let at = random.below(508);
    change_byte(random, image, number, at, reseal)
}

fn byte_anywhere(random: &mut Random, image: &mut [u8], reseal: bool) -> Option<()> {
    let number = random.below(BLOCKS);
    let at = random.below(508);
    change_byte(random, image, number, at, reseal)
}

/// Gives each block from one on its position and its right check, but for blocks of zeros.
fn renumber(image: &mut [u8], from: usize) {
    for (number, block) in image.chunks_exact_mut(BLOCK).enumerate().skip(from) {
        if !is_zero(block) {
            block[2..4].copy_from_slice(&(number as u16).to_le_bytes());
            mend(block);
        }
    }
}

/// Two blocks in each other's place.
fn swapped(random: &mut Random, image: &mut [u8], renumbered: bool) -> Option<()> {
    let (one, other) = (some_block(random, image), some_block(random, image));
    let before = image.to_vec();
    for (to, from) in [(one, other), (other, one)] {
        image[to * BLOCK..(to + 1) * BLOCK].copy_from_slice(&before[from * BLOCK..(from + 1) * BLOCK]);
    }
    if renumbered {
        renumber(image, 0);
    }
    (image != before).then_some(())
}

/// A block twice, all after it one later; the last one is lost.
fn doubled(random: &mut Random, image: &mut [u8], renumbered: bool) -> Option<()> {
    let number = some_block(random, image);
    let before = image.to_vec();
    if number + 1 < BLOCKS {
        image.copy_within(number * BLOCK..(BLOCKS - 1) * BLOCK, (number + 1) * BLOCK);
    }
    if renumbered {
        renumber(image, number);
    }
    (image != before).then_some(())
}

/// A block taken out, all after it one earlier, and zeros at the end.
fn removed(random: &mut Random, image: &mut [u8], renumbered: bool) -> Option<()> {
    let number = some_block(random, image);
    let before = image.to_vec();
    image.copy_within((number + 1) * BLOCK.., number * BLOCK);
    image[(BLOCKS - 1) * BLOCK..].fill(0);
    if renumbered {
        renumber(image, number);
    }
    (image != before).then_some(())
}

/// Other bytes in a block's place.
fn replaced(image: &mut [u8], number: usize, block: &[u8]) -> Option<()> {
    let place = &mut image[number * BLOCK..(number + 1) * BLOCK];
    if place == block {
        return None;
    }
    place.copy_from_slice(block);
    Some(())
}

/// A field in another one's place. The fields have one length and stand one after the other from a first place on, in each
/// of these blocks as many as the block says.
fn copied(
    random: &mut Random,
    image: &mut [u8],
    blocks: RangeInclusive<usize>,
    length: usize,
    first: usize,
    many: fn(&[u8]) -> usize,
) -> Option<()> {
    let last = (used_blocks(image) - 1).min(*blocks.end());
    let mut some_field = || {
        let number = if last >= *blocks.start() { random.between(*blocks.start(), last) } else { return None };
        let many = many(&image[number * BLOCK..(number + 1) * BLOCK]);
        (many > 0).then(|| (number, first + length * random.below(many)))
    };
    let ((source, from), (target, to)) = (some_field()?, some_field()?);
    let mut block = image[target * BLOCK..(target + 1) * BLOCK].to_vec();
    block[to..to + length].copy_from_slice(&image[source * BLOCK + from..][..length]);
    mend(&mut block);
    replaced(image, target, &block)
}
