//! Changes to an input that keep its shape: a number in a block, a version or an entry that is another's, a block more or less. What is changed blindly
//! seldom gets past the first tests of an image of 67 blocks.

use crate::input::{blocks, HEAD};
use second::block::BLOCK;
use second::random::Random;

/// One change, or a few. `blindly` changes some bytes in place, by the fuzzer's own means.
pub fn mutate(bytes: &mut Vec<u8>, longest: usize, random: &mut Random, blindly: &mut dyn FnMut(&mut [u8])) {
    if bytes.len() < HEAD {
        bytes.resize(HEAD, 0);
    }
    for _ in 0..1 + random.below(3) {
        let whole = blocks(bytes);
        match random.below(12) {
            0 | 1 => change_head(bytes, random),
            2 if bytes.len() + BLOCK <= longest && !whole.is_empty() => one_block_more(bytes, &whole, random),
            3 if whole.len() > 3 => one_block_less(bytes, &whole, random),
            4 | 5 if !whole.is_empty() => copy_a_part(bytes, &whole, random),
            6 if !whole.is_empty() => one_version_more_or_less(bytes, &whole, random),
            7 if !whole.is_empty() => {
                let at = *random.pick(&whole);
                blindly(&mut bytes[at..at + BLOCK]);
            }
            8 => blindly(bytes),
            _ if !whole.is_empty() => change_a_number(bytes, &whole, random),
            _ => change_head(bytes, random),
        }
    }
}

/// A byte of the arguments, or a counter of the context. The lengths are left alone most of the time.
fn change_head(bytes: &mut [u8], random: &mut Random) {
    match random.below(10) {
        0 => bytes[0] = random.below(10) as u8,
        1 => bytes[1] = random.below(10) as u8,
        2 => bytes[2] = bytes[2].wrapping_add(random.below(5) as u8).wrapping_sub(2),
        3 => bytes[4] = 3,
        4 => bytes[5] = if random.percent(90) { 8 } else { random.below(16) as u8 },
        5 => {
            let out = if random.percent(90) { 512 } else { random.below(61_953) };
            bytes[6..8].copy_from_slice(&(out as u16).to_le_bytes());
        }
        6 if random.percent(5) => bytes[10] = random.below(256) as u8,
        _ => {
            let at = 12 + 4 * random.below(15);
            let old = u32::from_le_bytes(bytes[at..at + 4].try_into().expect("four bytes"));
            bytes[at..at + 4].copy_from_slice(&(nearby(u64::from(old), random) as u32).to_le_bytes());
        }
    }
}

/// Another number, most often one that is near, and sometimes one at a limit.
fn nearby(old: u64, random: &mut Random) -> u64 {
    match random.below(8) {
        0 => 0,
        1 => random.below(10) as u64,
        2 => u64::MAX - random.below(3) as u64,
        3 => old ^ 1 << random.below(64),
        4 => old.wrapping_add(63 + random.below(4) as u64),
        5 => old.wrapping_sub(63 + random.below(4) as u64),
        _ => old.wrapping_add(random.below(9) as u64).wrapping_sub(4),
    }
}

/// A number of 1, 2, 4 or 8 bytes, all of which stand where their width divides.
fn change_a_number(bytes: &mut [u8], whole: &[usize], random: &mut Random) {
    let width = 1 << random.below(4);
    let at = random.pick(whole) + random.below(304 / width) * width;
    let mut old = [0; 8];
    old[..width].copy_from_slice(&bytes[at..at + width]);
    let new = nearby(u64::from_le_bytes(old), random).to_le_bytes();
    bytes[at..at + width].copy_from_slice(&new[..width]);
}

/// A counter, an entry of a list, a version or all that a block says, as it stands in another place of that kind.
fn copy_a_part(bytes: &mut [u8], whole: &[usize], random: &mut Random) {
    let (length, places) = *random.pick(&[(4, 124), (8, 61), (32, 8), (504, 1)]);
    let mut place = || {
        let first = if length == 32 { 40 } else { 4 };
        let last = random.below(places);
        random.pick(whole) + first + length * last
    };
    let (from, to) = (place(), place());
    bytes.copy_within(from..from + length, to);
}

/// A version is put into a point block with all after it moved up, or taken out.
fn one_version_more_or_less(bytes: &mut [u8], whole: &[usize], random: &mut Random) {
    let at = *random.pick(whole);
    let other = random.pick(whole) + 40 + 32 * random.below(8);
    let many = usize::from(bytes[at + 5]).min(8);
    let place = random.below(many.max(1));
    let (first, end) = (at + 40 + 32 * place, at + 40 + 32 * 8);
    if many < 8 && random.percent(60) {
        let version: Vec<u8> = bytes[other..other + 32].to_vec();
        bytes.copy_within(first..end - 32, first + 32);
        bytes[first..first + 32].copy_from_slice(&version);
        bytes[at + 5] = many as u8 + 1;
    } else if many > 0 {
        bytes.copy_within(first + 32..end, first);
        bytes[end - 32..end].fill(0);
        bytes[at + 5] = many as u8 - 1;
    }
}

/// Another block after one that is there: a copy of any.
fn one_block_more(bytes: &mut Vec<u8>, whole: &[usize], random: &mut Random) {
    let (from, after) = (*random.pick(whole), *random.pick(whole));
    let block: Vec<u8> = bytes[from..from + BLOCK].to_vec();
    let of_image = after < HEAD + image_bytes(bytes);
    bytes.splice(after + BLOCK..after + BLOCK, block);
    if of_image {
        let longer = image_bytes(bytes) + BLOCK;
        set_image_bytes(bytes, longer);
    }
    number_the_blocks(bytes);
}

/// A block less, but none of an image's first three.
fn one_block_less(bytes: &mut Vec<u8>, whole: &[usize], random: &mut Random) {
    let at = whole[3 + random.below(whole.len() - 3)];
    let of_image = at < HEAD + image_bytes(bytes);
    bytes.drain(at..at + BLOCK);
    if of_image {
        let shorter = image_bytes(bytes) - BLOCK;
        set_image_bytes(bytes, shorter);
    }
    number_the_blocks(bytes);
}

fn image_bytes(bytes: &[u8]) -> usize {
    usize::from(u16::from_le_bytes([bytes[8], bytes[9]]))
}

fn set_image_bytes(bytes: &mut [u8], length: usize) {
    bytes[8..10].copy_from_slice(&(length.min(65_535) as u16).to_le_bytes());
}

/// Positions and a reply's count of points as they should be.
fn number_the_blocks(bytes: &mut [u8]) {
    let whole = blocks(bytes);
    let image_end = HEAD + image_bytes(bytes);
    let (image, message): (Vec<usize>, Vec<usize>) = whole.into_iter().partition(|at| *at < image_end);
    for (position, at) in image.into_iter().enumerate() {
        bytes[at + 2..at + 4].copy_from_slice(&(position as u16).to_le_bytes());
    }
    for (position, at) in message.iter().enumerate() {
        bytes[at + 2..at + 4].copy_from_slice(&(position as u16).to_le_bytes());
    }
    if let Some(head) = message.first().filter(|head| bytes[**head] == 6) {
        bytes[head + 6..head + 8].copy_from_slice(&(message.len() as u16 - 1).to_le_bytes());
    }
}
