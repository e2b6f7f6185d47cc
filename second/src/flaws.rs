//! Flaws: images that break a clause of "good", and messages that break a clause of refusal 4, one where that is possible.
//! All but the first few have right checks, so that it is the clause that must be noticed.
//!
//! A flaw that needs something which a state or message does not have (a second version to swap, a controller that is
//! no peer) is not possible there, and hands back nothing.

use crate::block::{mend, u16_at, u32_at, BLOCK};
use crate::call::Op;
use crate::image;
use crate::madeup::{held_jobs, holders, some_ask, some_outgoing, some_reply};
use crate::messages::{Outgoing, Reply};
use crate::names::{Controller, Counter, Dot, Job, Point, EIGHT};
use crate::object::{Content, Object, Value};
use crate::random::Random;
use crate::row::Row;
use crate::state::{State, MOST_LISTED, MOST_POINTS};
use crate::table::Table;

/// A flaw of an image.
pub type ImageFlaw = (&'static str, fn(&mut Random, &State) -> Option<Vec<u8>>);
/// A flaw of one block, made in its bytes. The check is put right afterwards.
pub type BlockFlaw = (&'static str, fn(&mut Random, &mut [u8]) -> Option<()>);

/// Some item for which the condition holds.
fn some<T>(random: &mut Random, items: impl IntoIterator<Item = T>) -> Option<T> {
    let mut items: Vec<T> = items.into_iter().collect();
    if items.is_empty() {
        return None;
    }
    let place = random.below(items.len());
    Some(items.swap_remove(place))
}

fn value(byte: u8) -> Content {
    Content::Value(Value::new(&[byte]).expect("one byte"))
}

fn put_u16(block: &mut [u8], at: usize, number: u16) {
    block[at..at + 2].copy_from_slice(&number.to_le_bytes());
}

fn put_u32(block: &mut [u8], at: usize, number: u32) {
    block[at..at + 4].copy_from_slice(&number.to_le_bytes());
}

/// A byte other than the one there.
fn other_byte(random: &mut Random, block: &mut [u8], at: usize) {
    block[at] ^= 1 << random.below(8);
}

// Flaws that any block can have.

/// Flaws of kind, format, position.
pub const ANY_BLOCK: &[BlockFlaw] = &[
    ("kind", |random, block| {
        let kinds = (0..=8u8).chain([255]).filter(|kind| *kind != block[0]);
        block[0] = some(random, kinds)?;
        Some(())
    }),
    ("format", |random, block| {
        block[1] = *random.pick(&[0, 2, 255]);
        Some(())
    }),
    ("position", |random, block| {
        let position = u16_at(block, 2);
        let others = [position.wrapping_add(1), position.wrapping_sub(1), position ^ 256, position ^ 0x8000];
        put_u16(block, 2, *random.pick(&others));
        Some(())
    }),
];

/// Flaws of a point's block (kinds 3 and 4), in its bytes.
pub const POINT_BLOCK: &[BlockFlaw] = &[
    ("unused byte", |random, block| {
        let at = random.between(297, 507);
        other_byte(random, block, at);
        Some(())
    }),
    ("job over 7", |random, block| {
        block[4] = *random.pick(&[8, 9, 64, 255]);
        Some(())
    }),
    ("point 0", |_, block| {
        put_u16(block, 6, 0);
        Some(())
    }),
    ("more than 8 versions", |random, block| {
        block[5] = *random.pick(&[9, 10, 255]);
        Some(())
    }),
    ("one version uncounted", |_, block| {
        block[5] = block[5].checked_sub(1)?;
        Some(())
    }),
    ("one version too many counted", |_, block| {
        block[5] = (block[5] < 8).then_some(block[5] + 1)?;
        Some(())
    }),
    ("slot past the count", |random, block| {
        let at = 40 + 32 * random.between(usize::from(block[5]), 8);
        if at >= 296 {
            return None;
        }
        let at = at + random.below(32);
        other_byte(random, block, at);
        Some(())
    }),
    ("versions out of order", |random, block| {
        let slot = some(random, 1..usize::from(block[5]))?;
        let (first, second) = block[40 + 32 * (slot - 1)..].split_at_mut(32);
        first.swap_with_slice(&mut second[..32]);
        Some(())
    }),
    ("a dot twice in one point", |random, block| {
        let slot = some(random, 1..usize::from(block[5]))?;
        let at = 40 + 32 * slot;
        let counter = u32_at(block, at - 32 + 4);
        block[at] = block[at - 32];
        put_u32(block, at + 4, counter);
        Some(())
    }),
    ("version of controller 0", |_, block| {
        (block[5] > 0).then_some(())?;
        block[40] = 0;
        Some(())
    }),
    ("version of controller over 8", |random, block| {
        let last = usize::from(block[5]).checked_sub(1)?;
        block[40 + 32 * last] = *random.pick(&[9, 16, 255]);
        Some(())
    }),
    ("version with counter 0", |_, block| {
        (block[5] > 0).then_some(())?;
        put_u32(block, 44, 0);
        Some(())
    }),
    ("value over 24 bytes", |random, block| {
        let slot = some(random, 0..usize::from(block[5]))?;
        block[40 + 32 * slot + 1] = random.between(25, 254) as u8;
        Some(())
    }),
    ("value padded with something else", |random, block| {
        let padded = (0..usize::from(block[5])).filter(|slot| block[40 + 32 * slot + 1] != 24);
        let at = 40 + 32 * some(random, padded)?;
        let length = if block[at + 1] == 255 { 0 } else { usize::from(block[at + 1]) };
        let at = at + 8 + random.between(length, 23);
        other_byte(random, block, at);
        Some(())
    }),
    ("two zero bytes", |random, block| {
        let slot = some(random, 0..usize::from(block[5]))?;
        let at = 40 + 32 * slot + random.between(2, 3);
        other_byte(random, block, at);
        Some(())
    }),
];

/// Flaws of the sender byte in kind 3.
pub const STORED_SENDER: &[BlockFlaw] = &[("sender in kind 3", |random, block| {
    block[296] = random.between(1, 255) as u8;
    Some(())
})];

/// Flaws of the sender byte in kind 4.
pub const OUTGOING_SENDER: &[BlockFlaw] = &[("sender in kind 4 not 1..8", |random, block| {
    block[296] = *random.pick(&[0, 9, 128, 255]);
    Some(())
})];

/// Flaws of kinds 5 and 6, in their bytes.
pub const LETTER: &[BlockFlaw] = &[
    ("unused byte of a letter", |random, block| {
        let at = random.between(104, 507);
        other_byte(random, block, at);
        Some(())
    }),
    ("letter's sender not 1..8", |random, block| {
        block[4] = *random.pick(&[0, 9, 255]);
        Some(())
    }),
    ("letter's addressee not 1..8", |random, block| {
        block[5] = *random.pick(&[0, 9, 255]);
        Some(())
    }),
    ("number of points", |random, block| {
        let number = u16_at(block, 6);
        put_u16(block, 6, *random.pick(&[number.wrapping_add(1), number.wrapping_sub(1), number ^ 256]));
        Some(())
    }),
    ("bit 0 of a letter's row", |random, block| {
        let row = 8 + 12 * some(random, (0..EIGHT).filter(|n| u32_at(block, 8 + 12 * n) != 0))?;
        block[row + 4] |= 1;
        Some(())
    }),
    ("letter's row above the last counter", |random, block| {
        let sender = usize::from(block[4]);
        let rows = (0..EIGHT).filter(|n| n + 1 != sender && u32_at(block, 8 + 12 * n) != 0);
        let row = 8 + 12 * some(random, rows)?;
        row_above_the_last(random, block, row);
        Some(())
    }),
    ("sender's own row with bits", |random, block| {
        let row = 8 + 12 * usize::from(block[4]).checked_sub(1)?;
        if u32_at(block, row) > u32::MAX - 70 {
            return None;
        }
        let bit = random.between(1, 63);
        block[row + 4 + bit / 8] |= 1 << (bit % 8);
        Some(())
    }),
];

/// Sets a bit that stands for a counter above the last one, with the base near enough to the end.
fn row_above_the_last(random: &mut Random, block: &mut [u8], row: usize) {
    let base = u32_at(block, row).max(u32::MAX - random.between(0, 60) as u32);
    put_u32(block, row, base);
    let bit = random.between(((u32::MAX - base) as usize).max(1), 63);
    block[row + 4..row + 12].fill(0);
    block[row + 4 + bit / 8] = 1 << (bit % 8);
}

// Flaws of images.

/// The image with one block changed, its check put right.
fn patched(state: &State, number: usize, change: impl FnOnce(&mut [u8])) -> Option<Vec<u8>> {
    perhaps_patched(state, number, |block| {
        change(block);
        Some(())
    })
}

/// The same, where the change may turn out not to be possible.
fn perhaps_patched(state: &State, number: usize, change: impl FnOnce(&mut [u8]) -> Option<()>) -> Option<Vec<u8>> {
    let mut image = image::encode(state);
    let block = &mut image[number * BLOCK..(number + 1) * BLOCK];
    let before = block.to_vec();
    change(block)?;
    if block == before {
        return None;
    }
    mend(block);
    Some(image)
}

/// The image of a changed state.
fn changed(state: &State, change: impl FnOnce(&mut State)) -> Option<Vec<u8>> {
    perhaps_changed(state, |state| {
        change(state);
        Some(())
    })
}

/// The same, where the change may turn out not to be possible.
fn perhaps_changed(state: &State, change: impl FnOnce(&mut State) -> Option<()>) -> Option<Vec<u8>> {
    let mut other = state.clone();
    change(&mut other)?;
    (other.points.len() <= MOST_POINTS && other != *state).then(|| image::encode(&other))
}

/// One of the used blocks.
fn used_block(random: &mut Random, state: &State) -> usize {
    random.below(3 + state.points.len())
}

/// A stored point's block number.
fn record_block(random: &mut Random, state: &State) -> Option<usize> {
    some(random, 3..3 + state.points.len())
}

/// One of the two lists with that many entries at least: its block number and length.
fn list_block(random: &mut Random, state: &State, least: usize) -> Option<(usize, usize)> {
    let lengths = [(1, state.own_dots.len()), (2, state.foreign_dots.len())];
    some(random, lengths.into_iter().filter(|(_, length)| *length >= least))
}

/// Another peer than ourselves.
fn other_peer(random: &mut Random, state: &State) -> Option<Controller> {
    some(random, Controller::all().filter(|&n| n != state.own && state.is_peer(n)))
}

fn non_peer(random: &mut Random, state: &State) -> Option<Controller> {
    some(random, Controller::all().filter(|&n| !state.is_peer(n)))
}

/// A stored point.
fn record(random: &mut Random, state: &State) -> Option<Point> {
    some(random, state.points.keys().copied())
}

/// The list that a dot belongs to.
fn list_of(state: &mut State, dot: Dot) -> &mut std::collections::BTreeMap<Dot, Point> {
    if dot.controller == state.own {
        &mut state.own_dots
    } else {
        &mut state.foreign_dots
    }
}

/// Whether some record holds the dot.
fn in_a_record(state: &State, dot: Dot) -> bool {
    state.points.values().any(|object| object.versions.contains_key(&dot))
}

/// A point that is not stored, in that job.
fn unstored(random: &mut Random, state: &State, job: Job) -> Option<Point> {
    let point = Point::new(job.number(), random.between(1, 65535) as u16)?;
    (!state.points.contains_key(&point)).then_some(point)
}

/// A counter of a controller that has not been seen, not above the last one.
fn unseen(random: &mut Random, state: &State, n: Controller) -> Option<Dot> {
    let row = state.clock.row(n);
    let far = Counter(row.highest().0 + random.between(1, 100) as u64);
    let near = row.base().next();
    let counter = if n != state.own && random.percent(50) { far } else { near };
    (counter <= Counter::LAST).then_some(Dot { controller: n, counter })
}

/// Flaws of an image whose checks are wrong.
pub const IMAGE_CHECKS: &[ImageFlaw] = &[
    ("a byte changed, check left", |random, state| {
        let mut image = image::encode(state);
        let at = random.below(image.len());
        other_byte(random, &mut image, at);
        Some(image)
    }),
    ("check changed", |random, state| {
        let mut image = image::encode(state);
        let at = used_block(random, state) * BLOCK + 508 + random.below(4);
        other_byte(random, &mut image, at);
        Some(image)
    }),
    ("check of 65535", |random, state| {
        let mut image = image::encode(state);
        let at = random.below(image::BLOCKS) * BLOCK + *random.pick(&[508, 510]);
        put_u16(&mut image, at, 65535);
        Some(image)
    }),
];

/// Flaws of an image with right checks: the blocks' form.
pub const IMAGE_FORM: &[ImageFlaw] = &[
    ("any block's kind, format, position", |random, state| {
        let flaw = random.pick(ANY_BLOCK);
        flawed_image_block(random, state, flaw, false)
    }),
    ("a stored point's block", |random, state| {
        let flaw = random.pick(POINT_BLOCK);
        flawed_image_block(random, state, flaw, true)
    }),
    ("a stored point's sender", |random, state| flawed_image_block(random, state, &STORED_SENDER[0], true)),
    ("own number", |random, state| {
        patched(state, 0, |block| {
            block[4] = *random.pick(&[0, 9, 255]);
        })
    }),
    ("unused byte of the head", |random, state| {
        let at = some(random, (5..8).chain(368..508))?;
        patched(state, 0, |block| other_byte(random, block, at))
    }),
    ("bit 0 of a row", |random, state| {
        let peers = Controller::all().filter(|&n| n != state.own && state.is_peer(n));
        let n = some(random, peers.filter(|&n| state.clock.row(n).base() < Counter::LAST))?;
        patched(state, 0, |block| {
            block[16 + 12 * n.index() + 4] |= 1;
        })
    }),
    ("row above the last counter", |random, state| {
        let n = other_peer(random, state)?;
        patched(state, 0, |block| row_above_the_last(random, block, 16 + 12 * n.index()))
    }),
    ("unused byte of a list", |random, state| {
        let at = some(random, (6..8).chain(488..508))?;
        patched(state, *random.pick(&[1, 2]), |block| other_byte(random, block, at))
    }),
    ("entry past the count", |random, state| {
        let (number, length) = list_block(random, state, 0)?;
        let at = 8 + 8 * some(random, length..MOST_LISTED)? + random.below(8);
        patched(state, number, |block| other_byte(random, block, at))
    }),
    ("61 listed dots", |random, state| {
        let (number, length) = list_block(random, state, 1)?;
        perhaps_patched(state, number, |block| {
            // Where the list is full, the 61st entry follows in order.
            if length == MOST_LISTED {
                let last: Vec<u8> = block[8 + 59 * 8..8 + 60 * 8].to_vec();
                block[488..496].copy_from_slice(&last);
                put_u32(block, 492, u32_at(&last, 4).checked_add(1)?);
            }
            put_u16(block, 4, if length == MOST_LISTED { 61 } else { *random.pick(&[61, 62, 316, 65535]) });
            Some(())
        })
    }),
    ("one listed dot uncounted", |random, state| {
        let (number, length) = list_block(random, state, 1)?;
        patched(state, number, |block| put_u16(block, 4, length as u16 - 1))
    }),
    ("one listed dot too many counted", |random, state| {
        let (number, length) = list_block(random, state, 0)?;
        perhaps_patched(state, number, |block| (length < MOST_LISTED).then(|| put_u16(block, 4, length as u16 + 1)))
    }),
    ("listed dots out of order", |random, state| {
        let (number, length) = list_block(random, state, 2)?;
        let at = 8 + 8 * random.between(1, length - 1);
        perhaps_patched(state, number, |block| {
            let (first, second) = block[at - 8..].split_at_mut(8);
            first.swap_with_slice(&mut second[..8]);
            Some(())
        })
    }),
    ("a dot listed twice", |random, state| {
        let (number, length) = list_block(random, state, 2)?;
        let at = 8 + 8 * random.between(1, length - 1);
        patched(state, number, |block| block.copy_within(at - 8..at, at))
    }),
    ("listed counter 0", |random, state| {
        let (number, _) = list_block(random, state, 1)?;
        patched(state, number, |block| put_u32(block, 12, 0))
    }),
    ("listed controller 0", |random, state| {
        let (number, _) = list_block(random, state, 1)?;
        patched(state, number, |block| block[8] = 0)
    }),
    ("listed controller over 8", |random, state| {
        let (number, length) = list_block(random, state, 1)?;
        patched(state, number, |block| block[8 * length] = *random.pick(&[9, 255]))
    }),
    ("listed job over 7", |random, state| {
        let (number, length) = list_block(random, state, 1)?;
        let at = 8 + 8 * random.below(length) + 1;
        patched(state, number, |block| block[at] = *random.pick(&[8, 255]))
    }),
    ("listed point 0", |random, state| {
        let (number, length) = list_block(random, state, 1)?;
        let at = 8 + 8 * random.below(length) + 2;
        patched(state, number, |block| put_u16(block, at, 0))
    }),
    ("points out of order", |random, state| {
        let second = some(random, 4..3 + state.points.len())?;
        let mut image = image::encode(state);
        let (first, rest) = image[(second - 1) * BLOCK..].split_at_mut(BLOCK);
        first.swap_with_slice(&mut rest[..BLOCK]);
        put_u16(first, 2, second as u16 - 1);
        put_u16(rest, 2, second as u16);
        mend(first);
        mend(&mut rest[..BLOCK]);
        Some(image)
    }),
    ("a point twice", |random, state| {
        let keys: Vec<Point> = state.points.keys().copied().collect();
        let neighbours = (1..keys.len()).filter(|&second| keys[second - 1].job == keys[second].job);
        let second = some(random, neighbours)?;
        patched(state, 3 + second, |block| put_u16(block, 6, keys[second - 1].number.number()))
    }),
    ("a block of zeros before a point", |random, state| {
        let last = 2 + state.points.len();
        if state.points.is_empty() || last + 1 == image::BLOCKS {
            return None;
        }
        let mut image = image::encode(state);
        image.copy_within(last * BLOCK..(last + 1) * BLOCK, (last + 1) * BLOCK);
        image[last * BLOCK..(last + 1) * BLOCK].fill(0);
        if random.percent(50) {
            let moved = &mut image[(last + 1) * BLOCK..(last + 2) * BLOCK];
            put_u16(moved, 2, last as u16 + 1);
            mend(moved);
        }
        Some(image)
    }),
    ("a byte in a block of zeros", |random, state| {
        let number = some(random, 3 + state.points.len()..image::BLOCKS)?;
        let at = random.below(508);
        patched(state, number, |block| other_byte(random, block, at))
    }),
    ("a list's block of zeros", |random, state| {
        let number = *random.pick(&[0, 1, 2]);
        patched(state, number, |block| block.fill(0))
    }),
];

/// Flaws of an image with right checks and form: what it says.
pub const IMAGE_MEANING: &[ImageFlaw] = &[
    ("own row with bits", |random, state| {
        let counter = Counter(state.own_base().0 + random.between(2, 64) as u64);
        let own = state.own.index();
        perhaps_changed(state, |state| {
            (counter <= Counter::LAST).then(|| state.clock.0[own] = Row::up_to(state.own_base()).adding(counter))
        })
    }),
    ("row of a non-peer", |random, state| {
        let n = non_peer(random, state)?;
        let row = if random.percent(50) { Row::up_to(Counter(1)) } else { Row::from_bits(Counter(0), 2) };
        changed(state, |state| state.clock.0[n.index()] = row)
    }),
    ("watermark of a non-peer m", |random, state| {
        let (m, n) = (non_peer(random, state)?, other_peer(random, state)?);
        changed(state, |state| state.watermark[m.index()][n.index()] = Counter(1))
    }),
    ("watermark of a non-peer n", |random, state| {
        let (m, n) = (other_peer(random, state)?, non_peer(random, state)?);
        changed(state, |state| state.watermark[m.index()][n.index()] = Counter(1))
    }),
    ("own watermark row above own rows", |random, state| {
        let n = other_peer(random, state)?;
        let above = state.clock.row(n).base().next();
        perhaps_changed(state, |state| {
            (above <= Counter::LAST).then(|| state.watermark[state.own.index()][n.index()] = above)
        })
    }),
    ("own column of the watermark above the own base", |random, state| {
        let m = if random.percent(90) { other_peer(random, state)? } else { state.own };
        let above = state.own_base().next();
        perhaps_changed(state, |state| {
            (above <= Counter::LAST).then(|| state.watermark[m.index()][state.own.index()] = above)
        })
    }),
    ("listed dot not in the clock", |random, state| {
        let job = some(random, held_jobs(&state.table, state.own))?;
        let n = some(random, holders(&state.table, job))?;
        let (dot, point) = (unseen(random, state, n)?, unstored(random, state, job)?);
        perhaps_changed(state, |state| {
            let list = list_of(state, dot);
            (list.len() < MOST_LISTED).then(|| list.insert(dot, point)).map(|_| ())
        })
    }),
    ("own dot in the foreign list", |random, state| {
        let dot = some(random, state.own_dots.keys().copied())?;
        perhaps_changed(state, |state| {
            let point = state.own_dots.remove(&dot)?;
            state.foreign_dots.insert(dot, point);
            (state.foreign_dots.len() <= MOST_LISTED).then_some(())
        })
    }),
    ("foreign dot in the own list", |random, state| {
        let dot = some(random, state.foreign_dots.keys().copied())?;
        perhaps_changed(state, |state| {
            let point = state.foreign_dots.remove(&dot)?;
            state.own_dots.insert(dot, point);
            (state.own_dots.len() <= MOST_LISTED).then_some(())
        })
    }),
    ("listed dot of a job not held here", |random, state| {
        let (dot, point) = some(random, state.listed().filter(|(dot, _)| !in_a_record(state, *dot)))?;
        let jobs = Job::all().filter(|&job| !state.table.holds(state.own, job));
        // Where it can be, a job that the dot's controller does hold.
        let (held, other): (Vec<Job>, Vec<Job>) = jobs.partition(|&job| state.table.holds(dot.controller, job));
        let job = some(random, if held.is_empty() { other } else { held })?;
        perhaps_changed(state, |state| list_of(state, dot).insert(dot, Point { job, ..point }).map(|_| ()))
    }),
    ("listed dot of a non-holder", |random, state| {
        let (dot, point) = some(random, state.listed().filter(|(dot, _)| !in_a_record(state, *dot)))?;
        let ours = held_jobs(&state.table, state.own);
        let job = some(random, ours.into_iter().filter(|&job| !state.table.holds(dot.controller, job)))?;
        perhaps_changed(state, |state| list_of(state, dot).insert(dot, Point { job, ..point }).map(|_| ()))
    }),
    ("dot listed for another point than the record that holds it", |random, state| {
        let point = record(random, state)?;
        let dot = some(random, state.points[&point].versions.keys().copied())?;
        let other = unstored(random, state, point.job)?;
        perhaps_changed(state, |state| {
            let list = list_of(state, dot);
            list.insert(dot, other);
            (list.len() <= MOST_LISTED).then_some(())
        })
    }),
    ("stored point of a job not held here", |random, state| {
        let job = some(random, Job::all().filter(|&job| !state.table.holds(state.own, job)))?;
        let n = some(random, holders(&state.table, job))?;
        let point = unstored(random, state, job)?;
        let mut object = Object::default();
        object.context.raise(n, Counter(random.between(1, 9) as u64));
        changed(state, |state| {
            state.points.insert(point, object);
        })
    }),
    ("context entry of a non-holder", |random, state| {
        let point = record(random, state)?;
        let n = some(random, Controller::all().filter(|&n| !state.table.holds(n, point.job)))?;
        perhaps_changed(state, |state| {
            state.points.get_mut(&point)?.context.raise(n, Counter(1));
            Some(())
        })
    }),
    ("version of a non-holder", |random, state| {
        let point = record(random, state)?;
        let outside = Controller::all().filter(|&n| state.is_peer(n) && !state.table.holds(n, point.job));
        let n = some(random, outside.filter(|&n| state.clock.row(n).base() > Counter::NONE))?;
        let dot = Dot { controller: n, counter: state.clock.row(n).base() };
        if in_a_record(state, dot) || state.listed_for(dot).is_some() || state.points[&point].versions.len() == 8 {
            return None;
        }
        let with_context = random.percent(50);
        perhaps_changed(state, |state| {
            let object = state.points.get_mut(&point)?;
            object.versions.insert(dot, value(1));
            if with_context {
                object.context.raise(n, dot.counter);
            }
            Some(())
        })
    }),
    ("version not covered by the filled context", |random, state| {
        let uncoverable = state.points.iter().flat_map(|(point, object)| {
            let beyond = |dot: &&Dot| dot.counter > state.clock.row(dot.controller).base();
            object.versions.keys().filter(beyond).map(|dot| (*point, *dot))
        });
        let (point, dot) = some(random, uncoverable)?;
        perhaps_changed(state, |state| {
            state.points.get_mut(&point)?.context.0[dot.controller.index()] = Counter(dot.counter.0 - 1);
            Some(())
        })
    }),
    ("version not in the clock", |random, state| {
        let point = record(random, state)?;
        let others = holders(&state.table, point.job).into_iter().filter(|&n| n != state.own);
        let n = some(random, others)?;
        let dot = unseen(random, state, n)?;
        perhaps_changed(state, |state| {
            let object = state.points.get_mut(&point)?;
            object.versions.insert(dot, value(2));
            object.context.raise(dot.controller, dot.counter);
            (object.versions.len() <= 8).then_some(())
        })
    }),
    ("own version above the own base", |random, state| {
        let point = record(random, state)?;
        let dot = Dot { controller: state.own, counter: state.own_base().next() };
        let with_context = random.percent(50);
        perhaps_changed(state, |state| {
            let object = state.points.get_mut(&point)?;
            object.versions.insert(dot, value(3));
            if with_context {
                object.context.raise(dot.controller, dot.counter);
            }
            (object.versions.len() <= 8 && dot.counter <= Counter::LAST).then_some(())
        })
    }),
    ("a dot in two records", |random, state| {
        let point = record(random, state)?;
        let dot = some(random, state.points[&point].versions.keys().copied())?;
        let others = state.points.keys().filter(|other| other.job == point.job && **other != point);
        let other = some(random, others.copied())?;
        perhaps_changed(state, |state| {
            let content = state.points[&point].versions[&dot];
            let object = state.points.get_mut(&other)?;
            object.versions.insert(dot, content);
            object.context.raise(dot.controller, dot.counter);
            let fits = object.versions.len() <= 8;
            list_of(state, dot).remove(&dot);
            fits.then_some(())
        })
    }),
    ("own context entry above the own base", |random, state| {
        let point = record(random, state)?;
        let above = state.own_base().next();
        perhaps_changed(state, |state| {
            state.points.get_mut(&point)?.context.raise(state.own, above);
            (above <= Counter::LAST).then_some(())
        })
    }),
    ("empty context without a value", |random, state| {
        let job = some(random, held_jobs(&state.table, state.own))?;
        let point = unstored(random, state, job)?;
        let seen = Dot { controller: state.own, counter: state.own_base() };
        let deleted = seen.counter > Counter::NONE && !in_a_record(state, seen) && state.listed_for(seen).is_none();
        let with_deletion = deleted && random.percent(50);
        changed(state, |state| {
            let mut object = Object::default();
            if with_deletion {
                object.versions.insert(seen, Content::Deleted);
            }
            state.points.insert(point, object);
        })
    }),
];

/// All image flaws.
pub fn image_flaws() -> impl Iterator<Item = &'static ImageFlaw> {
    IMAGE_CHECKS.iter().chain(IMAGE_FORM).chain(IMAGE_MEANING)
}

/// The image with a flaw in one of its blocks: in any used one, or in a stored point's.
pub fn flawed_image_block(random: &mut Random, state: &State, flaw: &BlockFlaw, stored: bool) -> Option<Vec<u8>> {
    let number = if stored { record_block(random, state)? } else { used_block(random, state) };
    perhaps_patched(state, number, |block| flaw.1(random, block))
}

/// A bad image, made from a good state by any flaw that is possible there.
pub fn bad_image(random: &mut Random, state: &State) -> Vec<u8> {
    loop {
        let list = *random.pick(&[IMAGE_CHECKS, IMAGE_FORM, IMAGE_MEANING, IMAGE_MEANING]);
        if let Some(image) = random.pick(list).1(random, state) {
            return image;
        }
    }
}

// Flaws of messages.

/// The block with a flaw from one of these lists, its check put right; the flaw's name.
pub fn flawed_block(random: &mut Random, lists: &[&[BlockFlaw]], block: &mut [u8]) -> Option<&'static str> {
    let list = *random.pick(lists);
    let (name, flaw) = random.pick(list);
    let before = block.to_vec();
    flaw(random, block)?;
    if block == before {
        return None;
    }
    mend(block);
    Some(name)
}

/// Changes an object of a message into one that refusal 4 meets: a non-holder named, or a version not covered.
fn flawed_object(
    random: &mut Random,
    table: &Table,
    point: Point,
    object: &mut Object,
    rows: Option<&crate::clock::Clock>,
) -> Option<&'static str> {
    let outside = || Controller::all().filter(|&n| !table.holds(n, point.job));
    match random.below(3) {
        0 => {
            let n = some(random, outside())?;
            object.context.raise(n, Counter(random.between(1, 5) as u64));
            Some("non-holder in a context")
        }
        1 => {
            let n = some(random, outside())?;
            object.versions.insert(Dot { controller: n, counter: Counter(1) }, value(4));
            (object.versions.len() <= 8).then_some("non-holder in a dot")
        }
        _ => {
            let base = |n: Controller| rows.map_or(Counter::NONE, |clock| clock.row(n).base());
            let coverable = object.versions.keys().filter(|dot| dot.counter > base(dot.controller));
            let dot = some(random, coverable.copied())?;
            object.context.0[dot.controller.index()] = Counter(dot.counter.0 - 1);
            Some("version not covered")
        }
    }
}

/// An ill-formed kind 4 message with a right check, and what is wrong with it.
pub fn ill_formed_outgoing(random: &mut Random, table: &Table, message: &Outgoing) -> Option<(Vec<u8>, &'static str)> {
    if random.percent(30) {
        let mut message = message.clone();
        let name = flawed_object(random, table, message.point, &mut message.object, None)?;
        return Some((message.encode().to_vec(), name));
    }
    let mut block = message.encode().to_vec();
    let name = flawed_block(random, &[ANY_BLOCK, POINT_BLOCK, POINT_BLOCK, OUTGOING_SENDER], &mut block)?;
    Some((block, name))
}

/// An ill-formed letter (an ask, or a reply's head), made in its block.
pub fn ill_formed_letter(random: &mut Random, table: &Table, block: &mut [u8]) -> Option<&'static str> {
    if random.percent(10) {
        let n = some(random, Controller::all().filter(|&n| !table.in_some_job(n)))?;
        block[8 + 12 * n.index() + random.below(2) * 4] = 2;
        mend(block);
        return Some("row of a controller in no job");
    }
    flawed_block(random, &[ANY_BLOCK, LETTER, LETTER], block)
}

/// An ill-formed reply with right checks, and what is wrong with it.
pub fn ill_formed_reply(random: &mut Random, table: &Table, reply: &Reply) -> Option<(Vec<u8>, &'static str)> {
    let mut blocks = reply.encode();
    let last = reply.points.len();
    match random.below(8) {
        0 | 1 => ill_formed_letter(random, table, &mut blocks[..BLOCK]).map(|name| (blocks, name)),
        2 => {
            let place = random.between(0, last);
            blocks.truncate(place * BLOCK);
            (place > 0).then_some((blocks, "fewer blocks than the number of points"))
        }
        3 => {
            blocks.extend_from_within(last * BLOCK..);
            (last < 120).then_some((blocks, "more blocks than the number of points"))
        }
        4 => {
            let second = some(random, 2..=last)?;
            let (first, rest) = blocks[(second - 1) * BLOCK..].split_at_mut(BLOCK);
            if random.percent(50) {
                first.swap_with_slice(&mut rest[..BLOCK]);
                put_u16(first, 2, second as u16 - 1);
                put_u16(rest, 2, second as u16);
                mend(first);
                mend(&mut rest[..BLOCK]);
                return Some((blocks, "a reply's points out of order"));
            }
            let twin: Vec<u8> = first.to_vec();
            rest[..BLOCK].copy_from_slice(&twin);
            put_u16(rest, 2, second as u16);
            mend(&mut rest[..BLOCK]);
            Some((blocks, "a reply's point twice"))
        }
        5 => {
            let point = some(random, reply.points.keys().copied())?;
            let mut reply = reply.clone();
            let clock = reply.head.clock.clone();
            let name = flawed_object(random, table, point, reply.points.get_mut(&point)?, Some(&clock))?;
            Some((reply.encode(), name))
        }
        6 => {
            let point = some(random, reply.points.keys().copied())?;
            let others = reply.points.keys().filter(|other| other.job == point.job && **other != point);
            let other = some(random, others.copied())?;
            let (dot, content) = some(random, reply.points[&point].versions.clone())?;
            let mut reply = reply.clone();
            let object = reply.points.get_mut(&other)?;
            object.versions.insert(dot, content);
            object.context.raise(dot.controller, dot.counter);
            (object.versions.len() <= 8).then(|| (reply.encode(), "a dot in two of a reply's points"))
        }
        _ => {
            let place = some(random, 1..=last)?;
            let block = &mut blocks[place * BLOCK..(place + 1) * BLOCK];
            let name = flawed_block(random, &[ANY_BLOCK, POINT_BLOCK, POINT_BLOCK, STORED_SENDER], block)?;
            Some((blocks, name))
        }
    }
}

/// An ill-formed message with right checks for a call that takes one, made up for this state, and what is wrong with it.
pub fn ill_formed(random: &mut Random, op: Op, state: &State) -> Option<(Vec<u8>, &'static str)> {
    match op {
        Op::TakeIn => {
            let message = some_outgoing(random, state)?;
            ill_formed_outgoing(random, &state.table, &message)
        }
        Op::Reply => {
            let mut ask = some_ask(random, state).encode_ask().to_vec();
            ill_formed_letter(random, &state.table, &mut ask).map(|name| (ask, name))
        }
        Op::Repair => {
            let reply = some_reply(random, state);
            ill_formed_reply(random, &state.table, &reply)
        }
        _ => None,
    }
}

/// How many different things [`ill_formed`] finds to be wrong with a message of that call.
pub fn ill_forms(op: Op) -> usize {
    let block = ANY_BLOCK.len() + POINT_BLOCK.len();
    // Of an object: non-holder in a dot, in a context, version not covered. Of a letter: a row of a controller in no job.
    match op {
        Op::TakeIn => block + OUTGOING_SENDER.len() + 3,
        Op::Reply => ANY_BLOCK.len() + LETTER.len() + 1,
        // Also fewer and more blocks, points out of order and twice, a dot in two points.
        Op::Repair => block + STORED_SENDER.len() + 3 + LETTER.len() + 1 + 5,
        _ => 0,
    }
}
