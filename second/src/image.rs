//! The image codec: the whole image into maps and sets, and back.
//!
//! A state has one image only. So the form of an image (kinds, formats, positions, orders, zero bytes, checks) needs
//! no checks of its own: read the fields, write the image anew from what was read, and compare. Whatever is out of
//! order, stands twice, or is not zero where it must be, makes a difference.

use crate::block::{is_zero, u16_at, u32_at, u64_at, Kind, Writer, BLOCK};
use crate::clock::Clock;
use crate::names::{Controller, Counter, Dot, Point, EIGHT};
use crate::point_block;
use crate::row::Row;
use crate::state::{State, Watermark, MOST_LISTED, MOST_POINTS};
use crate::table::Table;
use std::collections::BTreeMap;

/// "An image is 67 blocks, 34,304 bytes: head, own dots, foreign dots, then points".
pub const BLOCKS: usize = 3 + MOST_POINTS;
/// The length of an image.
pub const IMAGE: usize = BLOCKS * BLOCK;

/// The state of a good image; none where it is not good. The length must be right.
pub fn decode(image: &[u8]) -> Option<State> {
    let state = read(image)?;
    (encode(&state) == image && state.is_good()).then_some(state)
}

/// Whether these bytes, of any length, are a good image.
pub fn is_good(bytes: &[u8]) -> bool {
    bytes.len() == IMAGE && decode(bytes).is_some()
}

/// The image of a state.
pub fn encode(state: &State) -> Vec<u8> {
    let mut image = Vec::with_capacity(IMAGE);
    image.extend_from_slice(&encode_head(state));
    image.extend_from_slice(&encode_dots(1, &state.own_dots));
    image.extend_from_slice(&encode_dots(2, &state.foreign_dots));
    for (number, (point, object)) in state.points.iter().enumerate() {
        image.extend_from_slice(&point_block::encode(Kind::Stored, 3 + number, *point, object, 0));
    }
    image.resize(IMAGE, 0);
    image
}

/// Reads the fields; none where one is outside its range.
fn read(image: &[u8]) -> Option<State> {
    let blocks: Vec<&[u8]> = image.chunks_exact(BLOCK).collect();
    let head = blocks[0];
    let mut state = State::fresh(Controller::new(head[4])?, Table(head[8..16].try_into().expect("eight bytes")));
    state.clock = read_rows(&head[16..112])?;
    state.watermark = read_watermark(&head[112..368]);
    state.own_dots = read_dots(blocks[1])?;
    state.foreign_dots = read_dots(blocks[2])?;
    for block in blocks[3..].iter().take_while(|block| !is_zero(block)) {
        let (point, object, _) = point_block::decode(block)?;
        state.points.insert(point, object);
    }
    Some(state)
}

/// "eight clock rows (base 4, bits 8)", as they stand in an image head and in kinds 5 and 6; none where a row stands for
/// a counter above the last one ("No row stands for a counter above 4,294,967,295").
pub fn read_rows(bytes: &[u8]) -> Option<Clock> {
    let mut clock = Clock::default();
    for (row, bytes) in clock.0.iter_mut().zip(bytes.chunks_exact(12)) {
        *row = Row::from_bits(Counter::from(u32_at(bytes, 0)), u64_at(bytes, 4));
    }
    clock.0.iter().all(|row| row.highest() <= Counter::LAST).then_some(clock)
}

/// Writes the eight clock rows at a place.
pub fn put_rows(block: &mut Writer, at: usize, clock: &Clock) {
    for (n, row) in clock.0.iter().enumerate() {
        block.put(at + 12 * n, &row.base().to_u32().to_le_bytes());
        block.put(at + 12 * n + 4, &row.bits().to_le_bytes());
    }
}

/// Writes "**Kind 1, image head**: 4 own number; 8-15 table; 16-111 eight clock rows (base 4, bits 8); 112-367
/// watermark, row m then column n, 4 each."
fn encode_head(state: &State) -> [u8; BLOCK] {
    let mut head = Writer::new(Kind::Head, 0);
    head.put(4, &[state.own.number()]);
    head.put(8, &state.table.0);
    put_rows(&mut head, 16, &state.clock);
    for (place, entry) in state.watermark.iter().flatten().enumerate() {
        head.put(112 + 4 * place, &entry.to_u32().to_le_bytes());
    }
    head.seal()
}

fn read_watermark(bytes: &[u8]) -> Watermark {
    let mut watermark = Watermark::default();
    for (place, entry) in watermark.iter_mut().flatten().enumerate() {
        *entry = Counter::from(u32_at(bytes, 4 * place));
    }
    watermark
}

/// Writes "**Kind 2, dots**: 4-5 count; 8 on, entries of 8: controller, job, point (2), counter (4), ascending by
/// controller and counter."
fn encode_dots(position: usize, dots: &BTreeMap<Dot, Point>) -> [u8; BLOCK] {
    let mut block = Writer::new(Kind::Dots, position);
    block.put(4, &(dots.len() as u16).to_le_bytes());
    for (number, (dot, point)) in dots.iter().enumerate() {
        let at = 8 + EIGHT * number;
        block.put(at, &[dot.controller.number(), point.job.number()]);
        block.put(at + 2, &point.number.number().to_le_bytes());
        block.put(at + 4, &dot.counter.to_u32().to_le_bytes());
    }
    block.seal()
}

fn read_dots(block: &[u8]) -> Option<BTreeMap<Dot, Point>> {
    let count = usize::from(u16_at(block, 4));
    if count > MOST_LISTED {
        return None;
    }
    let entries = block[8..].chunks_exact(8).take(count);
    entries
        .map(|entry| Some((Dot::new(entry[0], u32_at(entry, 4))?, Point::new(entry[1], u16_at(entry, 2))?)))
        .collect()
}
