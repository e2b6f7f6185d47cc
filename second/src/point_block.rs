//! Kinds 3, 4 and 7: a point with its context and versions.

use crate::block::{u16_at, u32_at, Kind, Writer, BLOCK};
use crate::context::Context;
use crate::names::{Counter, Dot, Point, EIGHT};
use crate::object::{Content, Object, Value, LONGEST_VALUE};
use crate::state::MOST_VERSIONS;

/// Where the context stands.
const CONTEXT_AT: usize = 8;
/// Where the versions start, and how long one is.
const VERSIONS_AT: usize = 40;
const VERSION: usize = 32;
/// Where the sender stands.
const SENDER_AT: usize = 296;
/// "length (255 = deleted)".
const DELETED: u8 = 255;

/// Writes a point's block. The sender is 0 in kind 3.
pub fn encode(kind: Kind, position: usize, point: Point, object: &Object, sender: u8) -> [u8; BLOCK] {
    let mut block = Writer::new(kind, position);
    block.put(4, &[point.job.number(), object.versions.len() as u8]);
    block.put(6, &point.number.number().to_le_bytes());
    for (n, entry) in object.context.0.iter().enumerate() {
        block.put(CONTEXT_AT + 4 * n, &entry.to_u32().to_le_bytes());
    }
    for (slot, (dot, content)) in object.versions.iter().enumerate() {
        let at = VERSIONS_AT + VERSION * slot;
        let (length, value) = match content {
            Content::Value(value) => (value.bytes().len() as u8, value.bytes()),
            Content::Deleted => (DELETED, &[][..]),
        };
        block.put(at, &[dot.controller.number(), length]);
        block.put(at + 4, &dot.counter.to_u32().to_le_bytes());
        block.put(at + 8, value);
    }
    block.put(SENDER_AT, &[sender]);
    block.seal()
}

/// Reads the fields of a point's block and its sender byte; none where a field is outside its range. Kind, format,
/// position, order, zero bytes and check are not looked at here: the caller writes the block anew from what was read
/// and compares.
pub fn decode(block: &[u8]) -> Option<(Point, Object, u8)> {
    let point = Point::new(block[4], u16_at(block, 6))?;
    let count = usize::from(block[5]);
    if count > MOST_VERSIONS {
        return None;
    }
    let mut object = Object { context: context_at(block), ..Object::default() };
    for slot in 0..count {
        let version = &block[VERSIONS_AT + VERSION * slot..][..VERSION];
        let dot = Dot::new(version[0], u32_at(version, 4))?;
        let content = match version[1] {
            DELETED => Content::Deleted,
            length if usize::from(length) <= LONGEST_VALUE => {
                Content::Value(Value::new(&version[8..8 + usize::from(length)])?)
            }
            _ => return None,
        };
        object.versions.insert(dot, content);
    }
    Some((point, object, block[SENDER_AT]))
}

/// The context of a point's block.
fn context_at(block: &[u8]) -> Context {
    let mut context = [Counter::NONE; EIGHT];
    for (n, entry) in context.iter_mut().enumerate() {
        *entry = Counter::from(u32_at(block, CONTEXT_AT + 4 * n));
    }
    Context(context)
}
