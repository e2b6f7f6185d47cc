//! The messages between controllers: kinds 4, 5 and the reply. Reading one runs the checks of refusals 3 and 4.
//!
//! As with the image, the form of a block is judged by writing it anew from what was read and comparing.

use crate::block::{check_is_right, u16_at, Kind, Writer, BLOCK};
use crate::clock::Clock;
use crate::image::{put_rows, read_rows};
use crate::names::{Controller, Counter, Dot, Point};
use crate::object::Object;
use crate::point_block;
use crate::refusal::{demand, Refusal};
use crate::table::Table;
use std::collections::{BTreeMap, BTreeSet};

/// Kind 4: a point as its writer had it, filled, right after the write or deletion.
#[derive(Clone, PartialEq, Eq, Debug, Hash)]
pub struct Outgoing {
    /// The writer.
    pub sender: Controller,
    /// The point.
    pub point: Point,
    /// Its object, filled.
    pub object: Object,
}

impl Outgoing {
    /// The block.
    pub fn encode(&self) -> [u8; BLOCK] {
        point_block::encode(Kind::Outgoing, 0, self.point, &self.object, self.sender.number())
    }

    /// Reads the block: refusals 3 and 4. "Holder" goes by our own table.
    pub fn decode(block: &[u8], table: &Table) -> Result<Outgoing, Refusal> {
        demand(check_is_right(block), Refusal::WrongCheck)?;
        let read = || {
            let (point, object, sender) = point_block::decode(block)?;
            let message = Outgoing { sender: Controller::new(sender)?, point, object };
            let well_formed = message.encode() == block
                && names_holders_only(message.point, &message.object, table)
                && message.object.covers_its_versions();
            well_formed.then_some(message)
        };
        read().ok_or(Refusal::IllFormed)
    }
}

/// "**Kind 5, ask; 6, reply head**: 4 sender; 5 addressee; 6-7 number of points (0 in kind 5); 8-103 clock rows."
#[derive(Clone, PartialEq, Eq, Debug, Hash)]
pub struct Letter {
    /// The sender.
    pub sender: Controller,
    /// The addressee.
    pub addressee: Controller,
    /// The sender's clock.
    pub clock: Clock,
}

impl Letter {
    /// The block of an ask.
    pub fn encode_ask(&self) -> [u8; BLOCK] {
        self.encode(Kind::Ask, 0)
    }

    fn encode(&self, kind: Kind, points: usize) -> [u8; BLOCK] {
        let mut block = Writer::new(kind, 0);
        block.put(4, &[self.sender.number(), self.addressee.number()]);
        block.put(6, &(points as u16).to_le_bytes());
        put_rows(&mut block, 8, &self.clock);
        block.seal()
    }

    /// Reads an ask: refusals 3 and 4.
    pub fn decode_ask(block: &[u8], table: &Table) -> Result<Letter, Refusal> {
        demand(check_is_right(block), Refusal::WrongCheck)?;
        Letter::decode(block, Kind::Ask, 0, table).ok_or(Refusal::IllFormed)
    }

    fn decode(block: &[u8], kind: Kind, points: usize, table: &Table) -> Option<Letter> {
        let letter = Letter {
            sender: Controller::new(block[4])?,
            addressee: Controller::new(block[5])?,
            clock: read_rows(&block[8..104])?,
        };
        let crew_rows_only =
            Controller::all().all(|n| table.in_some_job(n) || letter.clock.row(n).highest() == Counter::NONE);
        let well_formed =
            crew_rows_only && !letter.clock.row(letter.sender).has_gap() && letter.encode(kind, points) == block;
        well_formed.then_some(letter)
    }
}

/// "A reply is its head, then kind 3 blocks ascending by job and point, none twice."
#[derive(Clone, PartialEq, Eq, Debug, Hash)]
pub struct Reply {
    /// Sender, addressee and the sender's clock.
    pub head: Letter,
    /// The points, as the sender has them stored.
    pub points: BTreeMap<Point, Object>,
}

impl Reply {
    /// The blocks.
    pub fn encode(&self) -> Vec<u8> {
        let mut blocks = self.head.encode(Kind::ReplyHead, self.points.len()).to_vec();
        for (number, (point, object)) in self.points.iter().enumerate() {
            blocks.extend_from_slice(&point_block::encode(Kind::Stored, 1 + number, *point, object, 0));
        }
        blocks
    }

    /// Reads the blocks, of which there must be one at least: refusals 3 (of any block, before anything of 4) and 4.
    pub fn decode(bytes: &[u8], table: &Table) -> Result<Reply, Refusal> {
        let blocks: Vec<&[u8]> = bytes.chunks_exact(BLOCK).collect();
        demand(blocks.iter().all(|block| check_is_right(block)), Refusal::WrongCheck)?;
        Reply::decode_well_formed(&blocks, table).ok_or(Refusal::IllFormed)
    }

    fn decode_well_formed(blocks: &[&[u8]], table: &Table) -> Option<Reply> {
        let following = blocks.len() - 1;
        if usize::from(u16_at(blocks[0], 6)) != following {
            return None;
        }
        let head = Letter::decode(blocks[0], Kind::ReplyHead, following, table)?;
        let mut points = BTreeMap::new();
        let mut dots: BTreeSet<Dot> = BTreeSet::new();
        for (place, block) in blocks.iter().enumerate().skip(1) {
            let (point, object, _) = point_block::decode(block)?;
            let ascends = points.last_key_value().is_none_or(|(last, _)| *last < point);
            let well_formed = ascends
                && point_block::encode(Kind::Stored, place, point, &object, 0) == *block
                && names_holders_only(point, &object, table)
                && object.versions.keys().all(|dot| dots.insert(*dot))
                && object.clone().filled(point.job, table, &head.clock).covers_its_versions();
            if !well_formed {
                return None;
            }
            points.insert(point, object);
        }
        Some(Reply { head, points })
    }
}

/// Refusal 4: "a non-holder named in a dot or context".
fn names_holders_only(point: Point, object: &Object, table: &Table) -> bool {
    let holds = |n: Controller| table.holds(n, point.job);
    object.versions.keys().all(|dot| holds(dot.controller))
        && Controller::all().all(|n| holds(n) || object.context.entry(n) == Counter::NONE)
}
