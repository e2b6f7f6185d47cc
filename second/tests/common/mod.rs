//! What several test files use: a controller with its image, and shorthand for its calls.
#![allow(dead_code)]

use second::calls;
use second::image::{self, IMAGE};
use second::messages::{Letter, Outgoing, Reply};
use second::names::{Controller, Counter, Dot, Job, Point, PointNumber};
use second::object::{Content, Object, Value};
use second::refusal::Refusal;
use second::state::State;
use second::steps::LONGEST_REPLY;

/// The examples' table: job 0 held by 1 and 2.
pub const TABLE: [u8; 8] = [3, 0, 0, 0, 0, 0, 0, 0];
/// No context at all.
pub const EMPTY: [u32; 8] = [0; 8];

/// A context with one entry.
pub fn entry(controller: u8, counter: u32) -> [u32; 8] {
    let mut context = EMPTY;
    context[usize::from(controller) - 1] = counter;
    context
}

pub fn controller(number: u8) -> Controller {
    Controller::new(number).unwrap()
}

pub fn dot(number: u8, counter: u32) -> Dot {
    Dot::new(number, counter).unwrap()
}

pub fn point(job: u8, number: u16) -> Point {
    Point { job: Job::new(job).unwrap(), number: PointNumber::new(number).unwrap() }
}

pub fn value(bytes: &[u8]) -> Content {
    Content::Value(Value::new(bytes).unwrap())
}

/// An object from versions and context entries.
pub fn object(versions: &[(u8, u32, Content)], context: [u32; 8]) -> Object {
    Object {
        versions: versions.iter().map(|(n, c, content)| (dot(*n, *c), *content)).collect(),
        context: second::context::Context::from_counters(context),
    }
}

/// What one reading shows: the dots with their values, and the context.
#[derive(Debug, PartialEq, Eq)]
pub struct Reading {
    pub shown: Vec<((u8, u32), Vec<u8>)>,
    pub context: [u32; 8],
    pub block: Vec<u8>,
}

impl Reading {
    pub fn dots(&self) -> Vec<(u8, u32)> {
        self.shown.iter().map(|(dot, _)| *dot).collect()
    }
}

/// A controller: its image.
#[derive(Clone)]
pub struct Handheld {
    pub image: Vec<u8>,
}

impl Handheld {
    pub fn fresh(number: u8, table: &[u8; 8]) -> Handheld {
        let mut image = vec![0xa5; IMAGE];
        calls::start(&mut image, number, table).unwrap();
        Handheld { image }
    }

    pub fn of(state: &State) -> Handheld {
        let image = image::encode(state);
        assert!(image::decode(&image).is_some(), "a test built an image that is not good");
        Handheld { image }
    }

    pub fn state(&self) -> State {
        image::decode(&self.image).expect("image not good")
    }

    pub fn write(&mut self, job: u8, point: u16, value: &[u8], context: [u32; 8]) -> Result<Vec<u8>, Refusal> {
        let mut out = vec![0xee; 512];
        calls::write(&mut self.image, job, point, value, &context, &mut out).map(|()| out)
    }

    pub fn delete(&mut self, job: u8, point: u16, context: [u32; 8]) -> Result<Vec<u8>, Refusal> {
        let mut out = vec![0xee; 512];
        calls::delete(&mut self.image, job, point, &context, &mut out).map(|()| out)
    }

    pub fn take_in(&mut self, message: &[u8]) -> Result<(), Refusal> {
        calls::take_in(&mut self.image, message)
    }

    pub fn ask(&self, to: u8) -> Result<Vec<u8>, Refusal> {
        let mut out = vec![0xee; 512];
        calls::ask(&self.image, to, &mut out).map(|()| out)
    }

    /// The reply, cut to its blocks.
    pub fn reply(&self, ask: &[u8]) -> Result<Vec<u8>, Refusal> {
        let mut out = vec![0xee; LONGEST_REPLY];
        let count = calls::reply(&self.image, ask, &mut out)?;
        out.truncate((1 + count as usize) * 512);
        Ok(out)
    }

    pub fn repair(&mut self, reply: &[u8]) -> Result<(), Refusal> {
        calls::repair(&mut self.image, reply)
    }

    pub fn strip_pass(&mut self) -> u32 {
        calls::strip_pass(&mut self.image).unwrap()
    }

    /// The reading, taken from the bytes of the block as document 01 lays them out.
    pub fn read(&self, job: u8, point: u16) -> Reading {
        let mut out = vec![0xee; 512];
        calls::read(&self.image, job, point, &mut out).unwrap();
        let number = |at: usize| u32::from_le_bytes(out[at..at + 4].try_into().unwrap());
        let shown = (0..usize::from(out[5])).map(|slot| {
            let at = 40 + 32 * slot;
            ((out[at], number(at + 4)), out[at + 8..at + 8 + usize::from(out[at + 1])].to_vec())
        });
        Reading { shown: shown.collect(), context: std::array::from_fn(|n| number(8 + 4 * n)), block: out.clone() }
    }

    /// Base and bits of a clock row, taken from the bytes of the head.
    pub fn row(&self, number: u8) -> (u32, u64) {
        let at = 16 + 12 * (usize::from(number) - 1);
        let base = u32::from_le_bytes(self.image[at..at + 4].try_into().unwrap());
        (base, u64::from_le_bytes(self.image[at + 4..at + 12].try_into().unwrap()))
    }
}

/// A kind 4 block.
pub fn outgoing(sender: u8, at: Point, object: Object) -> Vec<u8> {
    Outgoing { sender: controller(sender), point: at, object }.encode().to_vec()
}

/// A letter, with rows given as (controller, base, bits).
pub fn letter(sender: u8, addressee: u8, rows: &[(u8, u32, u64)]) -> Letter {
    let mut clock = second::clock::Clock::default();
    for (n, base, bits) in rows {
        clock.0[usize::from(*n) - 1] = second::row::Row::from_bits(Counter::from(*base), *bits);
    }
    Letter { sender: controller(sender), addressee: controller(addressee), clock }
}

/// The blocks of a reply.
pub fn reply(head: Letter, points: &[(Point, Object)]) -> Vec<u8> {
    Reply { head, points: points.iter().cloned().collect() }.encode()
}
