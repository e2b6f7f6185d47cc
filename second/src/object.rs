//! Objects: the versions of a point and their context.

use crate::clock::Clock;
use crate::context::Context;
use crate::names::{Dot, Job};
use crate::table::Table;
use std::collections::BTreeMap;

/// "values 0..24 bytes".
pub const LONGEST_VALUE: usize = 24;

/// A value: up to 24 bytes.
#[derive(Clone, Copy, PartialEq, Eq, Debug, Hash)]
pub struct Value {
    length: u8,
    bytes: [u8; LONGEST_VALUE],
}

impl Value {
    /// The value of these bytes, unless there are more than 24.
    pub fn new(bytes: &[u8]) -> Option<Value> {
        let mut padded = [0; LONGEST_VALUE];
        padded.get_mut(..bytes.len())?.copy_from_slice(bytes);
        Some(Value { length: bytes.len() as u8, bytes: padded })
    }

    /// The bytes, 0..24 of them.
    pub fn bytes(&self) -> &[u8] {
        &self.bytes[..usize::from(self.length)]
    }
}

/// What a version says: "a value or \"deleted\"".
#[derive(Clone, Copy, PartialEq, Eq, Debug, Hash)]
pub enum Content {
    /// The point has this value.
    Value(Value),
    /// The point was deleted.
    Deleted,
}

/// The versions of a point, by dot, and the context.
#[derive(Clone, PartialEq, Eq, Debug, Default, Hash)]
pub struct Object {
    /// The versions.
    pub versions: BTreeMap<Dot, Content>,
    /// The context.
    pub context: Context,
}

impl Object {
    /// The object, filled with a clock.
    pub fn filled(mut self, job: Job, table: &Table, clock: &Clock) -> Object {
        self.context.fill(job, table, clock);
        self
    }

    /// The object, stripped with a clock.
    pub fn stripped(mut self, clock: &Clock) -> Object {
        self.context.strip(clock);
        self
    }

    /// "*Merge* keeps the versions in both objects and those in one that the other's context does not cover, and
    /// takes the higher context entries." A dot that both hold has the same contents in both: refusal 10 saw to it.
    pub fn merged(&self, other: &Object) -> Object {
        let kept = |one: &Object, against: &Object| -> Vec<(Dot, Content)> {
            let stays = |dot: &Dot| against.versions.contains_key(dot) || !against.context.covers(*dot);
            one.versions.iter().filter(|(dot, _)| stays(dot)).map(|(dot, content)| (*dot, *content)).collect()
        };
        let versions = kept(self, other).into_iter().chain(kept(other, self)).collect();
        Object { versions, context: self.context.higher(&other.context) }
    }

    /// Whether any version has a value.
    pub fn has_value(&self) -> bool {
        self.versions.values().any(|content| matches!(content, Content::Value(_)))
    }

    /// Whether the context covers every version.
    pub fn covers_its_versions(&self) -> bool {
        self.versions.keys().all(|dot| self.context.covers(*dot))
    }
}
