//! The clock: a row per controller.

use crate::names::{Controller, Dot, EIGHT};
use crate::row::Row;

/// "**Clock**: a row per controller".
#[derive(Clone, PartialEq, Eq, Debug, Default, Hash)]
pub struct Clock(pub [Row; EIGHT]);

impl Clock {
    /// A controller's row.
    pub fn row(&self, controller: Controller) -> &Row {
        &self.0[controller.index()]
    }

    /// Whether the dot has been seen.
    pub fn contains(&self, dot: Dot) -> bool {
        self.row(dot.controller).contains(dot.counter)
    }

    /// Enters a dot.
    pub fn add(&mut self, dot: Dot) {
        let row = &mut self.0[dot.controller.index()];
        *row = std::mem::take(row).adding(dot.counter);
    }

    /// Unites one row with another controller's view of it.
    pub fn unite(&mut self, controller: Controller, other: &Row) {
        let row = &mut self.0[controller.index()];
        *row = std::mem::take(row).unite(other);
    }

    /// Whether 64 bits are enough for every row.
    pub fn fits(&self) -> bool {
        self.0.iter().all(Row::fits)
    }
}
