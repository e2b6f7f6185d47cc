//! Contexts: one counter per controller, 0 for none.

use crate::clock::Clock;
use crate::names::{Controller, Counter, Dot, Job, EIGHT};
use crate::table::Table;

/// "a context, one counter per controller, 0 for none".
#[derive(Clone, Copy, PartialEq, Eq, Debug, Default, Hash)]
pub struct Context(pub [Counter; EIGHT]);

impl Context {
    /// The context of eight plain counters.
    pub fn from_counters(counters: [u32; EIGHT]) -> Context {
        Context(counters.map(Counter::from))
    }

    /// A controller's entry.
    pub fn entry(&self, controller: Controller) -> Counter {
        self.0[controller.index()]
    }

    /// "A context covers dot (n,c) when c is at most its entry for n."
    pub fn covers(&self, dot: Dot) -> bool {
        dot.counter <= self.entry(dot.controller)
    }

    /// Whether all eight entries are 0.
    pub fn is_empty(&self) -> bool {
        *self == Context::default()
    }

    /// Whether any entry is above the other's.
    pub fn is_above(&self, other: &Context) -> bool {
        Controller::all().any(|n| self.entry(n) > other.entry(n))
    }

    /// Raises one entry, never lowers it.
    pub fn raise(&mut self, controller: Controller, counter: Counter) {
        let entry = &mut self.0[controller.index()];
        *entry = counter.max(*entry);
    }

    /// "*Fill* raises each context entry n, for n holding the point's job, to the base of row n."
    pub fn fill(&mut self, job: Job, table: &Table, clock: &Clock) {
        for n in Controller::all().filter(|&n| table.holds(n, job)) {
            self.raise(n, clock.row(n).base());
        }
    }

    /// "*Strip* sets to 0 each entry not above its base."
    pub fn strip(&mut self, clock: &Clock) {
        for n in Controller::all() {
            if self.entry(n) <= clock.row(n).base() {
                self.0[n.index()] = Counter::NONE;
            }
        }
    }

    /// "takes the higher context entries".
    pub fn higher(&self, other: &Context) -> Context {
        let mut both = *self;
        for n in Controller::all() {
            both.raise(n, other.entry(n));
        }
        both
    }
}
