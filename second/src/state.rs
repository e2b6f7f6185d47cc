//! Everything that a controller remembers, and what makes an image of it good.

use crate::clock::Clock;
use crate::names::{Controller, Counter, Dot, Point, EIGHT};
use crate::object::Object;
use crate::table::Table;
use std::collections::BTreeMap;

/// "at most 8 versions of a point".
pub const MOST_VERSIONS: usize = 8;
/// "64 stored points".
pub const MOST_POINTS: usize = 64;
/// "60 own and 60 foreign listed dots".
pub const MOST_LISTED: usize = 60;

/// For controllers m and n, the highest base of n's row that m is known to have.
pub type Watermark = [[Counter; EIGHT]; EIGHT];

/// "What a controller remembers".
#[derive(Clone, PartialEq, Eq, Debug, Hash)]
pub struct State {
    /// Our own number.
    pub own: Controller,
    /// The crew table.
    pub table: Table,
    /// The clock.
    pub clock: Clock,
    /// The watermark: row m, then column n.
    pub watermark: Watermark,
    /// The own listed dots, each with its point.
    pub own_dots: BTreeMap<Dot, Point>,
    /// The foreign listed dots, each with its point.
    pub foreign_dots: BTreeMap<Dot, Point>,
    /// The stored points.
    pub points: BTreeMap<Point, Object>,
}

impl State {
    /// A controller that has seen nothing.
    pub fn fresh(own: Controller, table: Table) -> State {
        State {
            own,
            table,
            clock: Clock::default(),
            watermark: Watermark::default(),
            own_dots: BTreeMap::new(),
            foreign_dots: BTreeMap::new(),
            points: BTreeMap::new(),
        }
    }

    /// Our own base: the counter of our latest write.
    pub fn own_base(&self) -> Counter {
        self.clock.row(self.own).base()
    }

    /// The stored object of a point, or the empty one where there is no record.
    pub fn stored(&self, point: Point) -> Object {
        self.points.get(&point).cloned().unwrap_or_default()
    }

    /// The local object, filled with our clock.
    pub fn filled(&self, point: Point) -> Object {
        self.stored(point).filled(point.job, &self.table, &self.clock)
    }

    /// All listed dots, own and foreign, each with its point.
    pub fn listed(&self) -> impl Iterator<Item = (Dot, Point)> + '_ {
        self.own_dots.iter().chain(&self.foreign_dots).map(|(dot, point)| (*dot, *point))
    }

    /// The point that a dot is listed for.
    pub fn listed_for(&self, dot: Dot) -> Option<Point> {
        self.own_dots.get(&dot).or_else(|| self.foreign_dots.get(&dot)).copied()
    }

    /// Whether another controller is a peer of ours (we are one, too).
    pub fn is_peer(&self, other: Controller) -> bool {
        self.table.peers(self.own, other)
    }

    /// Whether an image of this state is good, as far as the form of its blocks does not already say so.
    pub fn is_good(&self) -> bool {
        self.rows_are_good() && self.watermark_is_good() && self.lists_are_good() && self.records_are_good()
    }

    /// "The own row has no bits set." "clock rows of non-peers are zero".
    fn rows_are_good(&self) -> bool {
        let non_peers_are_zero =
            Controller::all().all(|n| self.is_peer(n) || self.clock.row(n).highest() == Counter::NONE);
        non_peers_are_zero && !self.clock.row(self.own).has_gap()
    }

    /// "the watermark is zero for non-peers and no higher than our own rows in our row, no own entry anywhere is
    /// above the own base".
    fn watermark_is_good(&self) -> bool {
        Controller::all().all(|m| {
            Controller::all().all(|n| {
                let entry = self.watermark[m.index()][n.index()];
                let of_peers = self.is_peer(m) && self.is_peer(n);
                (of_peers || entry == Counter::NONE)
                    && (m != self.own || entry <= self.clock.row(n).base())
                    && (n != self.own || entry <= self.own_base())
            })
        })
    }

    /// "every ... listed dot is of a held job, dots ... name holders of the job", "listed dots are in the clock"; the
    /// own list holds own dots only and the foreign list none. That an own dot is not above the own base follows: it
    /// is in the clock, and the own row has no bits.
    fn lists_are_good(&self) -> bool {
        let own_list = self.own_dots.keys().all(|dot| dot.controller == self.own);
        let foreign_list = self.foreign_dots.keys().all(|dot| dot.controller != self.own);
        let each = self.listed().all(|(dot, point)| {
            self.table.holds(self.own, point.job)
                && self.table.holds(dot.controller, point.job)
                && self.clock.contains(dot)
        });
        own_list && foreign_list && each
    }

    /// "every stored point ... is of a held job, dots and context entries name holders of the job, versions are
    /// covered by the filled context and in the clock", "no dot stands in two records or is listed for another point
    /// than the record that holds it", "no own entry anywhere is above the own base, and no record with an empty
    /// context lacks a value".
    fn records_are_good(&self) -> bool {
        let mut home = BTreeMap::new();
        self.points.iter().all(|(&point, object)| {
            let holds = |n: Controller| self.table.holds(n, point.job);
            let dot_is_good = |dot: Dot, home: &mut BTreeMap<Dot, Point>| {
                holds(dot.controller)
                    && self.clock.contains(dot)
                    && home.insert(dot, point).is_none()
                    && self.listed_for(dot).is_none_or(|listed| listed == point)
            };
            holds(self.own)
                && Controller::all().all(|n| holds(n) || object.context.entry(n) == Counter::NONE)
                && object.context.entry(self.own) <= self.own_base()
                && object.versions.keys().all(|&dot| dot_is_good(dot, &mut home))
                && object.clone().filled(point.job, &self.table, &self.clock).covers_its_versions()
                && (!object.context.is_empty() || object.has_value())
        })
    }
}
