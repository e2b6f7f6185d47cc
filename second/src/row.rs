//! One row of the clock: which counters of one controller have been seen.

use crate::names::Counter;
use std::collections::BTreeSet;

/// How far above its base a row reaches: "64 bits, bit j standing for counter b+1+j".
pub const REACH: u64 = 64;

/// A base (1..base all seen) and the set of seen counters beyond the first gap. The set has no width here: a step
/// first makes the row it would need, and then asks whether that row [`fits`](Row::fits).
#[derive(Clone, PartialEq, Eq, Debug, Default, Hash)]
pub struct Row {
    base: Counter,
    beyond: BTreeSet<Counter>,
}

impl Row {
    /// The row in which exactly 1..base are seen.
    pub fn up_to(base: Counter) -> Row {
        Row { base, beyond: BTreeSet::new() }
    }

    /// The row that a base and 64 bits stand for. Bits that follow the base without a gap move the base, so a row
    /// with bit 0 set does not come back from [`bits`](Row::bits) as it was: that is how the codec notices it.
    pub fn from_bits(base: Counter, bits: u64) -> Row {
        let beyond = (0..REACH).filter(|j| bits >> j & 1 == 1).map(|j| Counter(base.0 + 1 + j)).collect();
        Row { base, beyond }.settled()
    }

    /// 1..base have all been seen, base + 1 has not.
    pub fn base(&self) -> Counter {
        self.base
    }

    /// The seen counters beyond the first gap, ascending.
    pub fn beyond(&self) -> impl Iterator<Item = Counter> + '_ {
        self.beyond.iter().copied()
    }

    /// Whether any bit is set.
    pub fn has_gap(&self) -> bool {
        !self.beyond.is_empty()
    }

    /// The highest counter that the row stands for.
    pub fn highest(&self) -> Counter {
        self.beyond.last().copied().unwrap_or(self.base)
    }

    /// Whether the counter has been seen. 0 is no counter.
    pub fn contains(&self, counter: Counter) -> bool {
        counter != Counter::NONE && (counter <= self.base || self.beyond.contains(&counter))
    }

    /// The row with one counter more.
    pub fn adding(mut self, counter: Counter) -> Row {
        if counter > self.base {
            self.beyond.insert(counter);
            self = self.settled();
        }
        self
    }

    /// The row of what either row has seen.
    pub fn unite(mut self, other: &Row) -> Row {
        self.base = self.base.max(other.base);
        self.beyond.extend(other.beyond());
        self.settled()
    }

    /// Whether every seen counter is within base + 64, so that 64 bits can stand for it.
    pub fn fits(&self) -> bool {
        self.highest().0 <= self.base.0 + REACH
    }

    /// The 64 bits. The row must fit.
    pub fn bits(&self) -> u64 {
        self.beyond().map(|counter| 1 << (counter.0 - self.base.0 - 1)).sum()
    }

    /// Moves the base over every counter that follows it without a gap, and forgets what it passes.
    fn settled(mut self) -> Row {
        while let Some(&lowest) = self.beyond.first() {
            if lowest > self.base.next() {
                break;
            }
            self.base = self.base.max(lowest);
            self.beyond.remove(&lowest);
        }
        self
    }
}

#[cfg(test)]
mod tests {
    use super::*;

    #[test]
    fn the_base_moves_over_the_run_that_follows_it() {
        let row = Row::from_bits(Counter(3), 0b0110).adding(Counter(4));
        assert_eq!((row.base(), row.bits()), (Counter(6), 0));
    }

    #[test]
    fn bit_0_is_never_kept() {
        let row = Row::from_bits(Counter(3), 0b1001);
        assert_eq!((row.base(), row.bits()), (Counter(4), 0b100));
    }

    #[test]
    fn a_seen_counter_changes_nothing() {
        let row = Row::from_bits(Counter(3), 2);
        assert_eq!(row.clone().adding(Counter(3)), row);
        assert_eq!(row.clone().adding(Counter(5)), row);
        assert!(!row.contains(Counter(0)));
        assert!(row.contains(Counter(1)) && row.contains(Counter(3)) && row.contains(Counter(5)));
        assert!(!row.contains(Counter(4)) && !row.contains(Counter(6)));
    }

    #[test]
    fn uniting_takes_both_and_closes_gaps() {
        let ours = Row::from_bits(Counter(2), 0b10100);
        let theirs = Row::from_bits(Counter(4), 0b0100);
        let both = ours.unite(&theirs);
        assert_eq!((both.base(), both.bits()), (Counter(5), 0b10));
    }

    #[test]
    fn the_order_of_adding_does_not_matter() {
        let start = Row::up_to(Counter(3));
        let up = start.clone().adding(Counter(4)).adding(Counter(68));
        let down = start.clone().adding(Counter(68)).adding(Counter(4));
        assert_eq!(up, down);
        assert!(up.fits());
        assert!(!start.adding(Counter(68)).fits());
    }

    #[test]
    fn the_top_of_the_range() {
        let row = Row::up_to(Counter(4_294_967_294)).adding(Counter::LAST);
        assert_eq!(row, Row::up_to(Counter::LAST));
        assert_eq!(row.clone().adding(Counter::LAST.next()).base(), Counter(4_294_967_296));
    }
}
