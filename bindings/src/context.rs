//! Dots, and the contexts that cover them.

use crate::CONTEXT;
use core::fmt;

/// The name of one write or deletion: the controller that made it, 1..8, and that controller's counter, 1..4,294,967,295.
///
/// Dots are ordered by controller and counter, as everywhere in document 01, and print as `1.2`:
///
/// ```
/// use sqimrutta::Dot;
///
/// let dot = Dot { controller: 1, counter: 2 };
/// assert_eq!(dot.to_string(), "1.2");
/// assert!(dot < Dot { controller: 2, counter: 1 });
/// ```
#[derive(Clone, Copy, PartialEq, Eq, PartialOrd, Ord, Hash, Debug)]
pub struct Dot {
    /// Whose write it is.
    pub controller: u8,
    /// Which of that controller's writes.
    pub counter: u32,
}

impl fmt::Display for Dot {
    fn fmt(&self, f: &mut fmt::Formatter<'_>) -> fmt::Result {
        write!(f, "{}.{}", self.controller, self.counter)
    }
}

/// What somebody has seen of a point: a counter for each of the eight controllers, 0 for none.
///
/// A write or deletion is given the context of the reading that the user looked at when he decided. Take it from there
/// ([`Reading::context`](crate::Reading::context)), or [`Context::EMPTY`] where he has read nothing.
#[derive(Clone, Copy, PartialEq, Eq, Hash, Debug, Default)]
pub struct Context([u32; CONTEXT]);

impl Context {
    /// Nothing was seen: it covers no version.
    ///
    /// ```
    /// use sqimrutta::Context;
    ///
    /// assert_eq!(Context::EMPTY.counters(), &[0; 8]);
    /// ```
    pub const EMPTY: Context = Context([0; CONTEXT]);

    /// The context of these counters, the first for controller 1.
    ///
    /// ```
    /// use sqimrutta::Context;
    ///
    /// let context = Context::new([0, 5, 0, 0, 0, 0, 0, 0]);
    /// assert_eq!(context.counter(2), 5);
    /// ```
    pub const fn new(counters: [u32; CONTEXT]) -> Context {
        Context(counters)
    }

    /// The eight counters, the first for controller 1: what [`raw::write`](crate::raw::write) takes.
    ///
    /// ```
    /// use sqimrutta::Context;
    ///
    /// assert_eq!(Context::new([1, 2, 3, 4, 5, 6, 7, 8]).counters(), &[1, 2, 3, 4, 5, 6, 7, 8]);
    /// ```
    pub const fn counters(&self) -> &[u32; CONTEXT] {
        &self.0
    }

    /// The counter of this controller; 0 for a number that is no controller's.
    ///
    /// ```
    /// use sqimrutta::Context;
    ///
    /// let context = Context::new([9, 0, 0, 0, 0, 0, 0, 7]);
    /// assert_eq!(context.counter(1), 9);
    /// assert_eq!(context.counter(8), 7);
    /// assert_eq!(context.counter(0), 0);
    /// assert_eq!(context.counter(9), 0);
    /// ```
    pub fn counter(&self, controller: u8) -> u32 {
        let place = usize::from(controller).checked_sub(1);
        place.and_then(|place| self.0.get(place)).copied().unwrap_or(0)
    }

    /// Whether this dot's counter is at most the entry for its controller. A write with this context replaces the versions whose dots it covers.
    /// Counters begin at 1: a counter of 0 names no write, and is not covered.
    ///
    /// ```
    /// use sqimrutta::{Context, Dot};
    ///
    /// let context = Context::new([2, 0, 0, 0, 0, 0, 0, 0]);
    /// assert!(context.covers(Dot { controller: 1, counter: 2 }));
    /// assert!(!context.covers(Dot { controller: 1, counter: 3 }));
    /// assert!(!context.covers(Dot { controller: 2, counter: 1 }));
    /// ```
    pub fn covers(&self, dot: Dot) -> bool {
        1 <= dot.counter && dot.counter <= self.counter(dot.controller)
    }
}

impl From<[u32; CONTEXT]> for Context {
    fn from(counters: [u32; CONTEXT]) -> Context {
        Context(counters)
    }
}

#[cfg(test)]
mod tests {
    use super::*;

    #[test]
    fn numbers_that_are_no_controllers_have_no_counter() {
        let context = Context::new([u32::MAX; CONTEXT]);
        for controller in 0..=u8::MAX {
            let is_one = (1..=8).contains(&controller);
            assert_eq!(context.counter(controller), if is_one { u32::MAX } else { 0 });
            assert_eq!(context.covers(Dot { controller, counter: u32::MAX }), is_one);
            assert!(!context.covers(Dot { controller, counter: 0 }));
        }
    }
}
