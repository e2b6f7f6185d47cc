//! Controllers, counters, jobs and points, each a type of its own ("Controller numbers, counters and point
//! numbers are kept apart").

/// The number of controllers, of jobs and of context entries.
pub const EIGHT: usize = 8;

/// A controller's number, 1..8.
#[derive(Clone, Copy, PartialEq, Eq, PartialOrd, Ord, Debug, Hash)]
pub struct Controller(u8);

impl Controller {
    /// The controller of that number, if there is one.
    pub fn new(number: u8) -> Option<Controller> {
        (1..=EIGHT as u8).contains(&number).then_some(Controller(number))
    }

    /// Its number, 1..8.
    pub fn number(self) -> u8 {
        self.0
    }

    /// Its place in rows and contexts, 0..7.
    pub fn index(self) -> usize {
        usize::from(self.0) - 1
    }

    /// All eight, ascending.
    pub fn all() -> impl Iterator<Item = Controller> {
        (1..=EIGHT as u8).map(Controller)
    }
}

/// A counter. It is kept wider than the four bytes of the blocks, because "11 to 13 are judged on the step's result
/// with no limit applied": a write at the last counter still has a result, with a counter that no block can hold.
#[derive(Clone, Copy, PartialEq, Eq, PartialOrd, Ord, Debug, Hash, Default)]
pub struct Counter(pub u64);

impl Counter {
    /// No counter at all: a context entry or base of 0.
    pub const NONE: Counter = Counter(0);
    /// "counters 1..4,294,967,295".
    pub const LAST: Counter = Counter(4_294_967_295);

    /// The counter after this one.
    pub fn next(self) -> Counter {
        Counter(self.0 + 1)
    }

    /// The four bytes' value. Only counters within the limit reach a block.
    pub fn to_u32(self) -> u32 {
        u32::try_from(self.0).expect("a counter above the last one reached a block")
    }
}

impl From<u32> for Counter {
    fn from(counter: u32) -> Counter {
        Counter(u64::from(counter))
    }
}

/// A job's number, 0..7.
#[derive(Clone, Copy, PartialEq, Eq, PartialOrd, Ord, Debug, Hash)]
pub struct Job(u8);

impl Job {
    /// The job of that number, if there is one.
    pub fn new(number: u8) -> Option<Job> {
        (usize::from(number) < EIGHT).then_some(Job(number))
    }

    /// Its number, 0..7.
    pub fn number(self) -> u8 {
        self.0
    }

    /// All eight, ascending.
    pub fn all() -> impl Iterator<Item = Job> {
        (0..EIGHT as u8).map(Job)
    }
}

/// A point's number within its job, 1..65535.
#[derive(Clone, Copy, PartialEq, Eq, PartialOrd, Ord, Debug, Hash)]
pub struct PointNumber(u16);

impl PointNumber {
    /// The point number, if it is one (0 is none).
    pub fn new(number: u16) -> Option<PointNumber> {
        (number != 0).then_some(PointNumber(number))
    }

    /// The number, 1..65535.
    pub fn number(self) -> u16 {
        self.0
    }
}

/// A point: its job and its number there. Ordered "by job and point".
#[derive(Clone, Copy, PartialEq, Eq, PartialOrd, Ord, Debug, Hash)]
pub struct Point {
    /// The job.
    pub job: Job,
    /// The number within the job.
    pub number: PointNumber,
}

impl Point {
    /// The point, if both numbers are in their ranges.
    pub fn new(job: u8, number: u16) -> Option<Point> {
        Some(Point { job: Job::new(job)?, number: PointNumber::new(number)? })
    }
}

/// "A *dot* is a controller number and a counter." Ordered by controller, then counter.
#[derive(Clone, Copy, PartialEq, Eq, PartialOrd, Ord, Debug, Hash)]
pub struct Dot {
    /// Who wrote.
    pub controller: Controller,
    /// The how-manieth of its writes.
    pub counter: Counter,
}

impl Dot {
    /// The dot, if the controller is one and the counter is at least 1.
    pub fn new(controller: u8, counter: u32) -> Option<Dot> {
        if counter == 0 {
            return None;
        }
        Some(Dot { controller: Controller::new(controller)?, counter: Counter::from(counter) })
    }
}

impl std::fmt::Display for Dot {
    fn fmt(&self, f: &mut std::fmt::Formatter<'_>) -> std::fmt::Result {
        write!(f, "{}.{}", self.controller.number(), self.counter.0)
    }
}

impl std::fmt::Display for Point {
    fn fmt(&self, f: &mut std::fmt::Formatter<'_>) -> std::fmt::Result {
        write!(f, "{}/{}", self.job.number(), self.number.number())
    }
}
