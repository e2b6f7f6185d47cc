//! One call with its lent buffers, as a thing that can be made up, recorded and replayed.

use crate::refusal::Refusal;
use crate::store::Store;

/// The nine calls. The numbers are those of the recorded streams.
#[derive(Clone, Copy, PartialEq, Eq, PartialOrd, Ord, Debug)]
#[repr(u8)]
pub enum Op {
    /// start
    Start = 1,
    /// read
    Read = 2,
    /// write
    Write = 3,
    /// delete
    Delete = 4,
    /// take_in
    TakeIn = 5,
    /// ask
    Ask = 6,
    /// reply
    Reply = 7,
    /// repair
    Repair = 8,
    /// strip_pass
    StripPass = 9,
}

impl Op {
    /// All of them, by number.
    pub const ALL: [Op; 9] =
        [Op::Start, Op::Read, Op::Write, Op::Delete, Op::TakeIn, Op::Ask, Op::Reply, Op::Repair, Op::StripPass];

    /// The call of that number.
    pub fn numbered(number: u8) -> Option<Op> {
        Op::ALL.into_iter().find(|op| *op as u8 == number)
    }

    /// Its name.
    pub fn name(self) -> &'static str {
        ["start", "read", "write", "delete", "take_in", "ask", "reply", "repair", "strip_pass"][self as usize - 1]
    }

    /// Whether it lends a first input: table, value, message, ask or reply.
    pub fn has_input(self) -> bool {
        matches!(self, Op::Start | Op::Write | Op::TakeIn | Op::Reply | Op::Repair)
    }

    /// Whether it lends a context.
    pub fn has_context(self) -> bool {
        matches!(self, Op::Write | Op::Delete)
    }

    /// Whether it lends a buffer to write a message or reading to.
    pub fn has_out(self) -> bool {
        matches!(self, Op::Read | Op::Write | Op::Delete | Op::Ask | Op::Reply)
    }

    /// The refusals that the call can give, in order, after the project's settled readings.
    pub fn refusals(self) -> &'static [Refusal] {
        use Refusal::*;
        match self {
            Op::Start => &[WrongLength, OutOfRange],
            Op::Read => &[WrongLength, ImageNotGood, OutOfRange],
            Op::Write => &[
                WrongLength,
                ImageNotGood,
                OutOfRange,
                ValueTooLong,
                ContextAhead,
                TooManyVersions,
                TooManyPoints,
                OwnListFull,
                CountersUsedUp,
            ],
            Op::Delete => {
                &[WrongLength, ImageNotGood, OutOfRange, ContextAhead, TooManyVersions, OwnListFull, CountersUsedUp]
            }
            Op::TakeIn | Op::Repair => &[
                WrongLength,
                ImageNotGood,
                WrongCheck,
                IllFormed,
                OutOfRange,
                NotAnotherPeer,
                HistoryLost,
                DotClash,
                RowTooWide,
                TooManyVersions,
                TooManyPoints,
            ],
            Op::Ask => &[WrongLength, ImageNotGood, OutOfRange, NotAnotherPeer],
            Op::Reply => &[WrongLength, ImageNotGood, WrongCheck, IllFormed, NotAnotherPeer, HistoryLost],
            Op::StripPass => &[WrongLength, ImageNotGood],
        }
    }
}

/// A call with everything lent to it. What a call does not lend is empty.
#[derive(Clone, PartialEq, Eq, Debug)]
pub struct Call {
    /// Which of the nine.
    pub op: Op,
    /// start: the number; read, write, delete: the job; ask: whom.
    pub number: u8,
    /// read, write, delete: the point.
    pub point: u16,
    /// The image.
    pub image: Vec<u8>,
    /// The table, value, message, ask or reply.
    pub input: Vec<u8>,
    /// The context.
    pub context: Vec<u32>,
    /// The buffer to write to.
    pub out: Vec<u8>,
}

impl Call {
    /// A call with an image and nothing else yet.
    pub fn on(op: Op, image: Vec<u8>) -> Call {
        Call { op, number: 0, point: 0, image, input: Vec::new(), context: Vec::new(), out: Vec::new() }
    }

    /// Makes the call. The answer's number and count: "a refused one counts 0", and so does a call without a count.
    pub fn make(&mut self, store: &dyn Store) -> (u32, u32) {
        let Call { op, number, point, image, input, context, out } = self;
        let answer = match op {
            Op::Start => store.start(image, *number, input).map(|()| 0),
            Op::Read => store.read(image, *number, *point, out).map(|()| 0),
            Op::Write => store.write(image, *number, *point, input, context, out).map(|()| 0),
            Op::Delete => store.delete(image, *number, *point, context, out).map(|()| 0),
            Op::TakeIn => store.take_in(image, input).map(|()| 0),
            Op::Ask => store.ask(image, *number, out).map(|()| 0),
            Op::Reply => store.reply(image, input, out),
            Op::Repair => store.repair(image, input).map(|()| 0),
            Op::StripPass => store.strip_pass(image),
        };
        match answer {
            Ok(count) => (0, count),
            Err(refusal) => (refusal.number(), 0),
        }
    }
}
