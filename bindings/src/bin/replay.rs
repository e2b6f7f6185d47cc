//! Reads a stream of recorded calls (second/CASES.md) from standard input, makes each through this crate, and compares answer, count and every byte of every
//! lent buffer. It prints how many calls of each kind gave which answer, in the lines of second/replay.c.
//!
//!     second cases --seed 1 --count 1000000 | replay
//!
//! Each call is made by the functions of `raw`; and once more by the methods of `Image`, where its buffers have lengths that these can have. Streams of
//! images (`second images`) are read, too.
//!
//! Exit: 0 no mismatch, 1 a mismatch, 2 not a whole stream.

use sqimrutta::{raw, Ask, Context, Image, Outgoing, Reading, Refusal, Reply, BLOCK, REPLY};
use std::collections::BTreeMap;
use std::io::{self, BufReader, Read};
use std::process::ExitCode;

const SLOTS: usize = 64;
const SLOT_BYTES: usize = 65_536;
/// The slot number of a buffer that a call does not lend.
const NO_SLOT: u8 = 255;
/// The calls by their numbers, and the question whether an image is good.
const NAMES: [&str; 11] =
    ["", "start", "read", "write", "delete", "take_in", "ask", "reply", "repair", "strip_pass", "good"];

/// The first byte of a record that is not a call.
mod tag {
    pub const END: u8 = 0;
    pub const GOOD: u8 = 10;
    pub const SET: u8 = 16;
    pub const PATCH: u8 = 17;
    pub const COPY: u8 = 18;
    pub const RESIZE: u8 = 19;
    pub const LABEL: u8 = 20;
}

type Head = [u8; 16];

/// Why the replay stops early.
enum Stop {
    NotWhole(&'static str),
    Mismatch { what: String, at: Option<usize>, is: u32, recorded: u32 },
}

/// A record that ends before it should is all that can go wrong with reading.
impl From<io::Error> for Stop {
    fn from(_: io::Error) -> Stop {
        Stop::NotWhole("it stops early")
    }
}

fn number(bytes: &[u8]) -> u32 {
    bytes.iter().rev().fold(0, |sum, byte| sum << 8 | u32::from(*byte))
}

/// A call with copies of the buffers that it is lent, of exactly their lengths; none where it lends no such buffer.
#[derive(Clone)]
struct Call {
    which: u8,
    number: u8,
    point: u16,
    image: Vec<u8>,
    input: Vec<u8>,
    context: Vec<u32>,
    out: Vec<u8>,
}

/// An answer's number, and the count.
type Answer = (u32, u32);

fn answer(result: Result<(), Refusal>) -> Answer {
    counted(result.map(|()| 0))
}

fn counted(result: Result<u32, Refusal>) -> Answer {
    match result {
        Ok(count) => (0, count),
        Err(refusal) => (refusal.number(), 0),
    }
}

impl Call {
    /// Makes the call on its buffers.
    fn by_slices(&mut self) -> Answer {
        let Call { which, number, point, image, input, context, out } = self;
        match which {
            1 => answer(raw::start(image, *number, input)),
            2 => answer(raw::read(image, *number, *point, out)),
            3 => answer(raw::write(image, *number, *point, input, context, out)),
            4 => answer(raw::delete(image, *number, *point, context, out)),
            5 => answer(raw::take_in(image, input)),
            6 => answer(raw::ask(image, *number, out)),
            7 => counted(raw::reply(image, input, out)),
            8 => answer(raw::repair(image, input)),
            _ => counted(raw::strip_pass(image)),
        }
    }

    /// Makes the call by the methods of `Image`, and puts what they leave and hand out into the buffers. None where a buffer has a length that the types
    /// cannot have, and nothing was called.
    fn by_types(&mut self) -> Option<Answer> {
        let mut image = Image::from_bytes(&self.image).ok()?;
        let context = || Some(Context::new(self.context.as_slice().try_into().ok()?));
        let one_block = || (self.out.len() == BLOCK).then_some(());
        let mut handed_out = Vec::new();
        let mut keep = |bytes: &[u8]| handed_out = bytes.to_vec();
        let given = match self.which {
            1 => {
                let table = self.input.as_slice().try_into().ok()?;
                answer(Image::start(self.number, table).map(|fresh| image = fresh))
            }
            2 => {
                one_block()?;
                let reading = image.read(self.number, self.point);
                answer(reading.map(|reading| keep(&written_anew(&reading))))
            }
            3 => {
                one_block()?;
                let message = image.write(self.number, self.point, &self.input, &context()?);
                answer(message.map(|message| keep(message.as_bytes())))
            }
            4 => {
                one_block()?;
                let message = image.delete(self.number, self.point, &context()?);
                answer(message.map(|message| keep(message.as_bytes())))
            }
            5 => answer(image.take_in(&Outgoing::from_bytes(&self.input))),
            6 => {
                one_block()?;
                answer(image.ask(self.number).map(|ask| keep(ask.as_bytes())))
            }
            7 => {
                (self.out.len() >= REPLY).then_some(())?;
                let reply = image.reply(&Ask::from_bytes(&self.input));
                counted(reply.map(|reply| {
                    keep(reply.as_bytes());
                    reply.points() as u32
                }))
            }
            8 => answer(image.repair(&Reply::from_bytes(&self.input))),
            _ => counted(image.strip_pass()),
        };
        self.image = image.as_bytes().to_vec();
        self.out[..handed_out.len()].copy_from_slice(&handed_out);
        Some(given)
    }
}

/// The block of kind 7 that says what this reading says, written by document 01's layout, to compare with the library's.
fn written_anew(reading: &Reading) -> [u8; BLOCK] {
    let mut block = [0; BLOCK];
    block[..2].copy_from_slice(&[7, 1]);
    block[4] = reading.job();
    block[5] = reading.versions().len() as u8;
    block[6..8].copy_from_slice(&reading.point().to_le_bytes());
    for (bytes, counter) in block[8..40].chunks_exact_mut(4).zip(reading.context().counters()) {
        bytes.copy_from_slice(&counter.to_le_bytes());
    }
    for (slot, version) in block[40..296].chunks_exact_mut(32).zip(reading.versions()) {
        slot[0] = version.dot().controller;
        slot[1] = version.value().len() as u8;
        slot[4..8].copy_from_slice(&version.dot().counter.to_le_bytes());
        slot[8..][..version.value().len()].copy_from_slice(version.value());
    }
    block[296] = reading.controller();
    let (mut sum, mut sum_of_sums) = (0, 0);
    for word in block[..508].chunks_exact(2) {
        sum = (sum + number(word)) % 65_535;
        sum_of_sums = (sum_of_sums + sum) % 65_535;
    }
    block[508..].copy_from_slice(&(sum | sum_of_sums << 16).to_le_bytes());
    block
}

/// The stream, and how far it was read.
struct Replay<R: Read> {
    stream: R,
    slots: Vec<Vec<u8>>,
    label: String,
    /// The calls and questions so far, the one at hand included.
    answered: u64,
    /// The number of the call at hand.
    which: u8,
    /// How many calls gave which answer.
    given: BTreeMap<(u8, u8), u64>,
    /// How many were also made by the types.
    by_types: u64,
}

impl<R: Read> Replay<R> {
    fn new(stream: R) -> Replay<R> {
        Replay {
            stream,
            slots: vec![Vec::new(); SLOTS],
            label: String::new(),
            answered: 0,
            which: 0,
            given: BTreeMap::new(),
            by_types: 0,
        }
    }

    fn head(&mut self) -> Result<Head, Stop> {
        let mut head = [0; 16];
        self.stream.read_exact(&mut head)?;
        Ok(head)
    }

    fn bytes(&mut self, length: usize) -> Result<Vec<u8>, Stop> {
        let mut bytes = vec![0; length];
        self.stream.read_exact(&mut bytes)?;
        Ok(bytes)
    }

    /// Reads the stream to its end.
    fn run(&mut self) -> Result<(), Stop> {
        if &self.head()? != b"SQIMRUTTA CASES1" {
            return Err(Stop::NotWhole("the first 16 bytes"));
        }
        loop {
            let head = self.head()?;
            match head[0] {
                tag::END => {
                    let recorded = u64::from(number(&head[12..])) << 32 | u64::from(number(&head[8..12]));
                    let whole = recorded == self.answered;
                    return if whole { Ok(()) } else { Err(Stop::NotWhole("the number of calls and questions")) };
                }
                1..=9 => self.call(&head)?,
                tag::GOOD => self.question(&head)?,
                _ => self.other(&head)?,
            }
        }
    }

    /// Any record but a call, a question and the end.
    fn other(&mut self, head: &Head) -> Result<(), Stop> {
        let (slot, from) = (usize::from(head[1]), usize::from(head[2]));
        let (first, second) = (number(&head[4..8]) as usize, number(&head[8..12]) as usize);
        if slot >= SLOTS || from >= SLOTS || first > SLOT_BYTES || second > SLOT_BYTES {
            return Err(Stop::NotWhole("a slot or length out of range"));
        }
        match head[0] {
            tag::SET => self.slots[slot] = self.bytes(first)?,
            tag::PATCH => {
                let part = self.slots[slot].get_mut(first..first + second);
                self.stream.read_exact(part.ok_or(Stop::NotWhole("a patch past the end"))?)?;
            }
            tag::COPY => self.slots[slot] = self.slots[from].clone(),
            tag::RESIZE => self.slots[slot].resize(first, 0),
            tag::LABEL => self.label = String::from_utf8_lossy(&self.bytes(first)?).into_owned(),
            _ => return Err(Stop::NotWhole("an unknown record")),
        }
        Ok(())
    }

    /// The bytes of a lent slot; none for no slot.
    fn lent(&self, slot: u8) -> Result<&[u8], Stop> {
        match self.slots.get(usize::from(slot)) {
            Some(bytes) => Ok(bytes),
            None if slot == NO_SLOT => Ok(&[]),
            None => Err(Stop::NotWhole("a lent slot out of range")),
        }
    }

    /// A call is made on copies of its slots; then the slots get the recorded changes, and must equal the copies.
    fn call(&mut self, head: &Head) -> Result<(), Stop> {
        self.answered += 1;
        self.which = head[0];
        let before = Call {
            which: head[0],
            number: head[6],
            point: u16::from_le_bytes([head[8], head[9]]),
            image: self.lent(head[2])?.to_vec(),
            input: self.lent(head[3])?.to_vec(),
            context: self.lent(head[4])?.chunks_exact(4).map(number).collect(),
            out: self.lent(head[5])?.to_vec(),
        };
        let mut by_slices = before.clone();
        let answer_by_slices = by_slices.by_slices();
        let mut by_types = before;
        let answer_by_types = by_types.by_types();
        for _ in 0..u16::from_le_bytes([head[10], head[11]]) {
            let patch = self.head()?;
            if patch[0] != tag::PATCH {
                return Err(Stop::NotWhole("a call's change"));
            }
            self.other(&patch)?;
        }
        self.compare(head, &by_slices, answer_by_slices, "")?;
        if let Some(answer) = answer_by_types {
            self.compare(head, &by_types, answer, " by the types")?;
            self.by_types += 1;
        }
        *self.given.entry((head[0], head[1])).or_default() += 1;
        Ok(())
    }

    fn compare(&self, head: &Head, made: &Call, answer: Answer, how: &str) -> Result<(), Stop> {
        let must_be = |what: &str, is: u32, recorded: u32| match is == recorded {
            true => Ok(()),
            false => Err(Stop::Mismatch { what: format!("{what}{how}"), at: None, is, recorded }),
        };
        must_be("answer", answer.0, u32::from(head[1]))?;
        must_be("count", answer.1, number(&head[12..]))?;
        let context: Vec<u8> = made.context.iter().flat_map(|counter| counter.to_le_bytes()).collect();
        let buffers = [
            ("byte of the image", head[2], &made.image),
            ("byte of the input", head[3], &made.input),
            ("byte of the context", head[4], &context),
            ("byte of the buffer written to", head[5], &made.out),
        ];
        for (name, slot, is) in buffers {
            let recorded = self.lent(slot)?;
            if let Some(at) = is.iter().zip(recorded).position(|(is, recorded)| is != recorded) {
                let (is, recorded) = (u32::from(is[at]), u32::from(recorded[at]));
                return Err(Stop::Mismatch { what: format!("{name}{how}"), at: Some(at), is, recorded });
            }
        }
        Ok(())
    }

    /// Whether a slot holds a good image.
    fn question(&mut self, head: &Head) -> Result<(), Stop> {
        self.answered += 1;
        self.which = head[0];
        let slot = self.lent(head[2])?;
        let image = slot.to_vec();
        let (is, recorded) = (u32::from(raw::good(&image)), u32::from(head[1]));
        if is != recorded {
            return Err(Stop::Mismatch { what: "answer".to_string(), at: None, is, recorded });
        }
        if Image::from_bytes(&image).is_ok_and(|image| image.good()) != (is == 1) {
            return Err(Stop::Mismatch { what: "answer by the types".to_string(), at: None, is: 1 - is, recorded });
        }
        *self.given.entry((head[0], head[1])).or_default() += 1;
        Ok(())
    }

    /// One line for each call that was made: how often, and how many times it gave each of its answers.
    fn report(&self) {
        for (which, name) in (0..).zip(NAMES) {
            let answers: Vec<(u8, u64)> =
                self.given.range((which, 0)..=(which, u8::MAX)).map(|((_, answer), times)| (*answer, *times)).collect();
            if answers.is_empty() {
                continue;
            }
            let made: u64 = answers.iter().map(|(_, times)| times).sum();
            let told: Vec<String> = answers.iter().map(|(answer, times)| format!("{answer}: {times}")).collect();
            println!("{name}: {made} calls; answer {}", told.join(", "));
        }
        println!("{} calls, 0 of them passed over, no mismatch", self.answered);
        // Not on standard output, whose lines are those of second/replay.c.
        eprintln!("{} of them were made by the types, too", self.by_types);
    }
}

fn main() -> ExitCode {
    let mut replay = Replay::new(BufReader::with_capacity(1 << 20, io::stdin().lock()));
    match replay.run() {
        Ok(()) => {
            replay.report();
            ExitCode::SUCCESS
        }
        Err(Stop::NotWhole(what)) => {
            eprintln!("not a whole stream: {what}");
            ExitCode::from(2)
        }
        Err(Stop::Mismatch { what, at, is, recorded }) => {
            if let Some(at) = at {
                eprintln!("at byte {at}:");
            }
            println!(
                "call {} (number {}, about: {}): {what}: is {is}, recorded is {recorded}",
                replay.answered, replay.which, replay.label
            );
            ExitCode::from(1)
        }
    }
}
