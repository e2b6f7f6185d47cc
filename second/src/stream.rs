//! Recorded calls as a stream of bytes; `CASES.md` describes it for readers in other languages.
//!
//! A stream is read from front to back. It works on numbered slots, each a buffer of bytes: records put bytes into
//! slots, and a call names the slots that it is lent. So an image need not be repeated for each call, and a message that
//! one call wrote can be taken in by the next.

use crate::call::{Call, Op};
use crate::store::Store;
use std::collections::BTreeMap;
use std::io::{self, Read, Write};

/// The first 16 bytes of a stream.
pub const OPENING: &[u8; 16] = b"SQIMRUTTA CASES1";
/// How many slots there are.
pub const SLOTS: usize = 64;
/// The most bytes that a slot holds.
pub const SLOT_BYTES: usize = 65_536;
/// The slot number of a buffer that a call does not lend.
pub const NO_SLOT: u8 = 255;

/// The first byte of the records that are not calls.
mod tag {
    pub const END: u8 = 0;
    pub const GOOD: u8 = 10;
    pub const SET: u8 = 16;
    pub const PATCH: u8 = 17;
    pub const COPY: u8 = 18;
    pub const RESIZE: u8 = 19;
    pub const LABEL: u8 = 20;
}

/// How many calls gave which answer.
pub type Answers = BTreeMap<(Op, u32), u64>;

/// A call on slots.
#[derive(Clone, Copy, PartialEq, Eq, Debug)]
pub struct SlotCall {
    /// Which of the nine.
    pub op: Op,
    /// start: the number; read, write, delete: the job; ask: whom.
    pub number: u8,
    /// read, write, delete: the point.
    pub point: u16,
    /// The image's slot.
    pub image: u8,
    /// The slot of the table, value, message, ask or reply.
    pub input: u8,
    /// The slot of the context: four bytes for each counter.
    pub context: u8,
    /// The slot of the buffer to write to.
    pub out: u8,
}

impl SlotCall {
    /// The lent slots.
    fn lent(&self) -> impl Iterator<Item = u8> {
        [self.image, self.input, self.context, self.out].into_iter().filter(|slot| *slot != NO_SLOT)
    }
}

/// The slots' contents.
struct Slots(Vec<Vec<u8>>);

impl Slots {
    fn new() -> Slots {
        Slots(vec![Vec::new(); SLOTS])
    }

    fn get(&self, slot: u8) -> &[u8] {
        &self.0[usize::from(slot)]
    }

    fn get_mut(&mut self, slot: u8) -> &mut Vec<u8> {
        &mut self.0[usize::from(slot)]
    }

    /// The bytes of a slot, none for no slot.
    fn lent(&self, slot: u8) -> Vec<u8> {
        if slot == NO_SLOT {
            Vec::new()
        } else {
            self.get(slot).to_vec()
        }
    }

    /// The call with copies of its slots.
    fn call(&self, call: &SlotCall) -> Call {
        let counters = self.lent(call.context);
        let counter = |bytes: &[u8]| u32::from_le_bytes(bytes.try_into().expect("four bytes"));
        Call {
            op: call.op,
            number: call.number,
            point: call.point,
            image: self.lent(call.image),
            input: self.lent(call.input),
            context: counters.chunks_exact(4).map(counter).collect(),
            out: self.lent(call.out),
        }
    }
}

/// Writes a stream.
pub struct Recorder<'a, W: Write> {
    store: &'a dyn Store,
    out: W,
    slots: Slots,
    /// How many calls and questions were recorded.
    pub calls: u64,
    /// How many of the calls gave which answer.
    pub answers: Answers,
}

impl<'a, W: Write> Recorder<'a, W> {
    /// Opens a stream of this store's answers.
    pub fn new(store: &'a dyn Store, mut out: W) -> io::Result<Recorder<'a, W>> {
        out.write_all(OPENING)?;
        Ok(Recorder { store, out, slots: Slots::new(), calls: 0, answers: Answers::new() })
    }

    /// The bytes of a slot.
    pub fn slot(&self, slot: u8) -> &[u8] {
        self.slots.get(slot)
    }

    fn record(&mut self, tag: u8, slot: u8, other: u8, first: usize, second: usize, bytes: &[u8]) -> io::Result<()> {
        let mut head = [0u8; 16];
        head[..3].copy_from_slice(&[tag, slot, other]);
        head[4..8].copy_from_slice(&(first as u32).to_le_bytes());
        head[8..12].copy_from_slice(&(second as u32).to_le_bytes());
        self.out.write_all(&head)?;
        self.out.write_all(bytes)
    }

    /// Gives a slot these bytes: by patches where it has that many already, anew where not.
    pub fn put(&mut self, slot: u8, bytes: &[u8]) -> io::Result<()> {
        assert!(bytes.len() <= SLOT_BYTES);
        if self.slot(slot).len() == bytes.len() {
            for (start, end) in differences(self.slots.get(slot), bytes) {
                self.record(tag::PATCH, slot, 0, start, end - start, &bytes[start..end])?;
            }
        } else {
            self.record(tag::SET, slot, 0, bytes.len(), 0, bytes)?;
        }
        self.slots.get_mut(slot).clear();
        self.slots.get_mut(slot).extend_from_slice(bytes);
        Ok(())
    }

    /// Gives a slot these counters.
    pub fn put_counters(&mut self, slot: u8, counters: &[u32]) -> io::Result<()> {
        let bytes: Vec<u8> = counters.iter().flat_map(|counter| counter.to_le_bytes()).collect();
        self.put(slot, &bytes)
    }

    /// Gives a slot the bytes of another one.
    pub fn copy(&mut self, to: u8, from: u8) -> io::Result<()> {
        self.record(tag::COPY, to, from, 0, 0, &[])?;
        let bytes = self.slots.get(from).to_vec();
        *self.slots.get_mut(to) = bytes;
        Ok(())
    }

    /// Cuts a slot, or lengthens it with zeros.
    pub fn resize(&mut self, slot: u8, length: usize) -> io::Result<()> {
        assert!(length <= SLOT_BYTES);
        self.record(tag::RESIZE, slot, 0, length, 0, &[])?;
        self.slots.get_mut(slot).resize(length, 0);
        Ok(())
    }

    /// Says what the next calls are about.
    pub fn label(&mut self, text: &str) -> io::Result<()> {
        self.record(tag::LABEL, 0, 0, text.len(), 0, text.as_bytes())
    }

    /// Makes a call on the slots and records it with its answer, its count and what it changed.
    pub fn call(&mut self, call: SlotCall) -> io::Result<(u32, u32)> {
        let mut made = self.slots.call(&call);
        let (answer, count) = made.make(self.store);
        let mut patches = Vec::new();
        for (slot, after) in [(call.image, made.image), (call.out, made.out)] {
            if slot != NO_SLOT {
                let changes = differences(self.slots.get(slot), &after);
                patches.extend(changes.into_iter().map(|(start, end)| (slot, start, after[start..end].to_vec())));
                *self.slots.get_mut(slot) = after;
            }
        }
        let mut head = [0u8; 16];
        head[..7].copy_from_slice(&[
            call.op as u8,
            answer as u8,
            call.image,
            call.input,
            call.context,
            call.out,
            call.number,
        ]);
        head[8..10].copy_from_slice(&call.point.to_le_bytes());
        head[10..12].copy_from_slice(&(patches.len() as u16).to_le_bytes());
        head[12..16].copy_from_slice(&count.to_le_bytes());
        self.out.write_all(&head)?;
        for (slot, start, bytes) in patches {
            self.record(tag::PATCH, slot, 0, start, bytes.len(), &bytes)?;
        }
        self.calls += 1;
        *self.answers.entry((call.op, answer)).or_default() += 1;
        Ok((answer, count))
    }

    /// Asks whether the bytes of a slot are a good image, and records the answer.
    pub fn good(&mut self, slot: u8) -> io::Result<bool> {
        let good = self.store.good(self.slot(slot));
        let mut head = [0u8; 16];
        head[..3].copy_from_slice(&[tag::GOOD, u8::from(good), slot]);
        self.out.write_all(&head)?;
        self.calls += 1;
        Ok(good)
    }

    /// Closes the stream.
    pub fn end(mut self) -> io::Result<Answers> {
        let mut head = [0u8; 16];
        head[0] = tag::END;
        head[8..16].copy_from_slice(&self.calls.to_le_bytes());
        self.out.write_all(&head)?;
        self.out.flush()?;
        Ok(self.answers)
    }
}

/// The stretches in which two buffers of one length differ, as start and end. Equal stretches shorter than a record's head
/// do not part them.
fn differences(before: &[u8], after: &[u8]) -> Vec<(usize, usize)> {
    const APART: usize = 16;
    const CHUNK: usize = 256;
    let mut stretches: Vec<(usize, usize)> = Vec::new();
    for (number, (old, new)) in before.chunks(CHUNK).zip(after.chunks(CHUNK)).enumerate() {
        if old == new {
            continue;
        }
        for at in (0..old.len()).filter(|&at| old[at] != new[at]) {
            let at = number * CHUNK + at;
            match stretches.last_mut() {
                Some((_, end)) if at - *end < APART => *end = at + 1,
                _ => stretches.push((at, at + 1)),
            }
        }
    }
    stretches
}

/// What was replayed.
#[derive(Clone, Debug, Default)]
pub struct Replayed {
    /// How many calls and questions.
    pub calls: u64,
    /// How many of the calls gave which answer.
    pub answers: Answers,
}

/// Why a replay ended early.
#[derive(Debug)]
pub enum ReplayError {
    /// The stream is not one, or not whole.
    Stream(String),
    /// A call did not do what was recorded.
    Mismatch(String),
}

impl std::fmt::Display for ReplayError {
    fn fmt(&self, f: &mut std::fmt::Formatter<'_>) -> std::fmt::Result {
        match self {
            ReplayError::Stream(what) => write!(f, "not a whole stream: {what}"),
            ReplayError::Mismatch(what) => write!(f, "mismatch: {what}"),
        }
    }
}

impl From<io::Error> for ReplayError {
    fn from(error: io::Error) -> ReplayError {
        ReplayError::Stream(error.to_string())
    }
}

fn number_at(head: &[u8; 16], at: usize) -> usize {
    u32::from_le_bytes(head[at..at + 4].try_into().expect("four bytes")) as usize
}

/// Reads a stream and makes its calls on a store: every answer, count and lent byte must be as recorded.
pub fn replay(store: &dyn Store, mut stream: impl Read) -> Result<Replayed, ReplayError> {
    let broken = |what: &str| ReplayError::Stream(what.to_string());
    let mut opening = [0u8; 16];
    stream.read_exact(&mut opening)?;
    if &opening != OPENING {
        return Err(broken("the first 16 bytes"));
    }
    let mut slots = Slots::new();
    let mut replayed = Replayed::default();
    let mut label = String::new();
    loop {
        let mut head = [0u8; 16];
        stream.read_exact(&mut head)?;
        if head[0] == tag::END {
            let recorded = u64::from_le_bytes(head[8..16].try_into().expect("eight bytes"));
            return if recorded == replayed.calls { Ok(replayed) } else { Err(broken("the number of calls")) };
        }
        match Op::numbered(head[0]) {
            Some(op) => replay_call(store, &mut stream, &mut slots, &head, op, &label, &mut replayed)?,
            None if head[0] == tag::GOOD => replay_good(store, &slots, &head, &label, &mut replayed)?,
            None => replay_other(&mut stream, &mut slots, &head, &mut label)?,
        }
    }
}

/// The question whether a slot holds a good image.
fn replay_good(
    store: &dyn Store,
    slots: &Slots,
    head: &[u8; 16],
    label: &str,
    replayed: &mut Replayed,
) -> Result<(), ReplayError> {
    if usize::from(head[2]) >= SLOTS {
        return Err(ReplayError::Stream("a lent slot out of range".into()));
    }
    replayed.calls += 1;
    let good = store.good(slots.get(head[2]));
    if u8::from(good) != head[1] {
        let what = format!("question {} (about: {label}): good is {good}, recorded is {}", replayed.calls, head[1]);
        return Err(ReplayError::Mismatch(what));
    }
    Ok(())
}

/// A record that is no call.
fn replay_other(
    stream: &mut impl Read,
    slots: &mut Slots,
    head: &[u8; 16],
    label: &mut String,
) -> Result<(), ReplayError> {
    let broken = |what: &str| ReplayError::Stream(what.to_string());
    let (first, second) = (number_at(head, 4), number_at(head, 8));
    if usize::from(head[1].max(head[2])) >= SLOTS || first > SLOT_BYTES || second > SLOT_BYTES {
        return Err(broken("a slot or length out of range"));
    }
    match head[0] {
        tag::SET => {
            let mut bytes = vec![0; first];
            stream.read_exact(&mut bytes)?;
            *slots.get_mut(head[1]) = bytes;
        }
        tag::PATCH => {
            let bytes = slots.get_mut(head[1]).get_mut(first..first + second);
            stream.read_exact(bytes.ok_or_else(|| broken("a patch past the end"))?)?;
        }
        tag::COPY => *slots.get_mut(head[1]) = slots.get(head[2]).to_vec(),
        tag::RESIZE => slots.get_mut(head[1]).resize(first, 0),
        tag::LABEL => {
            let mut bytes = vec![0; first];
            stream.read_exact(&mut bytes)?;
            *label = String::from_utf8_lossy(&bytes).into_owned();
        }
        _ => return Err(broken("an unknown record")),
    }
    Ok(())
}

/// A call: it is made on copies of its slots; then the slots get the recorded changes, and must equal the copies.
fn replay_call(
    store: &dyn Store,
    stream: &mut impl Read,
    slots: &mut Slots,
    head: &[u8; 16],
    op: Op,
    label: &str,
    replayed: &mut Replayed,
) -> Result<(), ReplayError> {
    let call = SlotCall {
        op,
        number: head[6],
        point: u16::from_le_bytes([head[8], head[9]]),
        image: head[2],
        input: head[3],
        context: head[4],
        out: head[5],
    };
    if call.lent().any(|slot| usize::from(slot) >= SLOTS) {
        return Err(ReplayError::Stream("a lent slot out of range".into()));
    }
    let mut made = slots.call(&call);
    let answered = made.make(store);
    let recorded = (u32::from(head[1]), number_at(head, 12) as u32);
    for _ in 0..u16::from_le_bytes([head[10], head[11]]) {
        let mut patch = [0u8; 16];
        stream.read_exact(&mut patch)?;
        if patch[0] != tag::PATCH || !call.lent().any(|slot| slot == patch[1]) {
            return Err(ReplayError::Stream("a call's change".into()));
        }
        replay_other(stream, slots, &patch, &mut String::new())?;
    }
    replayed.calls += 1;
    *replayed.answers.entry((op, answered.0)).or_default() += 1;
    let mismatch = |what: String| {
        Err(ReplayError::Mismatch(format!("call {} ({}, about: {label}): {what}", replayed.calls, op.name())))
    };
    if answered != recorded {
        return mismatch(format!("answer and count are {answered:?}, recorded are {recorded:?}"));
    }
    for (name, slot, is) in [("image", call.image, &made.image), ("out", call.out, &made.out)] {
        let must = if slot == NO_SLOT { &[] } else { slots.get(slot) };
        if is != must {
            let at = is.iter().zip(must).position(|(is, must)| is != must).expect("of one length");
            return mismatch(format!("byte {at} of the {name} is {}, recorded is {}", is[at], must[at]));
        }
    }
    Ok(())
}

#[cfg(test)]
mod tests {
    use super::*;

    #[test]
    fn differences_are_found_and_joined() {
        let before = vec![0u8; 1000];
        let mut after = before.clone();
        assert!(differences(&before, &after).is_empty());
        for at in [0, 10, 300, 511, 512, 999] {
            after[at] = 1;
        }
        assert_eq!(differences(&before, &after), vec![(0, 11), (300, 301), (511, 513), (999, 1000)]);
    }
}
