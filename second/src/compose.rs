//! Calls to which chosen refusals apply, one or several at once: for each call each refusal it can give, and the order
//! where two apply.
//!
//! The stage is the same for all: ourselves *a*, a sender *b* and a third *c* hold a job together; *f* is a peer of ours
//! that does not hold it; *d* shares no job with us, but one with *c*; *e* is in no job. What a refusal needs is then
//! added in such a way that it does not take away what another one needs.

use crate::block::BLOCK;
use crate::call::{Call, Op};
use crate::flaws::{bad_image, ill_formed_letter, ill_formed_outgoing, ill_formed_reply};
use crate::image::{self, IMAGE};
use crate::messages::{Letter, Outgoing, Reply};
use crate::names::{Controller, Counter, Dot, Job, Point, EIGHT};
use crate::object::{Content, Object, Value};
use crate::random::Random;
use crate::refusal::Refusal::{self, *};
use crate::row::Row;
use crate::state::{State, MOST_LISTED, MOST_POINTS, MOST_VERSIONS};
use crate::steps::LONGEST_REPLY;
use crate::table::Table;
use std::collections::{BTreeMap, BTreeSet};

/// The refusals that shall apply.
pub type Wanted = BTreeSet<Refusal>;

/// Whether these refusals can apply to one call together, as this module composes them.
pub fn possible(op: Op, wanted: &Wanted) -> bool {
    let both = |one, other| wanted.contains(&one) && wanted.contains(&other);
    wanted.iter().all(|refusal| op.refusals().contains(refusal))
        // A number out of its range is no controller at all.
        && !(op == Op::Ask && both(OutOfRange, NotAnotherPeer))
        // "12 and 13 can apply together only in a repair."
        && !(op != Op::Repair && both(TooManyVersions, TooManyPoints))
}

/// All sets of up to two refusals that can apply to the call, the empty one included.
pub fn sets_of_two(op: Op) -> Vec<Wanted> {
    let mut sets = vec![Wanted::new()];
    for one in op.refusals() {
        sets.push(Wanted::from([*one]));
        sets.extend(op.refusals().iter().filter(|other| *other > one).map(|other| Wanted::from([*one, *other])));
    }
    sets.retain(|wanted| possible(op, wanted));
    sets
}

/// A call to which all the wanted refusals apply, so that the first of them must be the answer.
pub fn compose(random: &mut Random, op: Op, wanted: &Wanted) -> Call {
    loop {
        if let Some(call) = attempt(random, op, wanted) {
            return call;
        }
    }
}

struct Stage {
    state: State,
    a: Controller,
    b: Controller,
    c: Controller,
    d: Controller,
    f: Controller,
    /// The job that a, b and c hold.
    job: Job,
    /// A job that b and c hold, but not a.
    theirs: Job,
    /// A job that a, c and f hold, but not b.
    ours: Job,
    /// The point that it is all about.
    point: Point,
}

fn value(random: &mut Random) -> Content {
    let bytes: Vec<u8> = (0..random.between(0, 24)).map(|_| random.below(256) as u8).collect();
    Content::Value(Value::new(&bytes).expect("24 at most"))
}

fn dot(controller: Controller, counter: u64) -> Dot {
    Dot { controller, counter: Counter(counter) }
}

impl Stage {
    fn new(random: &mut Random) -> Stage {
        let mut cast: Vec<Controller> = Controller::all().collect();
        for place in (1..EIGHT).rev() {
            cast.swap(place, random.below(place + 1));
        }
        let mut jobs: Vec<Job> = Job::all().collect();
        for place in (1..EIGHT).rev() {
            jobs.swap(place, random.below(place + 1));
        }
        let (a, b, c, d, f) = (cast[0], cast[1], cast[2], cast[3], cast[4]);
        let bit = |n: Controller| 1u8 << n.index();
        let mut table = [0u8; EIGHT];
        table[usize::from(jobs[0].number())] = bit(a) | bit(b) | bit(c);
        table[usize::from(jobs[1].number())] = bit(b) | bit(c);
        table[usize::from(jobs[2].number())] = bit(a) | bit(c) | bit(f);
        table[usize::from(jobs[3].number())] = bit(c) | bit(d);
        // One more member, sometimes; the last of the cast is in no job.
        if random.percent(50) {
            table[usize::from(jobs[0].number())] |= bit(cast[6]);
        }
        let mut state = State::fresh(a, Table(table));
        let high = random.percent(25);
        for n in [a, b, c, f] {
            let base = if high { random.between(4_000_000_000, 4_294_967_000) } else { random.between(75, 400) };
            state.clock.0[n.index()] = Row::up_to(Counter(base as u64));
        }
        let point = Point::new(jobs[0].number(), random.between(1, 65535) as u16).expect("in range");
        Stage { state, a, b, c, d, f, job: jobs[0], theirs: jobs[1], ours: jobs[2], point }
    }

    fn base(&self, n: Controller) -> u64 {
        self.state.clock.row(n).base().0
    }

    /// A point of a job, other than the one it is all about and not stored.
    fn another_point(&self, random: &mut Random, job: Job) -> Point {
        loop {
            let point = Point::new(job.number(), random.between(1, 65535) as u16).expect("in range");
            if point != self.point && !self.state.points.contains_key(&point) {
                return point;
            }
        }
    }

    /// Fills up the stored points, the point itself (where stored) included.
    fn store_64(&mut self, random: &mut Random) {
        let mut counter = 1;
        while self.state.points.len() < MOST_POINTS {
            let job = *random.pick(&[self.job, self.ours]);
            let point = self.another_point(random, job);
            let mut object = Object::default();
            object.versions.insert(dot(self.c, counter), value(random));
            self.state.points.insert(point, object);
            counter += 1;
        }
    }

    /// Eight versions of the point, c's: none of them covered by a context that names c no higher than `below`.
    fn store_8(&mut self, random: &mut Random) -> u64 {
        let base = self.base(self.c);
        let mut object = Object::default();
        for counter in base - 7..=base {
            let content = if random.percent(20) { Content::Deleted } else { value(random) };
            object.versions.insert(dot(self.c, counter), content);
        }
        if !object.has_value() {
            object.versions.insert(dot(self.c, base), value(random));
        }
        self.state.points.insert(self.point, object);
        base - 8
    }
}

/// The length one off.
fn wrong_length<T: Clone + Default>(random: &mut Random, buffer: &mut Vec<T>) {
    match random.below(4) {
        0 => buffer.clear(),
        1 => buffer.push(T::default()),
        2 => buffer.truncate(buffer.len() / 2),
        _ => drop(buffer.pop()),
    }
}

/// One attempt; it may end in nothing where a flaw that was drawn is not possible.
fn attempt(random: &mut Random, op: Op, wanted: &Wanted) -> Option<Call> {
    let mut stage = Stage::new(random);
    let mut call = match op {
        Op::Start => start_call(random, &stage, wanted),
        Op::Read => read_call(random, &stage, wanted),
        Op::Write | Op::Delete => write_call(random, &mut stage, op, wanted),
        Op::TakeIn => take_in_call(random, &mut stage, wanted)?,
        Op::Ask => ask_call(random, &stage, wanted),
        Op::Reply => reply_call(random, &stage, wanted)?,
        Op::Repair => repair_call(random, &mut stage, wanted)?,
        Op::StripPass => Call::on(op, image::encode(&stage.state)),
    };
    if wanted.contains(&WrongCheck) {
        let block = random.below(call.input.len() / BLOCK);
        call.input[block * BLOCK + 508 + random.below(4)] ^= 1 << random.below(8);
    }
    if wanted.contains(&ImageNotGood) {
        call.image = bad_image(random, &stage.state);
    }
    if wanted.contains(&WrongLength) {
        // A value's length is never refusal 1, and a buffer for a reply is wrong only where it is too short.
        let choices: Vec<u8> = [
            Some(0),
            (op.has_input() && op != Op::Write).then_some(1),
            op.has_context().then_some(2),
            op.has_out().then_some(3),
        ]
        .into_iter()
        .flatten()
        .collect();
        match *random.pick(&choices) {
            0 => wrong_length(random, &mut call.image),
            1 if op == Op::Repair => {
                let lengths = [0, 1, 511, 513, LONGEST_REPLY - 1, LONGEST_REPLY + 1, LONGEST_REPLY + BLOCK];
                call.input.resize(*random.pick(&lengths), 0);
            }
            1 => wrong_length(random, &mut call.input),
            2 => wrong_length(random, &mut call.context),
            _ if op == Op::Reply => call.out.truncate(*random.pick(&[0, 512, LONGEST_REPLY - 512, LONGEST_REPLY - 1])),
            _ => wrong_length(random, &mut call.out),
        }
    }
    Some(call)
}

/// A buffer with something in it, so that untouched bytes can be told.
pub fn scratch(random: &mut Random, length: usize) -> Vec<u8> {
    vec![random.between(1, 255) as u8; length]
}

fn start_call(random: &mut Random, stage: &Stage, wanted: &Wanted) -> Call {
    let mut call = Call::on(Op::Start, scratch(random, IMAGE));
    call.input = stage.state.table.0.to_vec();
    call.number = stage.a.number();
    if wanted.contains(&OutOfRange) {
        call.number = *random.pick(&[0, 9, 128, 255]);
    }
    call
}

/// A point argument that gets refusal 5.
fn bad_point(random: &mut Random, stage: &Stage) -> (u8, u16) {
    let point = stage.point.number.number();
    match random.below(3) {
        0 => (*random.pick(&[8, 9, 255]), point),
        1 => (stage.job.number(), 0),
        _ => (stage.theirs.number(), point),
    }
}

fn read_call(random: &mut Random, stage: &Stage, wanted: &Wanted) -> Call {
    let mut call = Call::on(Op::Read, image::encode(&stage.state));
    (call.number, call.point) = (stage.job.number(), stage.point.number.number());
    if wanted.contains(&OutOfRange) {
        (call.number, call.point) = bad_point(random, stage);
    }
    call.out = scratch(random, BLOCK);
    call
}

fn write_call(random: &mut Random, stage: &mut Stage, op: Op, wanted: &Wanted) -> Call {
    let mut given = [0u32; EIGHT];
    if wanted.contains(&CountersUsedUp) {
        stage.state.clock.0[stage.a.index()] = Row::up_to(Counter::LAST);
    }
    if wanted.contains(&TooManyVersions) {
        let uncovered = stage.store_8(random);
        given[stage.c.index()] = uncovered as u32;
    }
    if wanted.contains(&TooManyPoints) {
        stage.store_64(random);
    }
    if wanted.contains(&OwnListFull) {
        let base = stage.base(stage.a);
        let point = stage.another_point(random, stage.job);
        for counter in base + 1 - MOST_LISTED as u64..=base {
            stage.state.own_dots.insert(dot(stage.a, counter), if random.percent(50) { point } else { stage.point });
        }
    }
    if wanted.contains(&ContextAhead) {
        let n = *random.pick(&[stage.a, stage.b, stage.d, stage.f]);
        let present = stage.state.filled(stage.point).context.entry(n).0;
        if present < Counter::LAST.0 {
            given[n.index()] = (present + 1) as u32;
        } else {
            given[stage.d.index()] = 1;
        }
    }
    let mut call = Call::on(op, image::encode(&stage.state));
    (call.number, call.point) = (stage.job.number(), stage.point.number.number());
    if wanted.contains(&OutOfRange) {
        (call.number, call.point) = bad_point(random, stage);
    }
    if op == Op::Write {
        let length =
            if wanted.contains(&ValueTooLong) { *random.pick(&[25, 26, 255, 256, 300]) } else { random.between(0, 24) };
        call.input = scratch(random, length);
    }
    call.context = given.to_vec();
    call.out = scratch(random, BLOCK);
    call
}

fn ask_call(random: &mut Random, stage: &Stage, wanted: &Wanted) -> Call {
    let mut call = Call::on(Op::Ask, image::encode(&stage.state));
    call.number = if wanted.contains(&OutOfRange) {
        *random.pick(&[0, 9, 255])
    } else if wanted.contains(&NotAnotherPeer) {
        random.pick(&[stage.a, stage.d]).number()
    } else {
        random.pick(&[stage.b, stage.c, stage.f]).number()
    };
    call.out = scratch(random, BLOCK);
    call
}

/// A version that clashes with what is stored or listed: c's counter `counter`, which no other version here uses. The
/// message names it in `object`.
fn add_clash(random: &mut Random, stage: &mut Stage, object: &mut Object, counter: u64) {
    let clash = dot(stage.c, counter);
    let content = value(random);
    match random.below(4) {
        0 => {
            let point = stage.another_point(random, stage.job);
            stage.state.foreign_dots.insert(clash, point);
        }
        1 if stage.state.points.len() < MOST_POINTS => {
            let point = stage.another_point(random, stage.job);
            let versions = BTreeMap::from([(clash, content)]);
            stage.state.points.insert(point, Object { versions, ..Object::default() });
        }
        2 if stage.state.points.get(&stage.point).is_some_and(|stored| stored.versions.len() < MOST_VERSIONS) => {
            let other = if content == Content::Deleted { value(random) } else { Content::Deleted };
            let stored = stage.state.points.get_mut(&stage.point).expect("just found");
            stored.versions.insert(clash, other);
        }
        _ => {
            // Stored among the others, where the points are full already; listed elsewhere, where not.
            let elsewhere =
                stage.state.points.keys().find(|point| **point != stage.point && point.job == stage.job).copied();
            match elsewhere {
                Some(point) => drop(stage.state.points.get_mut(&point).expect("found").versions.insert(clash, content)),
                None => {
                    let point = stage.another_point(random, stage.job);
                    stage.state.foreign_dots.insert(clash, point);
                }
            }
        }
    }
    object.versions.insert(clash, content);
    object.context.raise(stage.c, clash.counter);
}

/// Names an own counter above our base.
fn add_lost_history(random: &mut Random, stage: &Stage, object: &mut Object) {
    let ahead = Counter(stage.base(stage.a) + random.between(1, 3) as u64);
    object.context.raise(stage.a, ahead);
    if random.percent(50) {
        object.versions.insert(Dot { controller: stage.a, counter: ahead }, value(random));
    }
}

fn take_in_call(random: &mut Random, stage: &mut Stage, wanted: &Wanted) -> Option<Call> {
    let mut object = Object::default();
    if wanted.contains(&TooManyVersions) {
        stage.store_8(random);
    }
    if wanted.contains(&TooManyPoints) {
        stage.store_64(random);
    }
    let ahead = if wanted.contains(&RowTooWide) { random.between(65, 200) } else { random.between(1, 64) };
    let new = dot(stage.b, stage.base(stage.b) + ahead as u64);
    object.versions.insert(new, value(random));
    object.context.raise(stage.b, new.counter);
    if wanted.contains(&DotClash) {
        // Below c's eight versions, so that the message's context covers none of them.
        let counter = stage.base(stage.c) - 8;
        add_clash(random, stage, &mut object, counter);
    }
    if wanted.contains(&HistoryLost) {
        add_lost_history(random, stage, &mut object);
    }
    let sender = match (wanted.contains(&OutOfRange), wanted.contains(&NotAnotherPeer)) {
        (false, false) => *random.pick(&[stage.b, stage.c]),
        (false, true) => stage.a,
        (true, false) => stage.f,
        (true, true) => stage.d,
    };
    let mut message = Outgoing { sender, point: stage.point, object };
    let only_5 = wanted.iter().all(|refusal| *refusal <= OutOfRange) && wanted.contains(&OutOfRange);
    if only_5 && random.percent(50) {
        // The other half of refusal 5: a job not held here.
        message.sender = stage.b;
        message.point = Point { job: stage.theirs, ..stage.point };
    }
    let mut call = Call::on(Op::TakeIn, image::encode(&stage.state));
    call.input = if wanted.contains(&IllFormed) {
        ill_formed_outgoing(random, &stage.state.table, &message)?.0
    } else {
        message.encode().to_vec()
    };
    Some(call)
}

/// A letter from b to us, with rows somewhat below ours; the refusals 6 and (by a row) 9 that letters can have.
fn letter(random: &mut Random, stage: &Stage, op: Op, wanted: &Wanted, by_row: bool) -> Letter {
    let mut letter = Letter { sender: stage.b, addressee: stage.a, clock: Default::default() };
    if wanted.contains(&NotAnotherPeer) {
        match random.below(3) {
            0 => letter.addressee = *random.pick(&[stage.b, stage.c, stage.d, stage.f]),
            1 => letter.sender = stage.a,
            // A reply of d's has points of a job that d does not hold: that is refusal 5, too.
            _ if op == Op::Ask || wanted.contains(&OutOfRange) => letter.sender = stage.d,
            _ => letter.addressee = stage.c,
        }
    }
    for n in [stage.a, stage.b, stage.c] {
        letter.clock.0[n.index()] = Row::up_to(Counter(stage.base(n) - random.between(10, 70) as u64));
    }
    if random.percent(50) {
        letter.clock.0[stage.b.index()] = Row::up_to(Counter(stage.base(stage.b) + random.between(0, 3) as u64));
    }
    if wanted.contains(&HistoryLost) && by_row {
        let base = stage.base(stage.a);
        let ahead = Counter(base + random.between(1, 3) as u64);
        letter.clock.0[stage.a.index()] = if letter.sender != stage.a && random.percent(50) {
            Row::up_to(Counter(base - 5)).adding(ahead)
        } else {
            Row::up_to(ahead)
        };
    }
    letter
}

fn reply_call(random: &mut Random, stage: &Stage, wanted: &Wanted) -> Option<Call> {
    let letter = letter(random, stage, Op::Ask, wanted, true);
    let mut call = Call::on(Op::Reply, image::encode(&stage.state));
    call.input = letter.encode_ask().to_vec();
    if wanted.contains(&IllFormed) {
        ill_formed_letter(random, &stage.state.table, &mut call.input)?;
    }
    let spare = *random.pick(&[0, 0, 1, 512, 3000]);
    call.out = scratch(random, LONGEST_REPLY + spare);
    Some(call)
}

fn repair_call(random: &mut Random, stage: &mut Stage, wanted: &Wanted) -> Option<Call> {
    let mut object = Object::default();
    if wanted.contains(&TooManyVersions) {
        stage.store_8(random);
    }
    if wanted.contains(&TooManyPoints) {
        stage.store_64(random);
    }
    let by_row = random.percent(50);
    let head = letter(random, stage, Op::Repair, wanted, by_row);
    let known = stage.base(stage.b).max(head.clock.row(stage.b).base().0);
    let ahead = if wanted.contains(&RowTooWide) { random.between(65, 200) } else { random.between(1, 60) };
    let new = dot(stage.b, known + ahead as u64);
    object.versions.insert(new, value(random));
    object.context.raise(stage.b, new.counter);
    if wanted.contains(&DotClash) {
        let counter = stage.base(stage.c) - 8;
        add_clash(random, stage, &mut object, counter);
    }
    if wanted.contains(&HistoryLost) && !by_row {
        add_lost_history(random, stage, &mut object);
    }
    let mut points = BTreeMap::from([(stage.point, object)]);
    if wanted.contains(&TooManyPoints) {
        // A new point, beside the one that may be stored.
        let mut more = Object::default();
        more.versions.insert(dot(stage.b, 1), value(random));
        more.context.raise(stage.b, Counter(1));
        points.insert(stage.another_point(random, stage.job), more);
    }
    if wanted.contains(&OutOfRange) {
        // Not held by the sender, or not by us.
        let job = if head.sender == stage.a { stage.theirs } else { *random.pick(&[stage.theirs, stage.ours]) };
        points.insert(stage.another_point(random, job), Object::default());
    }
    for _ in 0..*random.pick(&[0, 0, 1, 3]) {
        points.insert(stage.another_point(random, stage.job), Object::default());
    }
    let reply = Reply { head, points };
    let mut call = Call::on(Op::Repair, image::encode(&stage.state));
    call.input = if wanted.contains(&IllFormed) {
        ill_formed_reply(random, &stage.state.table, &reply)?.0
    } else {
        reply.encode()
    };
    Some(call)
}
