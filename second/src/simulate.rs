//! A randomised crew, held against the demand: "Under the crew's premises a handheld shows, for each point of its jobs,
//! exactly the values of seen writes that no seen write covers. What it has once seen deleted it never shows again.
//! Stripping changes no reading."
//!
//! The premises: one table; each controller is started fresh once; every message taken in is one that some call of the
//! run wrote, whole and unaltered, but perhaps lost, late, repeated or out of order. The simulator keeps, beside the
//! images, what the demand speaks of: every write with the context given with it, and for each controller and point
//! the set of writes it has seen. It judges the readings by these alone.

use crate::crew::{Shape, Weather};
use crate::image::{self, IMAGE};
use crate::names::{Controller, Counter, Dot, Point, EIGHT};
use crate::object::{Content, Value};
use crate::random::Random;
use crate::refusal::Refusal;
use crate::row::Row;
use crate::state::{State, MOST_LISTED, MOST_POINTS};
use crate::steps;
use crate::store::Store;
use crate::table::Table;
use std::collections::{BTreeMap, BTreeSet};
use std::fmt;

/// "no own counter runs more than 60 ahead of a peer's base".
const MOST_AHEAD: u64 = MOST_LISTED as u64;

/// What to simulate.
#[derive(Clone, Debug)]
pub struct Settings {
    /// The seed.
    pub seed: u64,
    /// How many steps in all, over as many crews as they fill.
    pub steps: u64,
    /// The crews' shape; all in turn where none is given.
    pub shape: Option<Shape>,
    /// The longest life of a crew, in steps.
    pub longest: usize,
}

/// What was simulated.
#[derive(Clone, Debug, Default)]
pub struct Report {
    /// Steps taken: calls on a controller, refused ones included.
    pub steps: u64,
    /// Crews.
    pub crews: u64,
    /// Readings compared with the demand.
    pub readings: u64,
    /// How often each call gave each answer.
    pub answers: BTreeMap<(&'static str, u32), u64>,
    /// Messages that a controller accepted though it had accepted the same before.
    pub repeated: u64,
    /// Messages accepted out of the order in which they were written (an older one of the same sender after a newer one).
    pub late: u64,
    /// The furthest that an own counter ran ahead of a peer's base.
    pub ahead: u64,
    /// The most versions that a reading showed.
    pub versions: usize,
    /// The most stored points, own dots and foreign dots.
    pub full: [usize; 3],
    /// The most points that a reply carried.
    pub reply_points: u32,
    /// Writes made, deletions included.
    pub writes: u64,
    /// Seen writes that were found covered, over all controllers.
    pub covered: u64,
}

impl fmt::Display for Report {
    fn fmt(&self, f: &mut fmt::Formatter<'_>) -> fmt::Result {
        writeln!(f, "steps {} crews {} readings compared {}", self.steps, self.crews, self.readings)?;
        writeln!(f, "writes {} seen and covered {}", self.writes, self.covered)?;
        writeln!(f, "messages accepted again {} accepted late {}", self.repeated, self.late)?;
        writeln!(f, "own counter ahead of a peer's base, at most {}", self.ahead)?;
        writeln!(f, "versions shown, at most {}; points in a reply, at most {}", self.versions, self.reply_points)?;
        writeln!(f, "stored points, own dots, foreign dots, at most {:?}", self.full)?;
        for ((call, answer), times) in &self.answers {
            writeln!(f, "{call:10} answer {answer:2} times {times}")?;
        }
        Ok(())
    }
}

/// A step after which the demand did not hold.
#[derive(Clone, Debug)]
pub struct Violation {
    /// What did not hold.
    pub what: String,
    /// The crew's own seed and shape.
    pub crew: (u64, Shape),
    /// Every step of the crew up to this one, in words.
    pub steps: Vec<String>,
}

impl fmt::Display for Violation {
    fn fmt(&self, f: &mut fmt::Formatter<'_>) -> fmt::Result {
        for step in &self.steps {
            writeln!(f, "{step}")?;
        }
        writeln!(f, "violation after {} steps of crew {:?}: {}", self.steps.len(), self.crew, self.what)
    }
}

/// Runs crews until the steps are used up.
pub fn simulate(store: &dyn Store, settings: &Settings) -> Result<Report, Box<Violation>> {
    let mut random = Random::new(settings.seed);
    let mut report = Report::default();
    while report.steps < settings.steps {
        let shape = settings.shape.unwrap_or(Shape::ALL[report.crews as usize % Shape::ALL.len()].1);
        let seed = random.bits();
        report.crews += 1;
        let left = (settings.steps - report.steps).min(settings.longest as u64) as usize;
        let mut run = Run::new(store, shape, seed, &mut report);
        let length = run.random.between(left.div_ceil(4), left);
        let outcome = run.go(length);
        if let Err(what) = outcome {
            return Err(Box::new(Violation { what, crew: (seed, shape), steps: run.log }));
        }
    }
    Ok(report)
}

/// A write or deletion, as the demand speaks of it.
#[derive(Clone, Debug)]
struct Write {
    dot: Dot,
    content: Content,
    given: [u32; EIGHT],
}

impl Write {
    /// "One write covers another of the same point when the context given with it covers the other's dot."
    fn covers(&self, other: &Write) -> bool {
        other.dot.counter <= Counter::from(self.given[other.dot.controller.index()])
    }
}

/// A set of the writes of one point, by their numbers.
#[derive(Clone, Debug, Default, PartialEq, Eq)]
struct WriteSet(Vec<u64>);

impl WriteSet {
    fn insert(&mut self, number: usize) {
        if self.0.len() <= number / 64 {
            self.0.resize(number / 64 + 1, 0);
        }
        self.0[number / 64] |= 1 << (number % 64);
    }

    fn contains(&self, number: usize) -> bool {
        self.0.get(number / 64).is_some_and(|word| word >> (number % 64) & 1 == 1)
    }

    fn unite(&mut self, other: &WriteSet) {
        if self.0.len() < other.0.len() {
            self.0.resize(other.0.len(), 0);
        }
        for (word, more) in self.0.iter_mut().zip(&other.0) {
            *word |= more;
        }
    }

    fn numbers(&self) -> impl Iterator<Item = usize> + '_ {
        (0..self.0.len() * 64).filter(|number| self.contains(*number))
    }
}

/// What one reading shows: dots with values, ascending.
type Shown = Vec<(Dot, Value)>;

/// One started controller, with what the demand says about it.
struct Device {
    image: Vec<u8>,
    /// The decoded image.
    state: State,
    /// Per point: the writes it has seen.
    seen: Vec<WriteSet>,
    /// Per point: the seen writes that were found covered at some time.
    covered: Vec<WriteSet>,
    /// Per point: what it must show.
    expected: Vec<Shown>,
    /// Per point: contexts of its earlier readings.
    readings: Vec<Vec<[u32; EIGHT]>>,
    /// The messages it has accepted.
    accepted: BTreeSet<u64>,
    /// Per sender: the newest message accepted.
    newest: [u64; EIGHT],
}

#[derive(Clone, Copy, PartialEq, Eq, Debug)]
enum MailKind {
    Outgoing,
    Ask,
    Reply,
}

/// A message under way, and which writes it makes its taker see.
#[derive(Clone)]
struct Mail {
    number: u64,
    kind: MailKind,
    sender: Controller,
    addressee: Option<Controller>,
    bytes: Vec<u8>,
    carries: Vec<(usize, WriteSet)>,
}

/// How many messages of a kind stay under way; beyond that, any one of them gets lost.
const UNDER_WAY: usize = 48;
/// How many earlier contexts of a point a controller remembers.
const REMEMBERED: usize = 12;

struct Run<'a> {
    store: &'a dyn Store,
    random: Random,
    table: Table,
    points: Vec<Point>,
    writes: Vec<Vec<Write>>,
    first_base: u32,
    devices: Vec<Option<Device>>,
    mail: Vec<Mail>,
    mails: u64,
    weather: Weather,
    report: &'a mut Report,
    log: Vec<String>,
}

type Outcome = Result<(), String>;

impl<'a> Run<'a> {
    fn new(store: &'a dyn Store, shape: Shape, seed: u64, report: &'a mut Report) -> Run<'a> {
        let mut random = Random::new(seed);
        let table = shape.table(&mut random);
        let points = shape.points(&table, &mut random);
        let first_base = shape.first_base(&mut random);
        let weather = Weather::any(&mut random);
        Run {
            store,
            writes: vec![Vec::new(); points.len()],
            random,
            table,
            points,
            first_base,
            devices: (0..EIGHT).map(|_| None).collect(),
            mail: Vec::new(),
            mails: 0,
            weather,
            report,
            log: Vec::new(),
        }
    }

    fn go(&mut self, length: usize) -> Outcome {
        let until = self.report.steps + length as u64;
        // Most controllers start at once; some of them much later.
        for n in Controller::all() {
            if self.random.percent(85) {
                self.start(n)?;
            }
        }
        while self.report.steps < until {
            if self.random.percent(1) && self.random.percent(20) {
                self.weather = Weather::any(&mut self.random);
            }
            let n = self.any_controller();
            if self.devices[n.index()].is_none() {
                // Nothing happens on a controller that is not started, until some day it is.
                if self.random.percent(5) {
                    self.start(n)?;
                }
                continue;
            }
            match self.weather.choose(&mut self.random) {
                0 => self.writes(n)?,
                1 => self.write(n, true)?,
                2 => self.deliver(n, MailKind::Outgoing)?,
                3 => self.read(n)?,
                4 => self.ask_somebody(n)?,
                5 => self.deliver(n, MailKind::Ask)?,
                6 => self.deliver(n, MailKind::Reply)?,
                7 => self.strip_pass(n)?,
                _ => self.round(n)?,
            }
        }
        Ok(())
    }

    /// Mostly a controller that holds a job.
    fn any_controller(&mut self) -> Controller {
        let busy: Vec<Controller> = Controller::all().filter(|&n| self.table.in_some_job(n)).collect();
        if busy.is_empty() || self.random.percent(2) {
            Controller::new(self.random.between(1, EIGHT) as u8).expect("1..8")
        } else {
            *self.random.pick(&busy)
        }
    }

    fn device(&self, n: Controller) -> &Device {
        self.devices[n.index()].as_ref().expect("a started controller")
    }

    fn device_mut(&mut self, n: Controller) -> &mut Device {
        self.devices[n.index()].as_mut().expect("a started controller")
    }

    /// The places of the points of a controller's jobs.
    fn held_points(&self, n: Controller) -> Vec<usize> {
        (0..self.points.len()).filter(|&place| self.table.holds(n, self.points[place].job)).collect()
    }

    fn count(&mut self, call: &'static str, answer: Result<u32, Refusal>) {
        self.report.steps += 1;
        *self.report.answers.entry((call, answer.map_or_else(Refusal::number, |_| 0))).or_default() += 1;
    }

    fn start(&mut self, n: Controller) -> Outcome {
        self.log.push(format!("start {} table {:?}", n.number(), self.table.0));
        let mut image = vec![0x5a; IMAGE];
        let answer = self.store.start(&mut image, n.number(), &self.table.0);
        self.count("start", answer.map(|()| 0));
        if answer.is_err() {
            return Err(format!("start refused: {answer:?}"));
        }
        let mut state = image::decode(&image).ok_or("a fresh image is not good")?;
        if self.first_base > 0 {
            state = self.advanced(state);
            image = image::encode(&state);
            if image::decode(&image).is_none() {
                return Err("an advanced image is not good".into());
            }
        }
        let many = self.points.len();
        self.devices[n.index()] = Some(Device {
            image,
            state,
            seen: vec![WriteSet::default(); many],
            covered: vec![WriteSet::default(); many],
            expected: vec![Shown::new(); many],
            readings: vec![Vec::new(); many],
            accepted: BTreeSet::new(),
            newest: [0; EIGHT],
        });
        self.check_readings(n)
    }

    /// The state of a controller whose crew has written up to the first base, all of which has been seen, covered by
    /// deletions, and forgotten, by everybody.
    fn advanced(&self, mut state: State) -> State {
        let base = Counter::from(self.first_base);
        for n in Controller::all().filter(|&n| self.table.peers(state.own, n) && self.table.in_some_job(n)) {
            state.clock.0[n.index()] = Row::up_to(base);
            for m in Controller::all().filter(|&m| self.table.peers(m, n) && self.table.peers(state.own, m)) {
                state.watermark[m.index()][n.index()] = base;
            }
        }
        state
    }

    /// A write, or a burst of them.
    fn writes(&mut self, n: Controller) -> Outcome {
        let burst = self.random.percent(self.weather.burst);
        for _ in 0..if burst { self.random.between(5, 70) } else { 1 } {
            self.write(n, false)?;
        }
        Ok(())
    }

    fn write(&mut self, n: Controller, delete: bool) -> Outcome {
        let held = self.held_points(n);
        if held.is_empty() || self.random.percent(1) {
            return self.write_elsewhere(n, delete);
        }
        let place = *self.random.pick(&held);
        let (given, from_own_reading) = self.some_context(n, place);
        let length = self.random.between(0, 24);
        let bytes: Vec<u8> = (0..length).map(|_| self.random.below(256) as u8).collect();
        let content = if delete { Content::Deleted } else { Content::Value(Value::new(&bytes).expect("24 at most")) };
        let point = self.points[place];
        let (job, number) = (point.job.number(), point.number.number());
        self.log.push(format!(
            "{} {} point {point} context {given:?}",
            if delete { "delete" } else { "write" },
            n.number()
        ));

        let before = self.device(n).image.clone();
        let mut image = before.clone();
        let mut out = vec![0xc3; 512];
        let answer = if delete {
            self.store.delete(&mut image, job, number, &given, &mut out)
        } else {
            self.store.write(&mut image, job, number, &bytes, &given, &mut out)
        };
        self.count(if delete { "delete" } else { "write" }, answer.map(|()| 0));
        let state = &self.device(n).state;
        let present = state.filled(point).context;
        let above = crate::context::Context::from_counters(given).is_above(&present);
        if let Err(refusal) = answer {
            unchanged(&before, &image)?;
            unchanged(&[0xc3; 512], &out)?;
            let due = match refusal {
                Refusal::ContextAhead => above && !from_own_reading,
                Refusal::TooManyVersions => state.stored(point).versions.len() == 8,
                Refusal::TooManyPoints => {
                    !delete && state.points.len() == MOST_POINTS && !state.points.contains_key(&point)
                }
                Refusal::OwnListFull => state.own_dots.len() == MOST_LISTED,
                Refusal::CountersUsedUp => state.own_base() == Counter::LAST,
                _ => false,
            };
            return if due { Ok(()) } else { Err(format!("write refused without cause: {refusal:?}")) };
        }
        if above || state.own_dots.len() == MOST_LISTED || state.own_base() == Counter::LAST {
            return Err("a write was accepted that had to be refused".into());
        }
        let dot = Dot { controller: n, counter: state.own_base().next() };
        self.report.writes += 1;
        let write = self.writes[place].len();
        self.writes[place].push(Write { dot, content, given });
        let device = self.device_mut(n);
        device.image = image;
        device.seen[place].insert(write);
        let carries = vec![(place, device.seen[place].clone())];
        self.check_step(n, &[place], false)?;
        self.check_ahead(n)?;
        self.send(MailKind::Outgoing, n, None, out, carries);
        Ok(())
    }

    /// A point of a job that is not held: refusal 5.
    fn write_elsewhere(&mut self, n: Controller, delete: bool) -> Outcome {
        let Some(place) = (0..self.points.len()).find(|&place| !self.table.holds(n, self.points[place].job)) else {
            return Ok(());
        };
        let point = self.points[place];
        let (job, number) = (point.job.number(), point.number.number());
        self.log.push(format!("{} writes in job {job}, not held", n.number()));
        let before = self.device(n).image.clone();
        let (mut image, mut out) = (before.clone(), vec![0xc3; 512]);
        let answer = if delete {
            self.store.delete(&mut image, job, number, &[0; EIGHT], &mut out)
        } else {
            self.store.write(&mut image, job, number, b"x", &[0; EIGHT], &mut out)
        };
        self.count(if delete { "delete" } else { "write" }, answer.map(|()| 0));
        refused_with(answer, Refusal::OutOfRange)?;
        unchanged(&before, &image)?;
        unchanged(&[0xc3; 512], &out)
    }

    /// A context for a write, and whether it comes from a reading of this point on this controller.
    fn some_context(&mut self, n: Controller, place: usize) -> ([u32; EIGHT], bool) {
        let point = self.points[place];
        let present = self.device(n).state.filled(point).context.0.map(Counter::to_u32);
        if self.random.percent(self.weather.covering) {
            return (present, true);
        }
        let earlier = &self.devices[n.index()].as_ref().expect("started").readings[place];
        let stale = if earlier.is_empty() { [0; EIGHT] } else { *self.random.pick(earlier) };
        match self.random.below(6) {
            0 => ([0; EIGHT], true),
            1 | 2 => (stale, true),
            3 => (present.map(|entry| self.lowered(entry)), true),
            4 => (stale.map(|entry| self.lowered(entry)), true),
            _ => {
                // The reading of another point, perhaps of another job: it may well be above in some entry.
                let held = self.held_points(n);
                let other = self.points[*self.random.pick(&held)];
                (self.device(n).state.filled(other).context.0.map(Counter::to_u32), false)
            }
        }
    }

    /// A counter not above this one.
    fn lowered(&mut self, entry: u32) -> u32 {
        match self.random.below(4) {
            0 => 0,
            1 => entry.saturating_sub(self.random.below(4) as u32),
            _ => entry,
        }
    }

    /// A reading, whose context may be given to a later write.
    fn read(&mut self, n: Controller) -> Outcome {
        let held = self.held_points(n);
        if held.is_empty() {
            return Ok(());
        }
        let place = *self.random.pick(&held);
        let point = self.points[place];
        self.log.push(format!("read {} point {point}", n.number()));
        let mut out = vec![0xc3; 512];
        let answer = self.store.read(&self.device(n).image, point.job.number(), point.number.number(), &mut out);
        self.count("read", answer.map(|()| 0));
        if answer.is_err() {
            return Err(format!("read refused: {answer:?}"));
        }
        let (shown, context) = reading_of(&out, point, n)?;
        let device = self.device_mut(n);
        if shown != device.expected[place] {
            return Err(format!("read shows {shown:?}, must show {:?}", device.expected[place]));
        }
        let earlier = &mut device.readings[place];
        earlier.push(context);
        if earlier.len() > REMEMBERED {
            let lost = self.random.below(REMEMBERED);
            self.device_mut(n).readings[place].remove(lost);
        }
        Ok(())
    }

    fn ask_somebody(&mut self, n: Controller) -> Outcome {
        let to = if self.random.percent(90) {
            let others: Vec<u8> = self.table.peers_of(n).filter(|&m| m != n).map(Controller::number).collect();
            if others.is_empty() {
                n.number()
            } else {
                *self.random.pick(&others)
            }
        } else {
            self.random.between(0, 9) as u8
        };
        self.ask(n, to).map(|_| ())
    }

    /// An ask; its mail's place where it is accepted and not lost.
    fn ask(&mut self, n: Controller, to: u8) -> Result<Option<Mail>, String> {
        self.log.push(format!("ask {} to {to}", n.number()));
        let before = self.device(n).image.clone();
        let mut out = vec![0xc3; 512];
        let answer = self.store.ask(&before, to, &mut out);
        self.count("ask", answer.map(|()| 0));
        let due = match Controller::new(to) {
            None => Some(Refusal::OutOfRange),
            Some(to) if to == n || !self.table.peers(n, to) => Some(Refusal::NotAnotherPeer),
            Some(_) => None,
        };
        match (answer, due) {
            (Ok(()), None) => Ok(self.send(MailKind::Ask, n, Controller::new(to), out, Vec::new())),
            (Err(refusal), Some(due)) if refusal == due => unchanged(&[0xc3; 512], &out).map(|()| None),
            _ => Err(format!("ask answered {answer:?}, due was {due:?}")),
        }
    }

    /// Hands some message of a kind to a controller.
    fn deliver(&mut self, n: Controller, kind: MailKind) -> Outcome {
        let late = self.random.percent(self.weather.late);
        let astray = self.random.percent(5);
        let meant_for_us = |mail: &Mail| match mail.addressee {
            Some(addressee) => addressee == n,
            None => mail.sender != n && self.table.holds(n, self.points[mail.carries[0].0].job),
        };
        let fits = |mail: &&Mail| mail.kind == kind && (astray || meant_for_us(mail));
        let fitting: Vec<&Mail> = self.mail.iter().filter(fits).collect();
        if fitting.is_empty() {
            return Ok(());
        }
        let first = if late { 0 } else { fitting.len().saturating_sub(6) };
        let mail = (*self.random.pick(&fitting[first..])).clone();
        match kind {
            MailKind::Outgoing => self.take_in(n, &mail),
            MailKind::Ask => self.reply(n, &mail).map(|_| ()),
            MailKind::Reply => self.repair(n, &mail),
        }
    }

    fn take_in(&mut self, n: Controller, mail: &Mail) -> Outcome {
        self.log.push(format!("take in {} message {} of {}", n.number(), mail.number, mail.sender.number()));
        let mut image = self.device(n).image.clone();
        let answer = self.store.take_in(&mut image, &mail.bytes);
        self.count("take_in", answer.map(|()| 0));
        let job = self.points[mail.carries[0].0].job;
        let due = if !self.table.holds(n, job) {
            Some(Refusal::OutOfRange)
        } else if mail.sender == n {
            Some(Refusal::NotAnotherPeer)
        } else {
            None
        };
        self.taken(n, mail, image, answer, due)
    }

    fn reply(&mut self, n: Controller, mail: &Mail) -> Result<Option<Mail>, String> {
        self.log.push(format!("reply {} to message {} of {}", n.number(), mail.number, mail.sender.number()));
        let spare = *self.random.pick(&[0, 0, 0, 1, 512, 700]);
        let mut out = vec![0xc3; steps::LONGEST_REPLY + spare];
        let answer = self.store.reply(&self.device(n).image, &mail.bytes, &mut out);
        self.count("reply", answer);
        if mail.addressee != Some(n) {
            refused_with(answer.map(|_| ()), Refusal::NotAnotherPeer)?;
            unchanged(&vec![0xc3; steps::LONGEST_REPLY + spare], &out)?;
            return Ok(None);
        }
        let count = answer.map_err(|refusal| format!("reply refused: {refusal:?}"))?;
        self.report.reply_points = self.report.reply_points.max(count);
        let used = (1 + count as usize) * 512;
        if out[used..].iter().any(|byte| *byte != 0xc3) {
            return Err("a reply wrote past its points".into());
        }
        out.truncate(used);
        let mut carries = Vec::new();
        for block in out.chunks_exact(512).skip(1) {
            let point = Point::new(block[4], u16::from_le_bytes([block[6], block[7]]));
            let place = point.and_then(|point| self.points.binary_search(&point).ok());
            let place = place.ok_or("a reply names a point that nobody wrote")?;
            carries.push((place, self.device(n).seen[place].clone()));
        }
        Ok(self.send(MailKind::Reply, n, Some(mail.sender), out, carries))
    }

    fn repair(&mut self, n: Controller, mail: &Mail) -> Outcome {
        self.log.push(format!("repair {} with message {} of {}", n.number(), mail.number, mail.sender.number()));
        let mut image = self.device(n).image.clone();
        let answer = self.store.repair(&mut image, &mail.bytes);
        self.count("repair", answer.map(|()| 0));
        let due = if mail.carries.iter().any(|(place, _)| !self.table.holds(n, self.points[*place].job)) {
            Some(Refusal::OutOfRange)
        } else if mail.addressee != Some(n) {
            Some(Refusal::NotAnotherPeer)
        } else {
            None
        };
        self.taken(n, mail, image, answer, due)
    }

    /// After a take in or a repair: what was due, and what is seen now.
    fn taken(
        &mut self,
        n: Controller,
        mail: &Mail,
        image: Vec<u8>,
        answer: Result<(), Refusal>,
        due: Option<Refusal>,
    ) -> Outcome {
        if let Err(refusal) = answer {
            unchanged(&self.device(n).image, &image)?;
            let full = matches!(refusal, Refusal::TooManyVersions | Refusal::TooManyPoints);
            let as_due = due.map_or(full, |due| due == refusal);
            return if as_due { Ok(()) } else { Err(format!("a crew message was refused: {refusal:?}, due {due:?}")) };
        }
        if due.is_some() {
            return Err(format!("accepted, due was {due:?}"));
        }
        let device = self.device_mut(n);
        let again = !device.accepted.insert(mail.number);
        let late = mail.number < device.newest[mail.sender.index()];
        device.newest[mail.sender.index()] = mail.number.max(device.newest[mail.sender.index()]);
        device.image = image;
        for (place, seen) in &mail.carries {
            device.seen[*place].unite(seen);
        }
        self.report.repeated += u64::from(again);
        self.report.late += u64::from(late && !again);
        let places: Vec<usize> = mail.carries.iter().map(|(place, _)| *place).collect();
        self.check_step(n, &places, again)
    }

    fn strip_pass(&mut self, n: Controller) -> Outcome {
        self.log.push(format!("strip pass {}", n.number()));
        let mut image = self.device(n).image.clone();
        let answer = self.store.strip_pass(&mut image);
        self.count("strip_pass", answer);
        let gone = answer.map_err(|refusal| format!("strip pass refused: {refusal:?}"))?;
        let before = self.device(n).state.points.len();
        self.device_mut(n).image = image;
        self.check_step(n, &[], true)?;
        if before - self.device(n).state.points.len() != gone as usize {
            return Err("the strip pass counted wrongly".into());
        }
        Ok(())
    }

    /// A whole round: ask, reply, repair, unless something on the way gets lost.
    fn round(&mut self, n: Controller) -> Outcome {
        let others: Vec<Controller> =
            self.table.peers_of(n).filter(|&m| m != n && self.devices[m.index()].is_some()).collect();
        if others.is_empty() {
            return Ok(());
        }
        let other = *self.random.pick(&others);
        let Some(ask) = self.ask(n, other.number())? else { return Ok(()) };
        let Some(reply) = self.reply(other, &ask)? else { return Ok(()) };
        self.repair(n, &reply)
    }

    /// Puts a message under way, unless it is lost at once.
    fn send(
        &mut self,
        kind: MailKind,
        sender: Controller,
        addressee: Option<Controller>,
        bytes: Vec<u8>,
        carries: Vec<(usize, WriteSet)>,
    ) -> Option<Mail> {
        self.mails += 1;
        self.log.push(format!("    message {}", self.mails));
        if self.random.percent(self.weather.loss) {
            return None;
        }
        let mail = Mail { number: self.mails, kind, sender, addressee, bytes, carries };
        self.mail.push(mail.clone());
        let same_kind: Vec<usize> = (0..self.mail.len()).filter(|&place| self.mail[place].kind == kind).collect();
        if same_kind.len() > UNDER_WAY {
            let lost = *self.random.pick(&same_kind);
            self.mail.remove(lost);
        }
        Some(mail)
    }

    /// After an accepted step on a controller: the image is good, and every reading of its jobs' points is exactly right.
    /// `places` are the points of which it may have seen more; where the step must change no reading, what was expected
    /// before it is expected still.
    fn check_step(&mut self, n: Controller, places: &[usize], no_change: bool) -> Outcome {
        let device = self.devices[n.index()].as_mut().expect("started");
        device.state = image::decode(&device.image).ok_or("the image is not good any more")?;
        for &place in places {
            let shown = demanded(&self.writes[place], &device.seen[place]);
            if no_change && shown != device.expected[place] {
                return Err("a repeated message made more seen".into());
            }
            device.expected[place] = shown;
            for number in device.seen[place].numbers() {
                let write = &self.writes[place][number];
                let is_covered = !device.expected[place].iter().any(|(dot, _)| *dot == write.dot)
                    && write.content != Content::Deleted;
                if is_covered && !device.covered[place].contains(number) {
                    device.covered[place].insert(number);
                    self.report.covered += 1;
                }
            }
        }
        let full = [device.state.points.len(), device.state.own_dots.len(), device.state.foreign_dots.len()];
        for (most, now) in self.report.full.iter_mut().zip(full) {
            *most = now.max(*most);
        }
        self.check_readings(n)
    }

    fn check_readings(&mut self, n: Controller) -> Outcome {
        for place in self.held_points(n) {
            let device = self.devices[n.index()].as_ref().expect("started");
            let point = self.points[place];
            let versions = steps::read(&device.state, point).versions;
            let shown: Shown = versions
                .into_iter()
                .filter_map(|(dot, content)| match content {
                    Content::Value(value) => Some((dot, value)),
                    Content::Deleted => None,
                })
                .collect();
            self.report.readings += 1;
            self.report.versions = self.report.versions.max(shown.len());
            if shown != device.expected[place] {
                let expected = &device.expected[place];
                return Err(format!("{} shows of {point} {shown:?}, must show {expected:?}", n.number()));
            }
            // "What it has once seen deleted it never shows again."
            for number in device.covered[place].numbers() {
                let dot = self.writes[place][number].dot;
                if shown.iter().any(|(other, _)| *other == dot) {
                    return Err(format!("{} shows {dot} of {point} again", n.number()));
                }
            }
        }
        // One of them through the call itself.
        let held = self.held_points(n);
        if held.is_empty() {
            return Ok(());
        }
        let place = *self.random.pick(&held);
        let point = self.points[place];
        let device = self.device(n);
        let mut out = vec![0; 512];
        let answer = self.store.read(&device.image, point.job.number(), point.number.number(), &mut out);
        answer.map_err(|refusal| format!("read refused: {refusal:?}"))?;
        let (shown, _) = reading_of(&out, point, n)?;
        if shown != device.expected[place] {
            return Err(format!("{} reads of {point} {shown:?}, must read {:?}", n.number(), device.expected[place]));
        }
        Ok(())
    }

    /// "no own counter runs more than 60 ahead of a peer's base".
    fn check_ahead(&mut self, n: Controller) -> Outcome {
        let own = self.device(n).state.own_base().0;
        for m in self.table.peers_of(n) {
            let theirs = match &self.devices[m.index()] {
                Some(device) => device.state.clock.row(n).base().0,
                None => u64::from(self.first_base),
            };
            let ahead = own - theirs;
            self.report.ahead = self.report.ahead.max(ahead);
            if ahead > MOST_AHEAD {
                return Err(format!("{} is {ahead} ahead of {}", n.number(), m.number()));
            }
        }
        Ok(())
    }
}

/// "exactly the values of seen writes that no seen write covers", by the words.
fn demanded(writes: &[Write], seen: &WriteSet) -> Shown {
    let seen: Vec<&Write> = seen.numbers().map(|number| &writes[number]).collect();
    let mut shown: Shown = seen
        .iter()
        .filter_map(|write| match write.content {
            Content::Value(value) => Some((*write, value)),
            Content::Deleted => None,
        })
        .filter(|(write, _)| !seen.iter().rev().any(|other| other.covers(write)))
        .map(|(write, value)| (write.dot, value))
        .collect();
    shown.sort_by_key(|(dot, _)| *dot);
    shown
}

/// What a block of kind 7 shows, and its context, read off its bytes.
fn reading_of(block: &[u8], point: Point, reader: Controller) -> Result<(Shown, [u32; EIGHT]), String> {
    let number = |at: usize| u32::from_le_bytes(block[at..at + 4].try_into().expect("four bytes"));
    let same_point = block[4] == point.job.number() && block[6..8] == point.number.number().to_le_bytes();
    if block[0] != 7 || !same_point || block[296] != reader.number() || !crate::block::check_is_right(block) {
        return Err("a reading's block is not in order".into());
    }
    let mut shown = Shown::new();
    for slot in 0..usize::from(block[5]) {
        let at = 40 + 32 * slot;
        let dot = Dot::new(block[at], number(at + 4)).ok_or("a reading shows no dot")?;
        let value = block.get(at + 8..at + 8 + usize::from(block[at + 1])).and_then(Value::new);
        shown.push((dot, value.ok_or("a reading shows a deleted version")?));
    }
    Ok((shown, std::array::from_fn(|n| number(8 + 4 * n))))
}

fn unchanged(before: &[u8], after: &[u8]) -> Outcome {
    if before == after {
        Ok(())
    } else {
        Err("a refused call changed a lent byte".into())
    }
}

fn refused_with(answer: Result<(), Refusal>, due: Refusal) -> Outcome {
    if answer == Err(due) {
        Ok(())
    } else {
        Err(format!("answered {answer:?}, due was {due:?}"))
    }
}
