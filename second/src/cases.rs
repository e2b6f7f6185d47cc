//! The case maker: streams of recorded calls. First the examples and one case for every refusal, every pair of refusals and
//! every flaw; then, for as long as wanted, crews at work with made-up, damaged and composed cases in between.

use crate::block::{mend, BLOCK};
use crate::call::{Call, Op};
use crate::compose::{compose, possible, sets_of_two, Wanted};
use crate::crew::{Shape, Weather};
use crate::flaws::{self, flawed_image_block, image_flaws, ANY_BLOCK, POINT_BLOCK};
use crate::image::{self, IMAGE};
use crate::madeup::{good_state, held_jobs, some_ask, some_controller, some_outgoing, some_point, some_reply};
use crate::names::{Controller, Counter, Point, EIGHT};
use crate::random::Random;
use crate::state::State;
use crate::steps::LONGEST_REPLY;
use crate::store::Store;
use crate::stream::{Answers, Recorder, SlotCall, NO_SLOT, SLOT_BYTES};
use crate::table::Table;
use std::collections::BTreeSet;
use std::io::{self, Write};

/// Which slot is used for what.
mod slot {
    /// Controller n's image stands in slot n - 1.
    pub const MESSAGES: u8 = 8;
    pub const MESSAGES_COUNT: u8 = 24;
    pub const ASKS: u8 = 32;
    pub const ASKS_COUNT: u8 = 8;
    pub const REPLIES: u8 = 40;
    pub const REPLIES_COUNT: u8 = 8;
    /// The long buffer that replies are written to. It is never cleared, so it is full of old replies.
    pub const REPLY_OUT: u8 = 48;
    pub const READING: u8 = 49;
    pub const VALUE: u8 = 50;
    pub const CONTEXT: u8 = 51;
    pub const TABLE: u8 = 52;
    /// For calls off the crew's path.
    pub const IMAGE: u8 = 53;
    pub const INPUT: u8 = 54;
    pub const OUT: u8 = 55;
    pub const LONG_OUT: u8 = 56;
}

/// Writes a stream of that many calls and hands back how many of them gave which answer.
pub fn cases(store: &dyn Store, seed: u64, count: u64, out: impl Write) -> io::Result<Answers> {
    let recorder = Recorder::new(store, out)?;
    let mut maker = Maker { recorder, random: Random::new(seed), count };
    maker.prepare()?;
    maker.examples()?;
    maker.one_of_each()?;
    while maker.more() {
        maker.crew()?;
    }
    maker.recorder.end()
}

struct Maker<'a, W: Write> {
    recorder: Recorder<'a, W>,
    random: Random,
    count: u64,
}

/// A message in a slot, and where it came from.
#[derive(Clone, Copy)]
struct Mail {
    slot: u8,
    sender: Controller,
    addressee: Option<Controller>,
}

/// A crew at work.
struct Crew {
    table: Table,
    points: Vec<Point>,
    weather: Weather,
    messages: Vec<Option<Mail>>,
    asks: Vec<Option<Mail>>,
    replies: Vec<Option<Mail>>,
    written: usize,
}

impl<W: Write> Maker<'_, W> {
    fn more(&self) -> bool {
        self.recorder.calls < self.count
    }

    /// A call, unless the stream has enough of them.
    fn call(&mut self, call: SlotCall) -> io::Result<Option<(u32, u32)>> {
        if !self.more() {
            return Ok(None);
        }
        self.recorder.call(call).map(Some)
    }

    /// Gives the buffers that calls write to some bytes of their own, which must be left alone wherever nothing is written.
    fn prepare(&mut self) -> io::Result<()> {
        for slot in (slot::MESSAGES..slot::REPLIES).chain([slot::READING, slot::OUT]) {
            self.recorder.put(slot, &[0xc3; BLOCK])?;
        }
        for slot in [slot::REPLY_OUT, slot::LONG_OUT] {
            self.recorder.put(slot, &[0x3c; LONGEST_REPLY])?;
        }
        Ok(())
    }

    /// K5 to K12, the eight and sixty writes, and the longest reply.
    fn examples(&mut self) -> io::Result<()> {
        let table = [3, 0, 0, 0, 0, 0, 0, 0];
        let (one, two) = (Controller::new(1).expect("1"), Controller::new(2).expect("2"));
        let context = |controller: usize, counter: u32| {
            let mut context = [0u32; EIGHT];
            context[controller - 1] = counter;
            context
        };
        let point = Point::new(0, 7).expect("in range");
        for (name, last) in [("K5, K6", 1), ("K7", 2), ("K8", 3)] {
            self.recorder.label(name)?;
            self.start(one, &table)?;
            for entry in [0, 0, last] {
                self.write(one, point, Some(b"x"), &context(1, entry), slot::MESSAGES)?;
                self.read(one, point)?;
            }
        }
        self.recorder.label("K9 to K12")?;
        self.start(one, &table)?;
        self.start(two, &table)?;
        self.write(one, point, Some(b"BASE"), &[0; EIGHT], slot::MESSAGES)?;
        self.take_in(two, slot::MESSAGES)?;
        self.write(one, point, None, &context(1, 1), slot::MESSAGES + 1)?;
        self.ask(two, 1, slot::ASKS)?;
        self.reply(one, slot::ASKS, slot::REPLIES)?;
        self.repair(two, slot::REPLIES)?;
        self.take_in(two, slot::MESSAGES)?;
        self.read(two, point)?;
        self.start(two, &table)?;
        self.take_in(two, slot::MESSAGES + 1)?;
        self.take_in(two, slot::MESSAGES)?;
        self.read(two, point)?;
        self.strip_pass(two)?;
        self.recorder.label("eight writes and the ninth")?;
        self.start(one, &table)?;
        for _ in 0..9 {
            self.write(one, point, Some(b""), &[0; EIGHT], slot::MESSAGES)?;
        }
        self.recorder.label("sixty covering writes and the sixty-first")?;
        self.start(one, &table)?;
        for counter in 0..61 {
            self.write(one, point, Some(&[7; 24]), &context(1, counter), slot::MESSAGES)?;
        }
        self.longest_reply()
    }

    /// Replies of 120 points: both lists full, each dot with a point of its own. They are deletions of points without record, of which any number
    /// fits an image. What 1 knows of 3 is more than 2 has heard, so each point that 3 could write to gets a record at 2 that says so: where that is
    /// all 120, there is no place for them; where it is 60, the repair is accepted. Then replies of fewer points and of none.
    fn longest_reply(&mut self) -> io::Result<()> {
        let [one, two, three] = [1, 2, 3].map(|n| Controller::new(n).expect("in range"));
        for (name, jobs, job_of_three) in
            [("a reply of 120 points, too many", [7, 0], 0), ("a reply of 120 points", [3, 7], 1)]
        {
            self.recorder.label(name)?;
            let table = [jobs[0], jobs[1], 0, 0, 0, 0, 0, 0];
            for n in [one, two, three] {
                self.start(n, &table)?;
            }
            for number in 1..=60 {
                let ours = Point::new(0, number).expect("in range");
                let theirs = Point::new(job_of_three, 60 + number).expect("in range");
                self.write(three, theirs, None, &[0; EIGHT], slot::MESSAGES)?;
                self.take_in(one, slot::MESSAGES)?;
                self.write(one, ours, None, &[0; EIGHT], slot::MESSAGES)?;
            }
            for (asked, asks) in
                [(one, two), (three, two), (one, two), (one, three), (three, one), (two, one), (one, two)]
            {
                self.ask(asks, asked.number(), slot::ASKS)?;
                self.reply(asked, slot::ASKS, slot::REPLIES)?;
                self.repair(asks, slot::REPLIES)?;
            }
        }
        Ok(())
    }

    /// For each call no refusal, each refusal and each pair of them; each image flaw; each message flaw.
    fn one_of_each(&mut self) -> io::Result<()> {
        for op in Op::ALL {
            for wanted in sets_of_two(op) {
                self.composed(op, &wanted)?;
            }
        }
        for (name, flaw) in image_flaws() {
            self.flawed_image(name, flaw)?;
        }
        for flaw in ANY_BLOCK {
            self.flawed_image(flaw.0, |random, state| flawed_image_block(random, state, flaw, false))?;
        }
        for flaw in ANY_BLOCK.iter().chain(POINT_BLOCK) {
            self.flawed_image(flaw.0, |random, state| flawed_image_block(random, state, flaw, true))?;
        }
        for op in [Op::TakeIn, Op::Reply, Op::Repair] {
            let mut names = BTreeSet::new();
            while names.len() < flaws::ill_forms(op) {
                let state = good_state(&mut self.random);
                if let Some((bytes, name)) = flaws::ill_formed(&mut self.random, op, &state) {
                    if names.insert(name) {
                        self.message(op, &state, bytes, name)?;
                    }
                }
            }
        }
        Ok(())
    }

    /// Some call on an image with this flaw.
    fn flawed_image(&mut self, name: &str, flaw: impl Fn(&mut Random, &State) -> Option<Vec<u8>>) -> io::Result<()> {
        let image = loop {
            let state = good_state(&mut self.random);
            if let Some(image) = flaw(&mut self.random, &state) {
                break image;
            }
        };
        self.recorder.label(&format!("image flaw: {name}"))?;
        self.recorder.put(slot::IMAGE, &image)?;
        self.any_call_on_scratch_image()
    }

    // Calls on the crew's slots.

    fn image_slot(n: Controller) -> u8 {
        n.index() as u8
    }

    fn plain(op: Op, image: u8) -> SlotCall {
        SlotCall { op, number: 0, point: 0, image, input: NO_SLOT, context: NO_SLOT, out: NO_SLOT }
    }

    fn start(&mut self, n: Controller, table: &[u8]) -> io::Result<()> {
        self.recorder.put(slot::TABLE, table)?;
        if self.recorder.slot(Self::image_slot(n)).len() != IMAGE {
            self.recorder.put(Self::image_slot(n), &[0xa5; IMAGE])?;
        }
        let call = SlotCall { number: n.number(), input: slot::TABLE, ..Self::plain(Op::Start, Self::image_slot(n)) };
        self.call(call).map(|_| ())
    }

    fn read(&mut self, n: Controller, point: Point) -> io::Result<()> {
        let call = SlotCall {
            number: point.job.number(),
            point: point.number.number(),
            out: slot::READING,
            ..Self::plain(Op::Read, Self::image_slot(n))
        };
        self.call(call).map(|_| ())
    }

    /// A write, or a deletion where there is no value; whether it was accepted.
    fn write(
        &mut self,
        n: Controller,
        point: Point,
        value: Option<&[u8]>,
        context: &[u32],
        out: u8,
    ) -> io::Result<bool> {
        self.recorder.put_counters(slot::CONTEXT, context)?;
        if let Some(value) = value {
            self.recorder.put(slot::VALUE, value)?;
        }
        let call = SlotCall {
            number: point.job.number(),
            point: point.number.number(),
            input: if value.is_some() { slot::VALUE } else { NO_SLOT },
            context: slot::CONTEXT,
            out,
            ..Self::plain(if value.is_some() { Op::Write } else { Op::Delete }, Self::image_slot(n))
        };
        Ok(self.call(call)?.is_some_and(|(answer, _)| answer == 0))
    }

    fn take_in(&mut self, n: Controller, message: u8) -> io::Result<()> {
        self.call(SlotCall { input: message, ..Self::plain(Op::TakeIn, Self::image_slot(n)) }).map(|_| ())
    }

    fn ask(&mut self, n: Controller, to: u8, out: u8) -> io::Result<bool> {
        let call = SlotCall { number: to, out, ..Self::plain(Op::Ask, Self::image_slot(n)) };
        Ok(self.call(call)?.is_some_and(|(answer, _)| answer == 0))
    }

    /// A reply, written to the long buffer and, where accepted, cut out of it into a slot of its own.
    fn reply(&mut self, n: Controller, ask: u8, to: u8) -> io::Result<bool> {
        if self.random.percent(3) {
            let length = self.random.between(LONGEST_REPLY, SLOT_BYTES);
            self.recorder.resize(slot::REPLY_OUT, *self.random.pick(&[LONGEST_REPLY, LONGEST_REPLY + 1, length]))?;
        }
        let call = SlotCall { input: ask, out: slot::REPLY_OUT, ..Self::plain(Op::Reply, Self::image_slot(n)) };
        match self.call(call)? {
            Some((0, count)) => {
                self.recorder.copy(to, slot::REPLY_OUT)?;
                self.recorder.resize(to, (1 + count as usize) * BLOCK)?;
                Ok(true)
            }
            _ => Ok(false),
        }
    }

    fn repair(&mut self, n: Controller, reply: u8) -> io::Result<()> {
        self.call(SlotCall { input: reply, ..Self::plain(Op::Repair, Self::image_slot(n)) }).map(|_| ())
    }

    fn strip_pass(&mut self, n: Controller) -> io::Result<()> {
        self.call(Self::plain(Op::StripPass, Self::image_slot(n))).map(|_| ())
    }

    // Crews.

    /// A crew's life: a table, fresh images, some hundred steps, and other cases in between.
    fn crew(&mut self) -> io::Result<()> {
        let shape = self.random.pick(&Shape::ALL).1;
        let table = shape.table(&mut self.random);
        let mut crew = Crew {
            table,
            points: shape.points(&table, &mut self.random),
            weather: Weather::any(&mut self.random),
            messages: vec![None; usize::from(slot::MESSAGES_COUNT)],
            asks: vec![None; usize::from(slot::ASKS_COUNT)],
            replies: vec![None; usize::from(slot::REPLIES_COUNT)],
            written: 0,
        };
        self.recorder.label(&format!("crew {}", shape.name()))?;
        for n in Controller::all() {
            self.start(n, &table.0)?;
        }
        let first_base = shape.first_base(&mut self.random);
        if first_base > 0 {
            self.advance(&crew, first_base)?;
        }
        let active: Vec<Controller> = Controller::all().filter(|&n| table.in_some_job(n)).collect();
        for _ in 0..self.random.between(200, 1500) {
            if !self.more() {
                break;
            }
            let n = if active.is_empty() || self.random.percent(1) {
                some_controller(&mut self.random)
            } else {
                *self.random.pick(&active)
            };
            if self.random.percent(18) {
                self.excursion(&crew, n)?;
                self.recorder.label(&format!("crew {}", shape.name()))?;
            } else {
                self.crew_step(&mut crew, n)?;
            }
        }
        Ok(())
    }

    /// Puts every row and watermark up to a first base, as though that much had been written and forgotten.
    fn advance(&mut self, crew: &Crew, first_base: u32) -> io::Result<()> {
        for own in Controller::all() {
            let Some(mut state) = self.state(own) else { continue };
            let base = Counter::from(first_base);
            for n in crew.table.peers_of(own).filter(|&n| crew.table.in_some_job(n)) {
                state.clock.0[n.index()] = crate::row::Row::up_to(base);
                for m in crew.table.peers_of(n).filter(|&m| crew.table.peers(own, m)) {
                    state.watermark[m.index()][n.index()] = base;
                }
            }
            self.recorder.put(Self::image_slot(own), &image::encode(&state))?;
        }
        Ok(())
    }

    fn state(&self, n: Controller) -> Option<State> {
        let bytes = self.recorder.slot(Self::image_slot(n));
        (bytes.len() == IMAGE).then(|| image::decode(bytes)).flatten()
    }

    fn crew_step(&mut self, crew: &mut Crew, n: Controller) -> io::Result<()> {
        match crew.weather.choose(&mut self.random) {
            step @ (0 | 1) => {
                let burst = step == 0 && self.random.percent(crew.weather.burst);
                for _ in 0..if burst { self.random.between(5, 70) } else { 1 } {
                    self.crew_write(crew, n, step == 1)?;
                }
                Ok(())
            }
            2 => {
                let astray = self.random.percent(3);
                let fits = |mail: &Mail| astray || mail.sender != n && self.is_of_our_job(mail.slot, n, &crew.table);
                let fitting: Vec<Mail> = crew.messages.iter().flatten().copied().filter(fits).collect();
                if fitting.is_empty() {
                    return Ok(());
                }
                let mail = *self.random.pick(&fitting);
                self.take_in(n, mail.slot)
            }
            3 => {
                let Some(&point) = self.some_of(&crew.points) else { return Ok(()) };
                self.read(n, point)
            }
            4 => self.crew_ask(crew, n).map(|_| ()),
            5 => {
                let Some(mail) = self.some_mail(&crew.asks, n) else { return Ok(()) };
                self.crew_reply(crew, n, mail).map(|_| ())
            }
            6 => {
                let Some(mail) = self.some_mail(&crew.replies, n) else { return Ok(()) };
                self.repair(n, mail.slot)
            }
            7 => self.strip_pass(n),
            _ => {
                let Some(ask) = self.crew_ask(crew, n)? else { return Ok(()) };
                let Some(other) = ask.addressee else { return Ok(()) };
                let Some(reply) = self.crew_reply(crew, other, ask)? else { return Ok(()) };
                self.repair(n, reply.slot)
            }
        }
    }

    fn some_of<'t, T>(&mut self, items: &'t [T]) -> Option<&'t T> {
        if items.is_empty() {
            None
        } else {
            Some(self.random.pick(items))
        }
    }

    fn is_of_our_job(&self, message: u8, n: Controller, table: &Table) -> bool {
        let job = self.recorder.slot(message)[4];
        held_jobs(table, n).iter().any(|held| held.number() == job)
    }

    /// A letter to us, or now and then to somebody else.
    fn some_mail(&mut self, mails: &[Option<Mail>], n: Controller) -> Option<Mail> {
        let astray = self.random.percent(5);
        let fitting: Vec<Mail> =
            mails.iter().flatten().copied().filter(|mail| astray || mail.addressee == Some(n)).collect();
        self.some_of(&fitting).copied()
    }

    fn crew_write(&mut self, crew: &mut Crew, n: Controller, delete: bool) -> io::Result<()> {
        let Some(state) = self.state(n) else { return Ok(()) };
        let held: Vec<Point> = crew.points.iter().copied().filter(|point| crew.table.holds(n, point.job)).collect();
        let astray = self.random.percent(1);
        let Some(&point) = self.some_of(if astray { &crew.points } else { &held }) else { return Ok(()) };
        let mut context = state.filled(point).context.0.map(Counter::to_u32);
        if !self.random.percent(crew.weather.covering) {
            match self.random.below(4) {
                0 => context = [0; EIGHT],
                1 => {
                    let entry = self.random.below(EIGHT);
                    context[entry] = context[entry].saturating_add(1);
                }
                _ => {
                    for entry in &mut context {
                        *entry = entry.saturating_sub(*self.random.pick(&[0, 0, 1, 3, 1000]));
                    }
                }
            }
        }
        let longest = if self.random.percent(2) { 40 } else { 24 };
        let length = self.random.between(0, longest);
        let value: Vec<u8> = (0..length).map(|_| self.random.below(256) as u8).collect();
        let place = crew.written % crew.messages.len();
        let slot = slot::MESSAGES + place as u8;
        if self.write(n, point, (!delete).then_some(&value), &context, slot)? {
            crew.written += 1;
            crew.messages[place] = Some(Mail { slot, sender: n, addressee: None });
        }
        Ok(())
    }

    fn crew_ask(&mut self, crew: &mut Crew, n: Controller) -> io::Result<Option<Mail>> {
        let others: Vec<u8> = crew.table.peers_of(n).filter(|&m| m != n).map(Controller::number).collect();
        let astray = self.random.percent(3);
        let to = match self.some_of(&others) {
            Some(to) if !astray => *to,
            _ => self.random.between(0, 9) as u8,
        };
        let place = self.random.below(crew.asks.len());
        let mail = Mail { slot: slot::ASKS + place as u8, sender: n, addressee: Controller::new(to) };
        if self.ask(n, to, mail.slot)? {
            crew.asks[place] = Some(mail);
            return Ok(Some(mail));
        }
        Ok(None)
    }

    fn crew_reply(&mut self, crew: &mut Crew, n: Controller, ask: Mail) -> io::Result<Option<Mail>> {
        let place = self.random.below(crew.replies.len());
        let mail = Mail { slot: slot::REPLIES + place as u8, sender: n, addressee: Some(ask.sender) };
        if self.reply(n, ask.slot, mail.slot)? {
            crew.replies[place] = Some(mail);
            return Ok(Some(mail));
        }
        Ok(None)
    }

    // Off the crew's path: all of this works on a scratch image.

    fn excursion(&mut self, crew: &Crew, n: Controller) -> io::Result<()> {
        match self.random.below(12) {
            0 | 1 => self.damaged_message(crew, n),
            2 => self.damaged_image(n),
            3..=5 => {
                let op = *self.random.pick(&Op::ALL);
                let share = *self.random.pick(&[5, 10, 20, 60]);
                let wanted: Wanted = op.refusals().iter().copied().filter(|_| self.random.percent(share)).collect();
                if possible(op, &wanted) {
                    self.composed(op, &wanted)
                } else {
                    Ok(())
                }
            }
            6..=8 => self.made_up(),
            9 => {
                let state = match self.state(n) {
                    Some(state) if self.random.percent(50) => state,
                    _ => good_state(&mut self.random),
                };
                let flaw = flaws::bad_image(&mut self.random, &state);
                self.recorder.label("some image flaw")?;
                self.recorder.put(slot::IMAGE, &flaw)?;
                self.any_call_on_scratch_image()
            }
            _ => self.flawed_message(),
        }
    }

    /// Records a composed call.
    fn composed(&mut self, op: Op, wanted: &Wanted) -> io::Result<()> {
        let call = compose(&mut self.random, op, wanted);
        let numbers: Vec<String> = wanted.iter().map(|refusal| refusal.number().to_string()).collect();
        self.recorder.label(&format!("composed: {} {}", op.name(), numbers.join(" ")))?;
        self.whole_call(&call)
    }

    /// Records a call with all its buffers.
    fn whole_call(&mut self, call: &Call) -> io::Result<()> {
        let op = call.op;
        let out = if op == Op::Reply { slot::LONG_OUT } else { slot::OUT };
        self.recorder.put(slot::IMAGE, &call.image)?;
        if op.has_input() {
            self.recorder.put(slot::INPUT, &call.input)?;
        }
        if op.has_context() {
            self.recorder.put_counters(slot::CONTEXT, &call.context)?;
        }
        if op.has_out() && self.recorder.slot(out).len() != call.out.len() {
            self.recorder.resize(out, call.out.len())?;
        }
        let slots = SlotCall {
            op,
            number: call.number,
            point: call.point,
            image: slot::IMAGE,
            input: if op.has_input() { slot::INPUT } else { NO_SLOT },
            context: if op.has_context() { slot::CONTEXT } else { NO_SLOT },
            out: if op.has_out() { out } else { NO_SLOT },
        };
        self.call(slots)?;
        Ok(())
    }

    /// Copies a crew's image to the scratch slot.
    fn scratch_image(&mut self, n: Controller) -> io::Result<()> {
        self.recorder.copy(slot::IMAGE, Self::image_slot(n))
    }

    /// A crew's message with some bits flipped, with and without a right check.
    fn damaged_message(&mut self, crew: &Crew, n: Controller) -> io::Result<()> {
        let all: Vec<(Op, Mail)> = (crew.messages.iter().flatten().map(|mail| (Op::TakeIn, *mail)))
            .chain(crew.asks.iter().flatten().map(|mail| (Op::Reply, *mail)))
            .chain(crew.replies.iter().flatten().map(|mail| (Op::Repair, *mail)))
            .collect();
        let Some(&(op, mail)) = self.some_of(&all) else { return Ok(()) };
        let n = mail.addressee.unwrap_or(n);
        self.recorder.label("damaged message")?;
        self.scratch_image(n)?;
        let mut bytes = self.recorder.slot(mail.slot).to_vec();
        if self.random.percent(10) {
            let length = self.random.between(0, bytes.len() + 600).min(SLOT_BYTES);
            bytes.resize(length, 0);
        } else {
            let block = self.random.below(bytes.len() / BLOCK);
            let block = &mut bytes[block * BLOCK..(block + 1) * BLOCK];
            self.flip(block);
        }
        self.recorder.put(slot::INPUT, &bytes)?;
        let out = if op == Op::Reply { slot::LONG_OUT } else { NO_SLOT };
        if op == Op::Reply && self.recorder.slot(out).len() < LONGEST_REPLY {
            self.recorder.resize(out, LONGEST_REPLY)?;
        }
        self.call(SlotCall { input: slot::INPUT, out, ..Self::plain(op, slot::IMAGE) })?;
        Ok(())
    }

    /// Flips some bits of a block, mostly where something stands, and mostly puts the check right.
    fn flip(&mut self, block: &mut [u8]) {
        for _ in 0..*self.random.pick(&[1, 1, 1, 2, 3]) {
            let limit = *self.random.pick(&[16, 48, 112, 300, BLOCK]);
            let at = self.random.below(limit);
            block[at] ^= 1 << self.random.below(8);
        }
        if self.random.percent(75) {
            mend(block);
        }
    }

    /// A crew's image with some bits flipped, with and without a right check.
    fn damaged_image(&mut self, n: Controller) -> io::Result<()> {
        self.recorder.label("damaged image")?;
        self.scratch_image(n)?;
        let mut bytes = self.recorder.slot(slot::IMAGE).to_vec();
        if bytes.len() != IMAGE {
            return Ok(());
        }
        let block = *self.random.pick(&[0, 0, 1, 2, 3, 3, 4, 5, 66]);
        self.flip(&mut bytes[block * BLOCK..(block + 1) * BLOCK]);
        self.recorder.put(slot::IMAGE, &bytes)?;
        self.any_call_on_scratch_image()
    }

    /// Any call on whatever stands in the scratch slot.
    fn any_call_on_scratch_image(&mut self) -> io::Result<()> {
        let image = self.recorder.slot(slot::IMAGE).to_vec();
        let op = *self.random.pick(&Op::ALL[1..]);
        let mut call = compose(&mut self.random, op, &Wanted::new());
        call.image = image;
        self.whole_call(&call)
    }

    /// A made-up good image, and some calls on it.
    fn made_up(&mut self) -> io::Result<()> {
        self.recorder.label("made-up image")?;
        let state = good_state(&mut self.random);
        self.recorder.put(slot::IMAGE, &image::encode(&state))?;
        for _ in 0..self.random.between(1, 8) {
            let bytes = self.recorder.slot(slot::IMAGE).to_vec();
            let Some(state) = image::decode(&bytes) else { return Ok(()) };
            let op = *self.random.pick(&Op::ALL[1..]);
            let mut call = Call::on(op, bytes);
            let point = some_point(&mut self.random, &state);
            if let Some(point) = point {
                (call.number, call.point) = (point.job.number(), point.number.number());
            }
            if op.has_out() {
                call.out = vec![0; if op == Op::Reply { LONGEST_REPLY } else { BLOCK }];
            }
            match op {
                Op::Write | Op::Delete => {
                    let Some(point) = point else { continue };
                    let mut context = state.filled(point).context.0.map(Counter::to_u32);
                    for entry in &mut context {
                        *entry = entry.saturating_sub(*self.random.pick(&[0, 0, 0, 1, 5, u32::MAX]));
                    }
                    call.context = context.to_vec();
                    if op == Op::Write {
                        call.input = vec![0x11; self.random.between(0, 24)];
                    }
                }
                Op::TakeIn => {
                    let Some(message) = some_outgoing(&mut self.random, &state) else { continue };
                    call.input = message.encode().to_vec();
                }
                Op::Ask => call.number = some_controller(&mut self.random).number(),
                Op::Reply => call.input = some_ask(&mut self.random, &state).encode_ask().to_vec(),
                Op::Repair => call.input = some_reply(&mut self.random, &state).encode(),
                Op::Start | Op::Read | Op::StripPass => {}
            }
            self.whole_call(&call)?;
        }
        Ok(())
    }

    /// An ill-formed message with right checks, to a made-up good image.
    fn flawed_message(&mut self) -> io::Result<()> {
        let state = good_state(&mut self.random);
        let op = *self.random.pick(&[Op::TakeIn, Op::Reply, Op::Repair]);
        match flaws::ill_formed(&mut self.random, op, &state) {
            Some((bytes, name)) => self.message(op, &state, bytes, name),
            None => Ok(()),
        }
    }

    /// A call that takes an ill-formed message.
    fn message(&mut self, op: Op, state: &State, bytes: Vec<u8>, name: &str) -> io::Result<()> {
        self.recorder.label(&format!("message flaw: {name}"))?;
        let mut call = Call::on(op, image::encode(state));
        call.input = bytes;
        if op == Op::Reply {
            call.out = vec![0; LONGEST_REPLY];
        }
        self.whole_call(&call)
    }
}
