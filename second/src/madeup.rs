//! Made-up states and messages: good and well-formed, but such as no crew would bring about easily. They reach the odd
//! corners (unstripped contexts, full lists, 64 points, 8 versions, the last counters, rows at base + 64).

use crate::context::Context;
use crate::crew::Shape;
use crate::messages::{Letter, Outgoing, Reply};
use crate::names::{Controller, Counter, Dot, Job, Point, EIGHT};
use crate::object::{Content, Object, Value};
use crate::random::Random;
use crate::row::{Row, REACH};
use crate::state::{State, MOST_LISTED, MOST_POINTS, MOST_VERSIONS};
use crate::table::Table;
use std::collections::{BTreeMap, BTreeSet};

/// Any controller.
pub fn some_controller(random: &mut Random) -> Controller {
    Controller::new(random.between(1, EIGHT) as u8).expect("1..8")
}

/// Any content.
pub fn some_content(random: &mut Random) -> Content {
    if random.percent(25) {
        return Content::Deleted;
    }
    let length = *random.pick(&[0, 1, 4, 12, 23, 24]);
    let bytes: Vec<u8> = (0..length).map(|_| *random.pick(&[0, 1, 0x7f, 0xff, 0x42])).collect();
    Content::Value(Value::new(&bytes).expect("24 at most"))
}

/// Any row; without bits where it is an own one.
fn some_row(random: &mut Random, own: bool) -> Row {
    let base = match random.below(8) {
        0 => 0,
        1 | 2 => random.between(1, 10) as u64,
        3 | 4 => random.between(1, 300) as u64,
        5 => random.bits() % Counter::LAST.0,
        6 => Counter::LAST.0 - random.below(70) as u64,
        _ => *random.pick(&[Counter::LAST.0, 65535, 65536, 255, 256]),
    };
    let mut row = Row::up_to(Counter(base));
    if !own && random.percent(60) {
        for _ in 0..*random.pick(&[1, 1, 2, 5, 40]) {
            let counter = Counter(base + if random.percent(15) { REACH } else { random.between(2, 64) as u64 });
            if counter <= Counter::LAST {
                row = row.adding(counter);
            }
        }
    }
    row
}

/// A dot that is in the clock, of one of these controllers; the latest ones most often.
fn seen_dot(random: &mut Random, state: &State, controllers: &[Controller]) -> Option<Dot> {
    if controllers.is_empty() {
        return None;
    }
    let controller = *random.pick(controllers);
    let row = state.clock.row(controller);
    let beyond: Vec<Counter> = row.beyond().collect();
    let counter = if !beyond.is_empty() && random.percent(50) {
        *random.pick(&beyond)
    } else {
        Counter(row.base().0.saturating_sub(random.below(70) as u64))
    };
    row.contains(counter).then_some(Dot { controller, counter })
}

/// The holders of a job.
pub fn holders(table: &Table, job: Job) -> Vec<Controller> {
    Controller::all().filter(|&n| table.holds(n, job)).collect()
}

/// The jobs that a controller holds.
pub fn held_jobs(table: &Table, controller: Controller) -> Vec<Job> {
    Job::all().filter(|&job| table.holds(controller, job)).collect()
}

/// Any point of a held job; stored ones often.
pub fn some_point(random: &mut Random, state: &State) -> Option<Point> {
    if !state.points.is_empty() && random.percent(50) {
        let place = random.below(state.points.len());
        return state.points.keys().nth(place).copied();
    }
    any_point(random, state)
}

/// Any point of a held job, stored or not.
fn any_point(random: &mut Random, state: &State) -> Option<Point> {
    let jobs = held_jobs(&state.table, state.own);
    if jobs.is_empty() {
        return None;
    }
    let number = match random.below(4) {
        0 => random.between(1, 65535),
        1 => *random.pick(&[1, 255, 256, 65535]),
        _ => random.between(1, 100),
    };
    Point::new(random.pick(&jobs).number(), number as u16)
}

/// Any context over the holders of a job, own entries not above the own base.
fn some_context(random: &mut Random, state: &State, job: Job) -> Context {
    let mut context = Context::default();
    for n in holders(&state.table, job) {
        let base = state.clock.row(n).base().0;
        let entry = match random.below(12) {
            0 => base,
            1 => base.saturating_sub(random.below(5) as u64),
            2 if base > 0 => 1 + random.bits() % base,
            3 => base + random.between(1, 3) as u64,
            4 => base + random.between(1, 80) as u64,
            5 if random.percent(20) => Counter::LAST.0,
            _ => 0,
        };
        let most = if n == state.own { base } else { Counter::LAST.0 };
        context.raise(n, Counter(entry.min(most)));
    }
    context
}

/// A good state: any table, any rows, any records, lists and watermark that go with them.
pub fn good_state(random: &mut Random) -> State {
    let own = some_controller(random);
    let mut table = Shape::Any.table(random);
    if random.percent(95) {
        table.0[random.below(EIGHT)] |= 1 << own.index() | 1 << random.below(8) | 1 << random.below(8);
    }
    let mut state = State::fresh(own, table);
    for n in Controller::all().filter(|&n| table.peers(own, n)) {
        state.clock.0[n.index()] = some_row(random, n == own);
    }
    add_records(random, &mut state);
    add_lists(random, &mut state);
    for m in Controller::all().filter(|&m| table.peers(own, m)) {
        for n in Controller::all().filter(|&n| table.peers(own, n)) {
            let most = if m == own || n == own { state.clock.row(n).base() } else { Counter::LAST };
            let entry = match random.below(4) {
                0 => 0,
                1 => most.0,
                2 => state.clock.row(n).base().0.saturating_sub(random.below(70) as u64),
                _ => random.bits() % (most.0 + 1),
            };
            state.watermark[m.index()][n.index()] = Counter(entry.min(most.0));
        }
    }
    state
}

/// A good state with no room left: 64 points with that many versions each, 60 own and 60 foreign dots.
pub fn full_state(random: &mut Random, versions: usize) -> State {
    let own = some_controller(random);
    let mut state = State::fresh(own, Table([255; EIGHT]));
    for n in Controller::all() {
        // Room for an eighth of 64 times 8 version dots, and for 60 listed ones before those.
        let base = MOST_POINTS + MOST_LISTED + random.below(1000);
        state.clock.0[n.index()] = Row::up_to(Counter(base as u64));
    }
    let before_base = |state: &State, n: Controller, back: usize| {
        let counter = Counter(state.clock.row(n).base().0 - back as u64);
        Dot { controller: n, counter }
    };
    let mut dots = (0..).flat_map(|back| Controller::all().map(move |n| (n, back)));
    let mut home = BTreeMap::new();
    while state.points.len() < MOST_POINTS {
        let Some(point) = any_point(random, &state).filter(|point| !state.points.contains_key(point)) else { continue };
        let mut object = Object { context: some_context(random, &state, point.job), ..Object::default() };
        for (n, back) in dots.by_ref().take(versions) {
            let value = Value::new(&[random.below(256) as u8; 24]).expect("24 at most");
            let dot = before_base(&state, n, back);
            object.versions.insert(dot, Content::Value(value));
            home.insert(dot, point);
        }
        state.points.insert(point, object);
    }
    let points: Vec<Point> = state.points.keys().copied().collect();
    let offset = random.below(MOST_LISTED);
    let others: Vec<Controller> = Controller::all().filter(|&n| n != own).collect();
    for number in 0..MOST_LISTED {
        let ours = before_base(&state, own, offset + number);
        let theirs = before_base(&state, others[number % others.len()], offset + number / others.len());
        state.own_dots.insert(ours, *home.get(&ours).unwrap_or_else(|| random.pick(&points)));
        state.foreign_dots.insert(theirs, *home.get(&theirs).unwrap_or_else(|| random.pick(&points)));
    }
    state
}

fn add_records(random: &mut Random, state: &mut State) {
    let many = match random.below(8) {
        0 => 0,
        1 => MOST_POINTS,
        2 => random.between(50, 64),
        3 => random.between(5, 20),
        _ => random.between(1, 5),
    };
    let most_versions = *random.pick(&[1, 2, 2, 8]);
    let mut used = BTreeSet::new();
    for _ in 0..6 * many {
        if state.points.len() == many {
            break;
        }
        let Some(point) = any_point(random, state) else { return };
        if state.points.contains_key(&point) {
            continue;
        }
        let crew = holders(&state.table, point.job);
        let mut object = Object { context: some_context(random, state, point.job), ..Object::default() };
        for _ in 0..if random.percent(20) { MOST_VERSIONS } else { random.between(0, most_versions) } {
            let Some(dot) = seen_dot(random, state, &crew) else { continue };
            if !used.insert(dot) {
                continue;
            }
            object.versions.insert(dot, some_content(random));
            if dot.counter > state.clock.row(dot.controller).base() {
                object.context.raise(dot.controller, dot.counter);
            }
        }
        if object.has_value() || !object.context.is_empty() {
            state.points.insert(point, object);
        }
    }
}

fn add_lists(random: &mut Random, state: &mut State) {
    let mut home = BTreeMap::new();
    for (point, object) in &state.points {
        home.extend(object.versions.keys().map(|dot| (*dot, *point)));
    }
    for own in [true, false] {
        let many = *random.pick(&[0, 1, 3, 10, 59, MOST_LISTED, MOST_LISTED]);
        let mut dots = BTreeMap::new();
        for _ in 0..8 * many {
            if dots.len() == many {
                break;
            }
            let from_record = (!home.is_empty() && random.percent(30)).then(|| {
                let place = random.below(home.len());
                home.iter().nth(place).map(|(dot, point)| (*dot, *point)).expect("below the length")
            });
            let drawn = from_record.or_else(|| {
                let point = some_point(random, state)?;
                let mut listable = holders(&state.table, point.job);
                listable.retain(|&n| (n == state.own) == own);
                let dot = seen_dot(random, state, &listable)?;
                Some((dot, home.get(&dot).copied().unwrap_or(point)))
            });
            if let Some((dot, point)) = drawn.filter(|(dot, _)| (dot.controller == state.own) == own) {
                dots.entry(dot).or_insert(point);
            }
        }
        *if own { &mut state.own_dots } else { &mut state.foreign_dots } = dots;
    }
}

/// A dot that a message to this state could carry for a point: stored there, or seen long ago, or new, near or far.
fn message_dot(random: &mut Random, state: &State, point: Point) -> Option<(Dot, Content)> {
    let stored = state.stored(point).versions;
    if !stored.is_empty() && random.percent(35) {
        return stored.into_iter().nth(random.below(MOST_VERSIONS));
    }
    let crew = holders(&state.table, point.job);
    let controller = *random.pick(&crew);
    let row = state.clock.row(controller);
    let counter = match random.below(8) {
        0 => row.highest().next().0,
        1 => row.base().0 + random.between(60, 66) as u64,
        2 => row.base().0 + random.between(1, 64) as u64,
        3 => row.base().0.saturating_sub(random.below(5) as u64),
        _ => row.base().next().0,
    };
    let own_and_ahead = controller == state.own && Counter(counter) > row.base();
    if counter == 0 || Counter(counter) > Counter::LAST || own_and_ahead && random.percent(95) {
        return None;
    }
    Some((Dot { controller, counter: Counter(counter) }, some_content(random)))
}

/// An object for a message, well-formed when filled with this clock (kind 4: with none).
fn message_object(random: &mut Random, state: &State, point: Point, taken: &mut BTreeSet<Dot>) -> Object {
    let mut object = Object { context: some_context(random, state, point.job), ..Object::default() };
    for _ in 0..*random.pick(&[0, 1, 1, 2, 3, 8]) {
        if let Some((dot, content)) = message_dot(random, state, point).filter(|(dot, _)| taken.insert(*dot)) {
            object.versions.insert(dot, content);
            object.context.raise(dot.controller, dot.counter);
        }
    }
    object
}

/// Another peer of ours, mostly.
fn some_sender(random: &mut Random, state: &State) -> Controller {
    let others: Vec<Controller> = state.table.peers_of(state.own).filter(|&n| n != state.own).collect();
    if others.is_empty() || random.percent(3) {
        some_controller(random)
    } else {
        *random.pick(&others)
    }
}

/// A well-formed kind 4 message that mostly could come to this state.
pub fn some_outgoing(random: &mut Random, state: &State) -> Option<Outgoing> {
    let point = some_point(random, state)?;
    let object = message_object(random, state, point, &mut BTreeSet::new());
    let others: Vec<Controller> = holders(&state.table, point.job).into_iter().filter(|&n| n != state.own).collect();
    let sender = if others.is_empty() || random.percent(3) { some_controller(random) } else { *random.pick(&others) };
    Some(Outgoing { sender, point, object })
}

/// Rows that a peer could have: about ours, sometimes far off.
fn some_letter(random: &mut Random, state: &State) -> Letter {
    let sender = some_sender(random, state);
    let mut letter = Letter { sender, addressee: state.own, clock: state.clock.clone() };
    if random.percent(3) {
        letter.addressee = some_controller(random);
    }
    for n in Controller::all() {
        let row = &mut letter.clock.0[n.index()];
        let base = row.base().0;
        *row = match random.below(8) {
            _ if !state.table.in_some_job(n) => Row::default(),
            0 => Row::default(),
            1 if n != state.own => some_row(random, n == sender),
            2 if n != state.own || random.percent(5) => {
                Row::up_to(Counter((base + random.between(1, 5) as u64).min(Counter::LAST.0)))
            }
            3 => Row::up_to(Counter(base.saturating_sub(random.below(60) as u64))),
            4 if n == state.own && n != sender && base >= 4 => Row::up_to(Counter(base - 4)).adding(Counter(base)),
            _ if n == sender => Row::up_to(Counter(base)),
            _ => std::mem::take(row),
        };
    }
    letter
}

/// A well-formed ask that mostly could come to this state.
pub fn some_ask(random: &mut Random, state: &State) -> Letter {
    some_letter(random, state)
}

/// A well-formed reply that mostly could come to this state.
pub fn some_reply(random: &mut Random, state: &State) -> Reply {
    let head = some_letter(random, state);
    let mut points = BTreeMap::new();
    let mut taken = BTreeSet::new();
    for _ in 0..*random.pick(&[0, 1, 1, 2, 3, 10, 120]) {
        let Some(point) = some_point(random, state) else { break };
        let both_hold = state.table.holds(head.sender, point.job);
        if (both_hold || random.percent(1)) && !points.contains_key(&point) {
            let mut object = message_object(random, state, point, &mut taken);
            if random.percent(50) {
                // As a sender stores it: stripped with its own clock.
                object.context.strip(&head.clock);
            }
            points.insert(point, object);
        }
    }
    Reply { head, points }
}
