//! The bytes that the calls are measured on. All are made by the second program from a fixed seed, so they are the same in every run
//! and for both programs. Every call on them is accepted.
//!
//! - empty: a fresh image of handheld 1 in a crew of four;
//! - typical: 20 points of 1 to 3 versions, 29 in all, two points deleted, 5 own and 13 foreign listed dots, one of a point without a record;
//! - full: 64 points of 8 versions of 24 bytes, four of them deleted eight times, 60 own and 60 foreign listed dots. A write or delete
//!   on 60 own dots is refused (14), so these two get the same image with 59;
//! - scattered: a full image, but with each controller's counters far apart, as after some thousand writes, and not in a row.

use crate::case::{Case, Name};
use second::block::BLOCK;
use second::calls;
use second::image;
use second::names::{Controller, Counter, Dot, Point};
use second::object::{Content, Object, Value};
use second::random::Random;
use second::row::Row;
use second::state::State;
use second::steps::LONGEST_REPLY;
use second::table::Table;
use std::collections::BTreeMap;

const SEED: u64 = 9;
const OWN: u8 = 1;
/// Who writes what is taken in, and is asked.
const PEER: u8 = 2;
/// The row with a gap, and who asks us.
const GAP: u8 = 3;
/// What stands in a buffer before the call writes to it.
const OLD: u8 = 0xa5;

#[derive(Clone, Copy, PartialEq, Eq)]
pub enum Size {
    Empty,
    Typical,
    Full,
    Scattered,
}

impl Size {
    fn is_full(self) -> bool {
        matches!(self, Size::Full | Size::Scattered)
    }
}

fn controller(number: u8) -> Controller {
    Controller::new(number).expect("1..8")
}

fn table(size: Size) -> Table {
    match size {
        Size::Empty | Size::Typical => Table([15, 15, 0, 0, 0, 0, 0, 0]),
        Size::Full | Size::Scattered => Table([255; 8]),
    }
}

/// The image of that size.
fn image_of(size: Size) -> Vec<u8> {
    let state = match size {
        Size::Empty => State::fresh(controller(OWN), table(size)),
        Size::Typical | Size::Full | Size::Scattered => filled_state(size),
    };
    let bytes = image::encode(&state);
    assert!(image::is_good(&bytes), "the prepared image");
    bytes
}

fn filled_state(size: Size) -> State {
    let full = size.is_full();
    let (least, apart) = if size == Size::Scattered { (70_000, 900) } else { (300, 1) };
    let (writers, jobs, points, deleted) = if full { (8, 8, 64, 4) } else { (4, 2, 20, 2) };
    let (own_listed, foreign_listed) = if full { (60, 60) } else { (5, 12) };
    let mut random = Random::new(SEED);
    let crew: Vec<Controller> = (1..=writers).map(controller).collect();
    let mut state = State::fresh(controller(OWN), table(size));
    for &n in &crew {
        state.clock.0[n.index()] = Row::up_to(Counter(least + random.below(1000) as u64));
    }
    let base = |state: &State, n: Controller| state.clock.row(n).base().0;

    // Two writes of one controller came before the one that is before them.
    let gap = controller(GAP);
    let ahead = base(&state, gap) + 2;
    for counter in [ahead, ahead + 1] {
        state.clock.add(Dot { controller: gap, counter: Counter(counter) });
    }
    let mut early = vec![ahead + 1, ahead];

    // How far back the next dot of each controller is.
    let mut back = [0u64; 8];
    for place in 0..points {
        let point = Point::new((place % jobs) as u8, 1 + 37 * place as u16).expect("in range");
        let gone = place >= points - deleted;
        let versions = if full { 8 } else { [1, 1, 2, 1, 1, 3, 1][place % 7] };
        let mut object = Object::default();
        for version in 0..versions {
            let n = crew[(place + version) % crew.len()];
            let mut counter = base(&state, n) - back[n.index()];
            if let Some(first) = early.last().filter(|_| n == gap && !gone) {
                // The base does not cover this one, so the context has to.
                counter = *first;
                object.context.raise(n, Counter(counter));
                early.pop();
            } else {
                back[n.index()] += random.between(1, apart) as u64;
            }
            let length = if full { 24 } else { random.between(6, 24) };
            let bytes: Vec<u8> = (0..length).map(|_| random.below(256) as u8).collect();
            let value = Content::Value(Value::new(&bytes).expect("24 at most"));
            let content = if gone { Content::Deleted } else { value };
            object.versions.insert(Dot { controller: n, counter: Counter(counter) }, content);
        }
        // An entry that the clock has caught up with: the strip pass has something to do, and the deleted ones go.
        if gone || place % 3 == 0 {
            let n = crew[place % crew.len()];
            object.context.raise(n, Counter(base(&state, n) - 1));
        }
        state.points.insert(point, object);
    }

    // The latest dots are listed.
    let homes: Vec<(Dot, Point)> =
        state.points.iter().flat_map(|(point, object)| object.versions.keys().map(|dot| (*dot, *point))).collect();
    let latest = |own: bool, many: usize| -> BTreeMap<Dot, Point> {
        let mut dots: Vec<_> = homes.iter().filter(|(dot, _)| (dot.controller == state.own) == own).copied().collect();
        dots.sort_by_key(|(dot, _)| {
            (base(&state, dot.controller) + 2 - dot.counter.0.min(base(&state, dot.controller) + 2), *dot)
        });
        dots.into_iter().take(many).collect()
    };
    let (own_dots, mut foreign_dots) = (latest(true, own_listed), latest(false, foreign_listed));
    assert_eq!((own_dots.len(), foreign_dots.len()), (own_listed, foreign_listed));
    if !full {
        let unstored = Dot { controller: controller(PEER), counter: Counter(base(&state, controller(PEER)) - 50) };
        foreign_dots.insert(unstored, Point::new(0, 999).expect("in range"));
    }
    (state.own_dots, state.foreign_dots) = (own_dots, foreign_dots);

    // The others are known to have all but the last few: a repair removes some of the listed dots.
    for &m in &crew {
        for &n in &crew {
            state.watermark[m.index()][n.index()] = Counter(base(&state, n) - 5);
        }
    }
    state
}

/// A peer that stores what this image does, and has nothing listed.
fn peer_of(bytes: &[u8]) -> Vec<u8> {
    let mut state = image::decode(bytes).expect("a good image");
    state.own = controller(PEER);
    state.own_dots.clear();
    state.foreign_dots.clear();
    state.watermark = Default::default();
    image::encode(&state)
}

/// What a handheld that wrote this image gives as context for a point: of a full one the dot of the version that it wrote itself, so that
/// eight versions stay; else all that it reads.
fn context_for(bytes: &[u8], size: Size, point: Point) -> [u32; 8] {
    let state = image::decode(bytes).expect("a good image");
    if !size.is_full() {
        return state.filled(point).context.0.map(Counter::to_u32);
    }
    let mut context = [0; 8];
    for dot in state.stored(point).versions.keys().filter(|dot| dot.controller == state.own) {
        context[state.own.index()] = dot.counter.to_u32();
    }
    context
}

/// Writes and hands back the message.
fn written(bytes: &mut [u8], size: Size, point: Point) -> Vec<u8> {
    let context = context_for(bytes, size, point);
    let mut out = vec![OLD; BLOCK];
    calls::write(bytes, point.job.number(), point.number.number(), &[7; 24], &context, &mut out)
        .expect("a peer's write");
    out
}

/// The stored points, but for those that are deleted.
fn stored_points(bytes: &[u8]) -> Vec<Point> {
    let state = image::decode(bytes).expect("a good image");
    state.points.iter().filter(|(_, object)| object.has_value()).map(|(point, _)| *point).collect()
}

/// The point that is read, written, deleted and taken in: a stored one from the middle where there is one.
fn middle(bytes: &[u8]) -> Point {
    let points = stored_points(bytes);
    points.get(points.len() / 2).copied().unwrap_or(Point::new(0, 7).expect("in range"))
}

/// The points that the peer writes before it replies: ten, of a typical image five stored and five new ones, of a full one all it can
/// list, 60.
fn peers_points(bytes: &[u8], size: Size) -> Vec<Point> {
    let new = |many: u16| (0..many).map(|number| Point::new(0, 2 + 300 * number).expect("in range"));
    let stored = stored_points(bytes);
    match size {
        Size::Empty => new(10).collect(),
        Size::Typical => stored.into_iter().step_by(3).take(5).chain(new(5)).collect(),
        Size::Full | Size::Scattered => stored,
    }
}

fn asked(bytes: &[u8], whom: u8) -> Vec<u8> {
    let mut out = vec![OLD; BLOCK];
    calls::ask(bytes, whom, &mut out).expect("an ask");
    out
}

/// The call on the image of that size.
pub fn case(name: Name, size: Size) -> Case {
    let mut bytes = image_of(size);
    let point = middle(&bytes);
    let mut case =
        Case { name, number: 0, point: 0, image: Vec::new(), input: Vec::new(), context: [0; 8], out: Vec::new() };
    match name {
        Name::Good | Name::StripPass => {}
        Name::Start => {
            case.number = OWN;
            case.input = table(size).0.to_vec();
        }
        Name::Read | Name::Write | Name::Delete => {
            case.number = point.job.number();
            case.point = point.number.number();
            case.out = vec![OLD; BLOCK];
            if name != Name::Read {
                case.input = if name == Name::Write { vec![8; 24] } else { Vec::new() };
                case.context = context_for(&bytes, size, point);
                if size.is_full() {
                    let mut state = image::decode(&bytes).expect("a good image");
                    state.own_dots.pop_first();
                    bytes = image::encode(&state);
                }
            }
        }
        Name::TakeIn => case.input = written(&mut peer_of(&bytes), size, point),
        Name::Ask => {
            case.number = PEER;
            case.out = vec![OLD; BLOCK];
        }
        Name::Reply => {
            // One who has seen nothing: every listed dot is news to him.
            let fresh = image::encode(&State::fresh(controller(GAP), table(size)));
            case.input = asked(&fresh, OWN);
            case.out = vec![OLD; LONGEST_REPLY];
        }
        Name::Repair => {
            let mut peer = peer_of(&bytes);
            for point in peers_points(&bytes, size) {
                written(&mut peer, size, point);
            }
            let mut out = vec![OLD; LONGEST_REPLY];
            let points = calls::reply(&peer, &asked(&bytes, PEER), &mut out).expect("a reply");
            out.truncate(BLOCK * (1 + points as usize));
            case.input = out;
        }
    }
    case.image = bytes;
    case
}

#[cfg(test)]
mod tests {
    use super::*;
    use crate::case::Maker;

    fn shape(bytes: &[u8]) -> (usize, usize, usize, usize) {
        let state = image::decode(bytes).expect("a good image");
        let versions = state.points.values().map(|object| object.versions.len()).sum();
        (state.points.len(), versions, state.own_dots.len(), state.foreign_dots.len())
    }

    #[test]
    fn the_images_are_as_they_are_said_to_be() {
        assert_eq!(shape(&image_of(Size::Empty)), (0, 0, 0, 0));
        assert_eq!(shape(&image_of(Size::Typical)), (20, 29, 5, 13));
        assert_eq!(shape(&image_of(Size::Full)), (64, 512, 60, 60));
        assert_eq!(shape(&image_of(Size::Scattered)), (64, 512, 60, 60));
    }

    /// What a call leaves of a full image: still eight versions of every point, so nothing is measured on less.
    #[test]
    fn a_full_image_stays_full() {
        for (name, own_dots) in [(Name::Write, 60), (Name::Delete, 60), (Name::TakeIn, 60)] {
            let mut case = case(name, Size::Full);
            let before = case.image.clone();
            assert_eq!(case.make(Maker::Second).0, 0);
            assert_eq!(shape(&case.image), (64, 512, own_dots, 60));
            assert!(before != case.image);
        }
        let mut case = case(Name::Repair, Size::Full);
        assert_eq!(case.make(Maker::Second).0, 0);
        let (points, versions, _, _) = shape(&case.image);
        assert_eq!((points, versions, case.input.len()), (64, 512, 61 * BLOCK));
    }

    #[test]
    fn messages_bring_versions() {
        let clock = |bytes: &[u8]| image::decode(bytes).expect("a good image").clock;
        for size in [Size::Empty, Size::Typical, Size::Full] {
            for name in [Name::TakeIn, Name::Repair] {
                let mut case = case(name, size);
                let before = clock(&case.image);
                assert_eq!(case.make(Maker::Second).0, 0);
                assert!(clock(&case.image) != before);
            }
        }
    }
}
