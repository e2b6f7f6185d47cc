//! All short runs of a tiny crew, not just random ones: every sequence of steps up to a given length, each held against the
//! same demand as in the simulator. It works on decoded states, so it is document 01's rules that are tried here, not the
//! blocks.

use crate::context::Context;
use crate::messages::{Letter, Outgoing, Reply};
use crate::names::{Controller, Dot, Point};
use crate::object::{Content, Value};
use crate::refusal::Refusal;
use crate::state::State;
use crate::steps;
use crate::table::Table;
use std::collections::hash_map::DefaultHasher;
use std::collections::HashMap;
use std::hash::{Hash, Hasher};

/// A tiny crew: its table, its controllers and points.
#[derive(Clone, Debug)]
pub struct Tiny {
    /// The table.
    pub table: Table,
    /// Controllers 1 to this number take part.
    pub controllers: u8,
    /// The points they use.
    pub points: Vec<Point>,
}

impl Tiny {
    /// The tiny crew of that name.
    pub fn named(name: &str) -> Option<Tiny> {
        let point = |job, number| Point::new(job, number).expect("in range");
        Some(match name {
            // Two controllers, two points of their job: a gap can come from the other point.
            "pair" => {
                Tiny { table: Table([3, 0, 0, 0, 0, 0, 0, 0]), controllers: 2, points: vec![point(0, 1), point(0, 2)] }
            }
            // Three controllers, one point: help of third controllers.
            "trio" => Tiny { table: Table([7, 0, 0, 0, 0, 0, 0, 0]), controllers: 3, points: vec![point(0, 1)] },
            // Three in a row: 1 and 3 are no peers, 2 has points that either does not hold.
            "chain" => {
                Tiny { table: Table([3, 6, 0, 0, 0, 0, 0, 0]), controllers: 3, points: vec![point(0, 1), point(1, 1)] }
            }
            _ => return None,
        })
    }
}

/// What was explored.
#[derive(Clone, Copy, Debug, Default, PartialEq, Eq)]
pub struct Explored {
    /// Steps taken and checked.
    pub steps: u64,
    /// Different situations met.
    pub situations: u64,
}

/// A set of writes, by number.
type Writes = u32;

/// A write: its point, dot, whether it has a value, and the context given with it.
#[derive(Clone, PartialEq, Eq, Hash, Debug)]
struct Write {
    point: Point,
    dot: Dot,
    content: Content,
    given: Context,
}

/// A crew in the middle of a run.
#[derive(Clone, PartialEq, Eq, Hash, Debug)]
struct Situation {
    states: Vec<State>,
    /// Per controller: the writes it has seen.
    seen: Vec<Writes>,
    writes: Vec<Write>,
    /// Each message with the writes that its taker sees.
    outgoing: Vec<(Outgoing, Writes)>,
    asks: Vec<Letter>,
    replies: Vec<(Reply, Writes)>,
}

/// One step of a run, in words that can be read as a run.
#[derive(Clone, Debug)]
enum Step {
    Write {
        by: usize,
        point: Point,
        delete: bool,
        covering: bool,
    },
    TakeIn {
        by: usize,
        message: usize,
    },
    Ask {
        by: usize,
        to: Controller,
    },
    Reply {
        by: usize,
        ask: usize,
    },
    Repair {
        by: usize,
        reply: usize,
    },
    /// Ask, reply and repair at once, so that short runs get further; both messages stay under way.
    Round {
        by: usize,
        with: usize,
    },
    StripPass {
        by: usize,
    },
}

/// Takes every run of that many steps. A run after which the demand does not hold is handed back in words.
pub fn explore(tiny: &Tiny, depth: u32) -> Result<Explored, String> {
    let numbers = (1..=tiny.controllers).filter_map(Controller::new);
    let start = Situation {
        states: numbers.map(|n| State::fresh(n, tiny.table)).collect(),
        seen: vec![0; usize::from(tiny.controllers)],
        writes: Vec::new(),
        outgoing: Vec::new(),
        asks: Vec::new(),
        replies: Vec::new(),
    };
    let mut explorer = Explorer { tiny, met: HashMap::new(), explored: Explored::default(), run: Vec::new() };
    explorer.from(&start, depth)?;
    explorer.explored.situations = explorer.met.len() as u64;
    Ok(explorer.explored)
}

struct Explorer<'a> {
    tiny: &'a Tiny,
    /// Situations met, by hash, and with how many steps left.
    met: HashMap<u64, u32>,
    explored: Explored,
    run: Vec<Step>,
}

impl Explorer<'_> {
    fn from(&mut self, situation: &Situation, left: u32) -> Result<(), String> {
        let mut hasher = DefaultHasher::new();
        situation.hash(&mut hasher);
        let met = self.met.entry(hasher.finish()).or_default();
        if left == 0 || *met >= left {
            return Ok(());
        }
        *met = left;
        for step in self.possible(situation) {
            self.run.push(step.clone());
            self.explored.steps += 1;
            let mut next = situation.clone();
            let outcome = take(&mut next, &step).and_then(|by| self.check(&next, by));
            outcome.map_err(|what| format!("{:#?}\n{what}", self.run))?;
            self.from(&next, left - 1)?;
            self.run.pop();
        }
        Ok(())
    }

    fn possible(&self, situation: &Situation) -> Vec<Step> {
        let mut steps = Vec::new();
        for (by, state) in situation.states.iter().enumerate() {
            for &point in self.tiny.points.iter().filter(|point| state.table.holds(state.own, point.job)) {
                steps.push(Step::Write { by, point, delete: false, covering: false });
                steps.push(Step::Write { by, point, delete: false, covering: true });
                steps.push(Step::Write { by, point, delete: true, covering: true });
            }
            let takes =
                |message: &Outgoing| message.sender != state.own && state.table.holds(state.own, message.point.job);
            let messages = situation.outgoing.iter().enumerate().filter(|(_, (message, _))| takes(message));
            steps.extend(messages.map(|(message, _)| Step::TakeIn { by, message }));
            for to in state.table.peers_of(state.own).filter(|&n| n != state.own) {
                steps.push(Step::Ask { by, to });
                steps.push(Step::Round { by, with: to.index() });
            }
            let asks = situation.asks.iter().enumerate().filter(|(_, ask)| ask.addressee == state.own);
            steps.extend(asks.map(|(ask, _)| Step::Reply { by, ask }));
            let replies =
                situation.replies.iter().enumerate().filter(|(_, (reply, _))| reply.head.addressee == state.own);
            steps.extend(replies.map(|(reply, _)| Step::Repair { by, reply }));
            if !state.points.is_empty() {
                steps.push(Step::StripPass { by });
            }
        }
        steps
    }

    /// The state is good, and for each point exactly the values of seen writes are shown that no seen write covers.
    fn check(&self, situation: &Situation, by: usize) -> Result<(), String> {
        let state = &situation.states[by];
        if !state.is_good() {
            return Err(format!("controller {} is not good", state.own.number()));
        }
        for &point in self.tiny.points.iter().filter(|point| state.table.holds(state.own, point.job)) {
            let is_seen = |number: &usize| situation.seen[by] >> number & 1 == 1;
            let seen: Vec<&Write> = (0..situation.writes.len())
                .filter(is_seen)
                .map(|number| &situation.writes[number])
                .filter(|write| write.point == point)
                .collect();
            let mut due: Vec<(Dot, Content)> = seen
                .iter()
                .filter(|write| write.content != Content::Deleted)
                .filter(|write| !seen.iter().any(|other| other.given.covers(write.dot)))
                .map(|write| (write.dot, write.content))
                .collect();
            due.sort_by_key(|(dot, _)| *dot);
            let shown: Vec<(Dot, Content)> = steps::read(state, point).versions.into_iter().collect();
            if shown != due {
                return Err(format!("{} shows of {point} {shown:?}, must show {due:?}", state.own.number()));
            }
        }
        Ok(())
    }
}

/// The writes of a point among these.
fn of_point(situation: &Situation, writes: Writes, point: Point) -> Writes {
    let named = situation.writes.iter().enumerate().filter(|(_, write)| write.point == point);
    named.map(|(number, _)| writes & 1 << number).sum()
}

/// Takes a step and hands back on which controller. In so short a run nothing may be refused.
fn take(situation: &mut Situation, step: &Step) -> Result<usize, String> {
    let refused = |refusal: Refusal| format!("refused with {}", refusal.number());
    match *step {
        Step::Write { by, point, delete, covering } => {
            let state = &situation.states[by];
            let given = if covering { state.filled(point).context } else { Context::default() };
            let number = situation.writes.len();
            let content =
                if delete { Content::Deleted } else { Content::Value(Value::new(&[number as u8]).expect("one byte")) };
            let (after, message) = steps::write(state, point, content, &given).map_err(refused)?;
            let dot = Dot { controller: state.own, counter: after.own_base() };
            situation.states[by] = after;
            situation.writes.push(Write { point, dot, content, given });
            situation.seen[by] |= 1 << number;
            let carried = of_point(situation, situation.seen[by], point);
            situation.outgoing.push((message, carried));
            Ok(by)
        }
        Step::TakeIn { by, message } => {
            let (message, carried) = &situation.outgoing[message];
            situation.states[by] = steps::take_in(&situation.states[by], message).map_err(refused)?;
            situation.seen[by] |= carried;
            Ok(by)
        }
        Step::Ask { by, to } => ask(situation, by, to).map(|_| by).map_err(refused),
        Step::Reply { by, ask } => reply(situation, by, ask).map(|_| by).map_err(refused),
        Step::Repair { by, reply } => repair(situation, by, reply).map(|()| by).map_err(refused),
        Step::Round { by, with } => {
            let to = situation.states[with].own;
            let round = ask(situation, by, to)
                .and_then(|ask| reply(situation, with, ask))
                .and_then(|reply| repair(situation, by, reply));
            round.map(|()| by).map_err(refused)
        }
        Step::StripPass { by } => {
            situation.states[by] = steps::strip_pass(&situation.states[by]).0;
            Ok(by)
        }
    }
}

/// The place of an item in a list, to which it is added if it is not there yet.
fn place_of<T: PartialEq>(list: &mut Vec<T>, item: T) -> usize {
    list.iter().position(|known| *known == item).unwrap_or_else(|| {
        list.push(item);
        list.len() - 1
    })
}

/// An ask; its place among the asks.
fn ask(situation: &mut Situation, by: usize, to: Controller) -> Result<usize, Refusal> {
    let ask = steps::ask(&situation.states[by], to)?;
    Ok(place_of(&mut situation.asks, ask))
}

/// A reply; its place among the replies.
fn reply(situation: &mut Situation, by: usize, ask: usize) -> Result<usize, Refusal> {
    let reply = steps::reply(&situation.states[by], &situation.asks[ask])?;
    let carried = reply.points.keys().map(|point| of_point(situation, situation.seen[by], *point)).sum();
    Ok(place_of(&mut situation.replies, (reply, carried)))
}

fn repair(situation: &mut Situation, by: usize, reply: usize) -> Result<(), Refusal> {
    let (reply, carried) = &situation.replies[reply];
    situation.states[by] = steps::repair(&situation.states[by], reply)?;
    situation.seen[by] |= carried;
    Ok(())
}
