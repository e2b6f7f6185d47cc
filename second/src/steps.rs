//! The steps, on decoded states and messages. Each hands back a new state; a refused step hands back none.

use crate::block::BLOCK;
use crate::context::Context;
use crate::messages::{Letter, Outgoing, Reply};
use crate::names::{Controller, Counter, Dot, Point};
use crate::object::{Content, Object};
use crate::refusal::{demand, Refusal};
use crate::row::Row;
use crate::state::{State, MOST_LISTED, MOST_POINTS, MOST_VERSIONS};
use std::collections::{BTreeMap, BTreeSet};

/// "A buffer for writing a reply has at least 61,952 bytes (121 blocks; the lists name at most 120 points)".
pub const LONGEST_REPLY: usize = (1 + 2 * MOST_LISTED) * BLOCK;

/// Refusal 5 of a point argument: "an argument outside its range; a job ... not held here".
pub fn held_point(state: &State, job: u8, number: u16) -> Result<Point, Refusal> {
    let point = Point::new(job, number).ok_or(Refusal::OutOfRange)?;
    demand(state.table.holds(state.own, point.job), Refusal::OutOfRange)?;
    Ok(point)
}

/// "**Read**: the filled object without its deleted versions."
pub fn read(state: &State, point: Point) -> Object {
    let mut object = state.filled(point);
    object.versions.retain(|_, content| *content != Content::Deleted);
    object
}

/// "**Write, delete**: the dot is the own number with own base + 1. From the filled local object drop the versions that
/// the given context covers; add the new version; raise the own context entry to the new counter. This filled object
/// is the outgoing message."
///
/// Refusals 8, 12, 13, 14 and 15; the point is one of a held job.
pub fn write(state: &State, point: Point, content: Content, given: &Context) -> Result<(State, Outgoing), Refusal> {
    let mut object = state.filled(point);
    demand(!given.is_above(&object.context), Refusal::ContextAhead)?;
    let dot = Dot { controller: state.own, counter: state.own_base().next() };
    object.versions.retain(|version, _| !given.covers(*version));
    object.versions.insert(dot, content);
    object.context.raise(state.own, dot.counter);
    let after = store(state, BTreeMap::from([(point, object.clone())]), None)?;
    demand(state.own_dots.len() < MOST_LISTED, Refusal::OwnListFull)?;
    demand(state.own_base() < Counter::LAST, Refusal::CountersUsedUp)?;
    Ok((after, Outgoing { sender: state.own, point, object }))
}

/// "**Take in**: fill the local object, merge with the message's." Refusals 5, 6 and 9 to 13.
pub fn take_in(state: &State, message: &Outgoing) -> Result<State, Refusal> {
    let objects = || std::iter::once((message.point, &message.object));
    jobs_are_held(state, message.sender, objects())?;
    another_peer(state, message.sender)?;
    history_is_kept(state, objects(), None)?;
    no_dot_clashes(state, objects())?;
    let result = state.filled(message.point).merged(&message.object);
    store(state, BTreeMap::from([(message.point, result)]), None)
}

/// "**Ask**: a message with the own clock, to a peer." Refusal 6.
pub fn ask(state: &State, to: Controller) -> Result<Letter, Refusal> {
    another_peer(state, to)?;
    Ok(Letter { sender: state.own, addressee: to, clock: state.clock.clone() })
}

/// "**Reply**: for each n that is a peer of both, each dot in our row n that the asker's row lacks is looked up in the
/// lists. A dot that is not listed is passed over. Each point found whose job the asker holds is sent once, as stored. A
/// point with no stored record is sent with no version and an empty context."
///
/// A listed dot of a good image is in our row, so the lists are gone through instead of the rows. Refusals 6 and 9.
pub fn reply(state: &State, ask: &Letter) -> Result<Reply, Refusal> {
    another_peer(state, ask.sender)?;
    demand(ask.addressee == state.own, Refusal::NotAnotherPeer)?;
    history_is_kept(state, std::iter::empty(), Some(ask))?;
    let is_sent = |dot: Dot, point: Point| {
        state.is_peer(dot.controller)
            && state.table.peers(ask.sender, dot.controller)
            && !ask.clock.contains(dot)
            && state.table.holds(ask.sender, point.job)
    };
    let found: BTreeSet<Point> =
        state.listed().filter(|(dot, point)| is_sent(*dot, *point)).map(|(_, point)| point).collect();
    Ok(Reply {
        head: Letter { sender: state.own, addressee: ask.sender, clock: state.clock.clone() },
        points: found.into_iter().map(|point| (point, state.stored(point))).collect(),
    })
}

/// "**Repair**: the reply's objects are filled with the *sender's* clock and merged with the local ones. The sender's row
/// about itself is united with ours. The watermark for the sender (rows of our peers) and our own (all rows) is raised.
/// Then a listed dot (n,c) goes when the watermark of every peer m of n has n at c or more."
///
/// Refusals 5, 6 and 9 to 13.
pub fn repair(state: &State, reply: &Reply) -> Result<State, Refusal> {
    let sender = reply.head.sender;
    let objects = || reply.points.iter().map(|(point, object)| (*point, object));
    jobs_are_held(state, sender, objects())?;
    another_peer(state, sender)?;
    demand(reply.head.addressee == state.own, Refusal::NotAnotherPeer)?;
    history_is_kept(state, objects(), Some(&reply.head))?;
    no_dot_clashes(state, objects())?;
    let merged = |point: Point, object: &Object| {
        let theirs = object.clone().filled(point.job, &state.table, &reply.head.clock);
        state.filled(point).merged(&theirs)
    };
    let results = objects().map(|(point, object)| (point, merged(point, object))).collect();
    let mut after = store(state, results, Some((sender, reply.head.clock.row(sender))))?;
    raise_watermark(&mut after, &reply.head);
    remove_known_dots(&mut after);
    Ok(after)
}

/// "**Strip pass**: every stored point is stripped." Hands back the number of records gone, too.
pub fn strip_pass(state: &State) -> (State, u32) {
    let mut after = state.clone();
    for (point, object) in &state.points {
        keep_or_drop(&mut after, *point, object.clone());
    }
    let gone = state.points.len() - after.points.len();
    (after, gone as u32)
}

/// "Storing, in every step: local objects are filled with the clock as it was before the step; then all version dots of
/// the results enter the clock, in a repair the sender's row is united too, and only then are the results stripped,
/// with that new clock. Other records are not touched. ... Version dots new to the clock are listed with their point,
/// own ones always, foreign ones in order of controller and counter while there is room (before the repair's removal)."
///
/// "11 to 13 are judged on the step's result with no limit applied; 12 counts a point's versions before its record may
/// go."
fn store(
    state: &State,
    results: BTreeMap<Point, Object>,
    united: Option<(Controller, &Row)>,
) -> Result<State, Refusal> {
    let mut after = state.clone();
    let new_dots: BTreeMap<Dot, Point> = results
        .iter()
        .flat_map(|(point, object)| object.versions.keys().map(|dot| (*dot, *point)))
        .filter(|(dot, _)| !state.clock.contains(*dot))
        .collect();
    for dot in new_dots.keys() {
        after.clock.add(*dot);
    }
    if let Some((sender, row)) = united {
        after.clock.unite(sender, row);
    }
    demand(after.clock.fits(), Refusal::RowTooWide)?;
    demand(results.values().all(|object| object.versions.len() <= MOST_VERSIONS), Refusal::TooManyVersions)?;
    for (point, object) in results {
        keep_or_drop(&mut after, point, object);
    }
    demand(after.points.len() <= MOST_POINTS, Refusal::TooManyPoints)?;
    for (dot, point) in new_dots {
        if dot.controller == state.own {
            after.own_dots.insert(dot, point);
        } else if after.foreign_dots.len() < MOST_LISTED {
            after.foreign_dots.insert(dot, point);
        }
    }
    Ok(after)
}

/// Strips a result with the state's clock and keeps it, unless "its stripped context is empty and no version has a
/// value".
fn keep_or_drop(state: &mut State, point: Point, object: Object) {
    let stripped = object.stripped(&state.clock);
    if stripped.context.is_empty() && !stripped.has_value() {
        state.points.remove(&point);
    } else {
        state.points.insert(point, stripped);
    }
}

/// The watermark's row for the sender, from its rows of our peers, and our own row, from all our rows as they are after
/// the step.
fn raise_watermark(after: &mut State, head: &Letter) {
    let raise = |entry: &mut Counter, base: Counter| *entry = base.max(*entry);
    let peers: Vec<Controller> = after.table.peers_of(after.own).collect();
    for n in peers {
        raise(&mut after.watermark[head.sender.index()][n.index()], head.clock.row(n).base());
    }
    for n in Controller::all() {
        raise(&mut after.watermark[after.own.index()][n.index()], after.clock.row(n).base());
    }
}

/// "Then a listed dot (n,c) goes when the watermark of every peer m of n has n at c or more."
fn remove_known_dots(after: &mut State) {
    let (table, watermark) = (after.table, after.watermark);
    let known_to_all = |dot: &Dot| {
        let n = dot.controller;
        table.peers_of(n).all(|m| watermark[m.index()][n.index()] >= dot.counter)
    };
    after.own_dots.retain(|dot, _| !known_to_all(dot));
    after.foreign_dots.retain(|dot, _| !known_to_all(dot));
}

/// Refusal 5: "a job (argument's or message's) not held here or not by the sender".
fn jobs_are_held<'a>(
    state: &State,
    sender: Controller,
    mut objects: impl Iterator<Item = (Point, &'a Object)>,
) -> Result<(), Refusal> {
    let held =
        objects.all(|(point, _)| state.table.holds(state.own, point.job) && state.table.holds(sender, point.job));
    demand(held, Refusal::OutOfRange)
}

/// Refusal 6: "sender or asked party not another peer".
fn another_peer(state: &State, other: Controller) -> Result<(), Refusal> {
    demand(other != state.own && state.is_peer(other), Refusal::NotAnotherPeer)
}

/// Refusal 9: "message names, in a dot, context or clock row, an own counter above our base: our history is lost".
fn history_is_kept<'a>(
    state: &State,
    mut objects: impl Iterator<Item = (Point, &'a Object)>,
    letter: Option<&Letter>,
) -> Result<(), Refusal> {
    let base = state.own_base();
    let in_objects = objects.all(|(_, object)| {
        object.context.entry(state.own) <= base
            && object.versions.keys().all(|dot| dot.controller != state.own || dot.counter <= base)
    });
    let in_rows = letter.is_none_or(|letter| letter.clock.row(state.own).highest() <= base);
    demand(in_objects && in_rows, Refusal::HistoryLost)
}

/// Refusal 10: "a version's dot in the message is stored here with other contents, or stored or listed here for another
/// point". It is judged before merging, also of a version that the merge would drop.
fn no_dot_clashes<'a>(state: &State, objects: impl Iterator<Item = (Point, &'a Object)>) -> Result<(), Refusal> {
    let mut stored: BTreeMap<Dot, (Point, Content)> = BTreeMap::new();
    for (point, object) in &state.points {
        stored.extend(object.versions.iter().map(|(dot, content)| (*dot, (*point, *content))));
    }
    for (point, object) in objects {
        for (dot, content) in &object.versions {
            let stored_agrees = stored.get(dot).is_none_or(|found| *found == (point, *content));
            let listed_agrees = state.listed_for(*dot).is_none_or(|listed| listed == point);
            demand(stored_agrees && listed_agrees, Refusal::DotClash)?;
        }
    }
    Ok(())
}
