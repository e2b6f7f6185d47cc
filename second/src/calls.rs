//! The nine calls, on lent buffers. A buffer is written only when nothing can be refused any more, so a refused call
//! changes no lent byte.

use crate::block::BLOCK;
use crate::context::Context;
use crate::image::{self, IMAGE};
use crate::messages::{Letter, Outgoing, Reply};
use crate::names::{Controller, EIGHT};
use crate::object::{Content, Value};
use crate::point_block;
use crate::refusal::{demand, Refusal};
use crate::state::State;
use crate::steps::{self, LONGEST_REPLY};
use crate::table::Table;

/// Refusals 1 and 2 of the image.
fn good(image: &[u8]) -> Result<State, Refusal> {
    image::decode(image).ok_or(Refusal::ImageNotGood)
}

fn lengths(right: &[bool]) -> Result<(), Refusal> {
    demand(right.iter().all(|right| *right), Refusal::WrongLength)
}

/// "**Start**: a fresh image from a number and a table; the lent image's old bytes don't matter."
pub fn start(image: &mut [u8], number: u8, table: &[u8]) -> Result<(), Refusal> {
    let table: [u8; EIGHT] = table.try_into().map_err(|_| Refusal::WrongLength)?;
    lengths(&[image.len() == IMAGE])?;
    let own = Controller::new(number).ok_or(Refusal::OutOfRange)?;
    image.copy_from_slice(&image::encode(&State::fresh(own, Table(table))));
    Ok(())
}

/// "**Read**: the filled object without its deleted versions", as a block of kind 7.
pub fn read(image: &[u8], job: u8, point: u16, out: &mut [u8]) -> Result<(), Refusal> {
    lengths(&[image.len() == IMAGE, out.len() == BLOCK])?;
    let state = good(image)?;
    let point = steps::held_point(&state, job, point)?;
    out.copy_from_slice(&encode_reading(&state, point));
    Ok(())
}

/// The block of kind 7 for a point of a held job.
pub fn encode_reading(state: &State, point: crate::names::Point) -> [u8; BLOCK] {
    point_block::encode(crate::block::Kind::Reading, 0, point, &steps::read(state, point), state.own.number())
}

/// **Write**: a new version with a value; the outgoing message (kind 4) is written to `out`.
pub fn write(
    image: &mut [u8],
    job: u8,
    point: u16,
    value: &[u8],
    context: &[u32],
    out: &mut [u8],
) -> Result<(), Refusal> {
    add_version(image, job, point, Some(value), context, out)
}

/// **Delete**: a new version "deleted"; the outgoing message (kind 4) is written to `out`.
pub fn delete(image: &mut [u8], job: u8, point: u16, context: &[u32], out: &mut [u8]) -> Result<(), Refusal> {
    add_version(image, job, point, None, context, out)
}

fn add_version(
    image: &mut [u8],
    job: u8,
    point: u16,
    value: Option<&[u8]>,
    context: &[u32],
    out: &mut [u8],
) -> Result<(), Refusal> {
    let given: [u32; EIGHT] = context.try_into().map_err(|_| Refusal::WrongLength)?;
    lengths(&[image.len() == IMAGE, out.len() == BLOCK])?;
    let state = good(image)?;
    let point = steps::held_point(&state, job, point)?;
    let content = match value {
        Some(bytes) => Content::Value(Value::new(bytes).ok_or(Refusal::ValueTooLong)?),
        None => Content::Deleted,
    };
    let (after, message) = steps::write(&state, point, content, &Context::from_counters(given))?;
    image.copy_from_slice(&image::encode(&after));
    out.copy_from_slice(&message.encode());
    Ok(())
}

/// **Take in** another controller's outgoing message (kind 4).
pub fn take_in(image: &mut [u8], message: &[u8]) -> Result<(), Refusal> {
    lengths(&[image.len() == IMAGE, message.len() == BLOCK])?;
    let state = good(image)?;
    let message = Outgoing::decode(message, &state.table)?;
    let after = steps::take_in(&state, &message)?;
    image.copy_from_slice(&image::encode(&after));
    Ok(())
}

/// **Ask** a peer: a message (kind 5) with the own clock is written to `out`.
pub fn ask(image: &[u8], to: u8, out: &mut [u8]) -> Result<(), Refusal> {
    lengths(&[image.len() == IMAGE, out.len() == BLOCK])?;
    let state = good(image)?;
    let to = Controller::new(to).ok_or(Refusal::OutOfRange)?;
    out.copy_from_slice(&steps::ask(&state, to)?.encode_ask());
    Ok(())
}

/// **Reply** to an ask (kind 5): head and points are written to `out`, "and the rest keeps its bytes". Answers the number
/// of points sent.
pub fn reply(image: &[u8], ask: &[u8], out: &mut [u8]) -> Result<u32, Refusal> {
    lengths(&[image.len() == IMAGE, ask.len() == BLOCK, out.len() >= LONGEST_REPLY])?;
    let state = good(image)?;
    let ask = Letter::decode_ask(ask, &state.table)?;
    let reply = steps::reply(&state, &ask)?;
    let blocks = reply.encode();
    out[..blocks.len()].copy_from_slice(&blocks);
    Ok(reply.points.len() as u32)
}

/// **Repair** with a reply of 1 to 121 whole blocks.
pub fn repair(image: &mut [u8], reply: &[u8]) -> Result<(), Refusal> {
    let whole_blocks = !reply.is_empty() && reply.len().is_multiple_of(BLOCK) && reply.len() <= LONGEST_REPLY;
    lengths(&[image.len() == IMAGE, whole_blocks])?;
    let state = good(image)?;
    let reply = Reply::decode(reply, &state.table)?;
    let after = steps::repair(&state, &reply)?;
    image.copy_from_slice(&image::encode(&after));
    Ok(())
}

/// **Strip pass**: answers the number of records gone.
pub fn strip_pass(image: &mut [u8]) -> Result<u32, Refusal> {
    lengths(&[image.len() == IMAGE])?;
    let state = good(image)?;
    let (after, gone) = steps::strip_pass(&state);
    image.copy_from_slice(&image::encode(&after));
    Ok(gone)
}
