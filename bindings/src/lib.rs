//! Sqimrutta for Rust: the shared points of a survey handheld, passed from handheld to handheld by radio, with no office in between.
//!
//! Once a crew deleted a base point; a handheld that had been in a truck brought it back, and a wall was built 1.3 m off. The library under this crate is
//! proved to make that impossible: what a handheld has once seen deleted it never shows again. This is that story as it goes now:
//!
//! ```
//! use sqimrutta::{Ask, Context, Image, Outgoing, Reply};
//!
//! // One job, number 0, which controllers 1, 2 and 3 hold; the base is its point 7.
//! let table = [0b111, 0, 0, 0, 0, 0, 0, 0];
//! let (job, base) = (0, 7);
//! let mut one = Image::start(1, &table)?;
//! let mut two = Image::start(2, &table)?;
//! let mut truck = Image::start(3, &table)?;
//!
//! // 1 sets the base. It stores its image, then sends the message, which reaches both others.
//! let set = one.write(job, base, b"E 100.0", &Context::EMPTY)?;
//! let on_the_radio: &[u8] = set.as_bytes();
//! two.take_in(&Outgoing::from_bytes(on_the_radio))?;
//! truck.take_in(&Outgoing::from_bytes(on_the_radio))?;
//! assert_eq!(truck.read(job, base)?.versions()[0].value(), b"E 100.0");
//!
//! // Handheld 3 is driven away. The base is wrong: the user of 2 looks at it and deletes what he sees. 1 hears of it.
//! let on_the_screen = two.read(job, base)?;
//! let deleted = two.delete(job, base, on_the_screen.context())?;
//! one.take_in(&deleted)?;
//! assert!(one.read(job, base)?.versions().is_empty());
//! assert_eq!(truck.read(job, base)?.versions().len(), 1);
//!
//! // The truck comes back. 1 asks it for news: the base does not come back with it.
//! let reply = truck.reply(&one.ask(3)?)?;
//! one.repair(&reply)?;
//! assert!(one.read(job, base)?.versions().is_empty());
//!
//! // The truck asks 2. The reply has the point, though it is gone, and that tells the truck to let go of it.
//! let ask = truck.ask(2)?;
//! let reply = two.reply(&Ask::from_bytes(ask.as_bytes()))?;
//! assert_eq!(reply.points(), 1);
//! truck.repair(&Reply::from_bytes(reply.as_bytes()))?;
//! assert!(truck.read(job, base)?.versions().is_empty());
//!
//! // Late copies of the first message arrive. The base is not shown again.
//! for handheld in [&mut two, &mut truck] {
//!     handheld.take_in(&set)?;
//!     assert!(handheld.read(job, base)?.versions().is_empty());
//! }
//! # Ok::<(), sqimrutta::Refusal>(())
//! ```
//!
//! # What there is
//!
//! - [`Image`]: what a handheld stores, with the nine calls as methods. A refused call has changed nothing and says why: [`Refusal`].
//! - [`Reading`]: what a point shows, its [`Version`]s, each with its [`Dot`], and the [`Context`] that a later write or deletion gives back.
//! - [`Outgoing`], [`Ask`], [`Reply`]: messages, made of any bytes that come in, and readable as bytes to send.
//! - [`raw`]: the same calls on buffers that the caller keeps.
//!
//! Nothing here panics, whatever it is given. The crate is `no_std`; without its feature `alloc` it has all but `Image` and the messages, and takes no
//! memory but the stack.

#![no_std]
#![deny(unsafe_op_in_unsafe_fn)]
#![warn(missing_docs)]
// Nothing that could panic: clippy refuses it.
#![cfg_attr(
    not(test),
    deny(
        clippy::arithmetic_side_effects,
        clippy::expect_used,
        clippy::indexing_slicing,
        clippy::panic,
        clippy::unwrap_used
    )
)]

#[cfg(feature = "alloc")]
extern crate alloc;
#[cfg(test)]
extern crate std;

mod context;
mod ffi;
#[cfg(feature = "alloc")]
mod image;
#[cfg(feature = "alloc")]
mod message;
pub mod raw;
mod reading;
mod refusal;

pub use context::{Context, Dot};
#[cfg(feature = "alloc")]
pub use image::Image;
#[cfg(feature = "alloc")]
pub use message::{Ask, Outgoing, Reply};
pub use reading::{Reading, Version};
pub use refusal::Refusal;

/// The bytes of a block; a reading is one, and so are an ask and the message of a write or deletion.
pub const BLOCK: usize = 512;
/// The bytes of an image.
pub const IMAGE: usize = 67 * BLOCK;
/// The least room for a reply, in bytes: its head, and the 120 points that the lists can name.
pub const REPLY: usize = 121 * BLOCK;
/// The bytes of a crew table: one for each job, whose bit n-1 says that controller n holds it.
pub const TABLE: usize = 8;
/// The counters of a context: one for each controller.
pub const CONTEXT: usize = 8;
/// The most bytes of a value; one of no bytes is a value, too.
pub const VALUE: usize = 24;
/// The most versions of a point.
pub const VERSIONS: usize = 8;
