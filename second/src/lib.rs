//! A second program for the point store of document 01: written from the document alone, by a design of its own, so that
//! the verified library can be compared with it. The whole image is decoded into maps and sets, the step is taken
//! there, and the result is encoded again. Nothing here is meant to run on a handheld.

pub mod block;
pub mod call;
pub mod calls;
pub mod cases;
pub mod clock;
pub mod compose;
pub mod context;
pub mod crew;
pub mod explore;
pub mod flaws;
pub mod image;
pub mod images;
pub mod madeup;
pub mod messages;
pub mod names;
pub mod object;
pub mod point_block;
pub mod print;
pub mod random;
pub mod refusal;
pub mod row;
pub mod simulate;
pub mod state;
pub mod steps;
pub mod store;
pub mod stream;
pub mod table;
