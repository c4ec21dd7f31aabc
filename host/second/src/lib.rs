//! The layer once more, in ordinary Rust, written from document 01 alone; the block
//! write from document 02, request (i), and when a block is bad from request (ii).
//!
//! It is there to be compared with the proved layer and to be read beside the
//! documents: a sentence of a document stands above the lines made from it,
//! and where a plainer form and a faster one differ, the plainer one is taken.
//!
//! The files follow the order of document 01:
//!
//! * [`shape`]: the four numbers of a card and their limits;
//! * [`spare`]: the spare bytes of a programmed page;
//! * [`card`]: a lent image, its pages, and what is erased, bad or free;
//! * [`block`]: what one block holds, and the rules W1 to W4;
//! * [`blocks`]: what the blocks are to each other, the rules W5 to W7, and
//!   where the content of a logical page lies;
//! * `steps`: programs and erases, and how many of them a cut lets happen;
//! * `plan`: the list of steps of each command;
//! * `refusals`: when the card refuses;
//! * `commands`: format, power-up, read, write, block write and lend, and what they
//!   reply.
//!
//! The six commands are the layer, and no input makes them panic. The public files
//! are for those who want to look at a card.

#![forbid(unsafe_code)]
#![warn(missing_docs)]

pub mod block;
pub mod blocks;
pub mod card;
mod commands;
mod plan;
mod refusals;
pub mod shape;
pub mod spare;
mod steps;

pub use commands::{block_write, format, lend, power_up, read, write, Lent, NONE};
pub use shape::Shape;
pub use steps::Answer;
