//! The safe Rust face of the proved layer.
//!
//! The layer itself is `libhamutsigra.a`, proved and compiled elsewhere; its C
//! functions are called in one file, `ffi.rs`, which holds all the `unsafe` code of
//! the host side. It needs no heap and no standard library.
//!
//! A [`Card`] is a chip with its shape. It owns the bytes of the chip or is lent them,
//! and has the six commands as methods:
//!
//! ```
//! use hamutsigra::{Card, Shape};
//!
//! let shape = Shape { pages: 4, logical: 2, logs: 1 };
//! let mut card = Card::new(vec![255; 4 * 4 * 512], vec![255; 4 * 4 * 16], shape);
//!
//! card.format(None)?;
//! let steps = card.write(3, &[7; 512], None)?;
//! assert_eq!((steps.programs, steps.erases), (1, 0));
//! assert_eq!(card.read(3)?, [7; 512]);
//! # Ok::<(), hamutsigra::Refusal>(())
//! ```
//!
//! Every command takes P, L and K from the [`Shape`]; B follows from the lengths of
//! the images. Any shape, any length and any bytes have an answer. The functions below
//! the methods, with every buffer lent by itself, are in [`raw`].
//!
//! A command panics only if the library linked is another one: if it gives what is no
//! answer of the card.

#![no_std]
#![deny(unsafe_code)]
#![warn(missing_docs, clippy::pedantic)]

mod answer;
mod card;
#[allow(unsafe_code)] // The one file that calls the library.
mod ffi;
pub mod raw;
mod table;

pub use answer::{Answer, Refusal, Steps};
pub use card::{Card, Lent};
pub use table::TableEntry;

/// The data bytes of a page.
pub const DATA_BYTES: usize = 512;
/// The spare bytes of a page.
pub const SPARE_BYTES: usize = 16;

/// The shape of a card, but for B, which follows from the length of its image.
///
/// It is not stored on the chip: every command of a card is given the same one.
#[derive(Clone, Copy, Debug, PartialEq, Eq, Hash)]
pub struct Shape {
    /// P, the pages of a block: 2 to 32.
    pub pages: usize,
    /// L, the logical blocks: at least 1.
    pub logical: usize,
    /// K, the log blocks at most: at least 1.
    pub logs: usize,
}
