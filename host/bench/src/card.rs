//! The cards that are measured, of 64 blocks of 32 pages.

pub use second::shape::{DATA_BYTES, SPARE_BYTES};
use second::Shape;

pub const P: usize = 32;
pub const B: usize = 64;
pub const L: usize = 59;
pub const K: usize = 4;
pub const SHAPE: Shape = Shape { pages: P, logical: L, logs: K };

/// A logical block with a data block and without a log block.
pub const WITHOUT_LOG: usize = 20;
/// A page of it.
pub const IN_DATA_BLOCK: usize = WITHOUT_LOG * P + 7;
/// A page that the log block of logical block 0 holds.
pub const IN_LOG_BLOCK: usize = 3;
/// A page of logical block 0, whose log block has room.
pub const TO_LOG_BLOCK: usize = 5;
/// The page that makes the log block of logical block 1 complete.
pub const COMPLETES: usize = 2 * P - 1;
/// A page of logical block 2, whose log block is full.
pub const MERGES: usize = 2 * P + 9;

/// What is written as a logical block.
pub static BLOCK: [u8; P * DATA_BYTES] = [7; P * DATA_BYTES];

/// A data image and a spare image.
#[derive(Clone, PartialEq)]
pub struct Image {
    pub data: Vec<u8>,
    pub spare: Vec<u8>,
}

/// A card by the name that it has in the tables.
pub struct Named {
    pub name: &'static str,
    pub image: Image,
    /// Its live log blocks.
    pub live: usize,
}

/// From all erased to nearly none.
pub fn from_empty_to_full() -> [Named; 3] {
    [
        Named { name: "just formatted", image: formatted(), live: 0 },
        Named { name: "half full", image: half_full(), live: 2 },
        Named { name: "full", image: worn(), live: 4 },
    ]
}

/// All bytes are 255.
pub fn formatted() -> Image {
    Image { data: vec![255; B * P * DATA_BYTES], spare: vec![255; B * P * SPARE_BYTES] }
}

/// Logical blocks 0 to 28 have a data block, 0 and 1 also a log block that is half full;
/// 33 blocks are free.
fn half_full() -> Image {
    let mut image = formatted();
    (0..29 * P).for_each(|number| write(&mut image, number));
    (0..P / 2).for_each(|page| write(&mut image, page));
    (0..P / 2).for_each(|page| write(&mut image, P + page));
    image
}

/// Every logical block has a data block, and 4 have a log block: that of 0 and of 3
/// half full, that of 1 full in order but for one page, that of 2 full out of order.
pub fn worn() -> Image {
    let mut image = formatted();
    (0..L * P).for_each(|number| write(&mut image, number));
    (0..P / 2).for_each(|page| write(&mut image, page));
    (0..P - 1).for_each(|page| write(&mut image, P + page));
    (0..P).rev().for_each(|page| write(&mut image, 2 * P + page));
    (0..P / 2).for_each(|page| write(&mut image, 3 * P + page));
    image
}

/// The worn card, pulled out in a write with a merge before its last erase.
pub fn pulled_out() -> Image {
    let mut image = worn();
    let page = [7; DATA_BYTES];
    let cut = P + 1;
    let answer = second::write(&mut image.data, &mut image.spare, &page, SHAPE, MERGES, cut);
    assert_eq!((answer.number, answer.programs, answer.erases), (8, P, 1));
    image
}

/// Logical pages here and there, the same ones every time.
pub fn anywhere(count: usize) -> impl Iterator<Item = usize> {
    // A step that has no factor in common with L x P comes to every page.
    (0..count).map(|i| i * 1009 % (L * P))
}

fn write(image: &mut Image, number: usize) {
    let page = [number as u8; DATA_BYTES];
    let answer = second::write(&mut image.data, &mut image.spare, &page, SHAPE, number, usize::MAX);
    assert_eq!(answer.number, 0, "the card is made by writes that are all done");
}
