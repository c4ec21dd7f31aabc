//! A read in ordinary Rust, in two ways: with the plain loop as erased test, and written
//! for speed. Both look at the whole image and give the answers of read by the rules
//! W1 to W7. They are here to be timed beside the proved layer.

mod block;
pub mod erased;
mod roles;
#[cfg(test)]
mod tests;

use crate::card::{Image, DATA_BYTES, SPARE_BYTES};
use block::{Block, Pages};
use roles::{Placed, Seats};
use second::shape::{BLOCKS, PAGES};
use second::spare::STATUS;
use second::Shape;

/// The most blocks of a card.
const MOST: usize = 64;

/// A way to read: puts the content of a logical page into the page and gives 0, or gives
/// the number of the refusal and leaves the page as it was.
pub type Read = fn(&Image, &mut [u8; DATA_BYTES], Shape, usize) -> u8;

/// Read, with the plain loop as erased test.
pub fn plain(image: &Image, page: &mut [u8; DATA_BYTES], shape: Shape, number: usize) -> u8 {
    read(block::plain, image, page, shape, number)
}

/// Read, written for speed.
pub fn quick(image: &Image, page: &mut [u8; DATA_BYTES], shape: Shape, number: usize) -> u8 {
    read(block::quick, image, page, shape, number)
}

fn read(
    block: impl Fn(Pages, usize) -> Block,
    image: &Image,
    page: &mut [u8; DATA_BYTES],
    shape: Shape,
    number: usize,
) -> u8 {
    match find(block, image, shape, number) {
        Ok(Some(found)) => *page = image.data.as_chunks().0[found],
        Ok(None) => *page = [255; DATA_BYTES],
        Err(refusal) => return refusal,
    }
    0
}

/// The flash page that holds a logical page, if one does, or the refusal.
fn find(
    block: impl Fn(Pages, usize) -> Block,
    image: &Image,
    shape: Shape,
    number: usize,
) -> Result<Option<usize>, u8> {
    refuse_if(!is_within_limits(image, shape), 1)?;
    let l = number / shape.pages;
    refuse_if(l >= shape.logical, 3)?;
    let (data, _) = image.data.as_chunks();
    let (spare, _) = image.spare.as_chunks();
    let scan = Scan::of(block, Pages { data, spare }, shape);
    refuse_if(shape.good_blocks_needed() > scan.good as u128, 4)?;
    refuse_if(scan.is_ill, 5)?;
    let seats = Seats::of(&scan.used[..scan.count], shape.logs, l).ok_or(5)?;
    Ok(seats.page(spare, shape.pages, number))
}

fn refuse_if(applies: bool, refusal: u8) -> Result<(), u8> {
    if applies {
        Err(refusal)
    } else {
        Ok(())
    }
}

fn is_within_limits(image: &Image, shape: Shape) -> bool {
    if !PAGES.contains(&shape.pages) || shape.logical < 1 || shape.logs < 1 {
        return false;
    }
    let blocks = image.data.len() / (shape.pages * DATA_BYTES);
    BLOCKS.contains(&blocks)
        && image.data.len() == blocks * shape.pages * DATA_BYTES
        && image.spare.len() == blocks * shape.pages * SPARE_BYTES
}

/// What the blocks of a card are by themselves.
struct Scan {
    /// The used blocks, ascending, and how many there are.
    used: [Placed; MOST],
    count: usize,
    good: usize,
    /// Of a good block one of W1 to W4 is not true.
    is_ill: bool,
}

impl Scan {
    fn of(block: impl Fn(Pages, usize) -> Block, pages: Pages, shape: Shape) -> Scan {
        let mut scan = Scan { used: [Placed::default(); MOST], count: 0, good: 0, is_ill: false };
        let data = pages.data.chunks_exact(shape.pages);
        let spare = pages.spare.chunks_exact(shape.pages);
        for (b, (data, spare)) in data.zip(spare).enumerate() {
            if spare[0][STATUS] != 255 || spare[1][STATUS] != 255 {
                continue;
            }
            scan.good += 1;
            match block(Pages { data, spare }, shape.logical) {
                Block::Free => (),
                Block::Ill => scan.is_ill = true,
                Block::Used(used) => {
                    scan.used[scan.count] = Placed { block: b as u32, used };
                    scan.count += 1;
                }
            }
        }
        scan
    }
}
