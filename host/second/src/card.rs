//! A lent image: pages end to end, and what is erased, bad or free.

use crate::shape::{Shape, DATA_BYTES, SPARE_BYTES};
use crate::spare::STATUS;
use std::ops::Range;

/// The pages of a block on which the maker's mark may stand, ascending. P is at least
/// 2, so that every block has them.
const MARK_PAGES: [usize; 2] = [0, 1];

/// An image lent together with its shape, both inside the limits.
///
/// The pages of the flash are counted through: page i of block b is flash page
/// b x P + i.
#[derive(Clone, Copy, Debug)]
pub struct Card<'a> {
    /// P, L and K.
    pub shape: Shape,
    /// B.
    pub blocks: usize,
    data: &'a [u8],
    spare: &'a [u8],
}

impl<'a> Card<'a> {
    /// The card on this image: none when the shape or an image length is
    /// outside the limits.
    pub fn new(data: &'a [u8], spare: &'a [u8], shape: Shape) -> Option<Card<'a>> {
        let blocks = shape.blocks(data.len(), spare.len())?;
        Some(Card { shape, blocks, data, spare })
    }

    /// The flash pages of a block.
    pub fn pages_of(&self, block: usize) -> Range<usize> {
        block * self.shape.pages..(block + 1) * self.shape.pages
    }

    /// The 512 data bytes of a flash page.
    pub fn data(&self, page: usize) -> &'a [u8; DATA_BYTES] {
        &self.data.as_chunks().0[page]
    }

    /// The 16 spare bytes of a flash page.
    pub fn spare(&self, page: usize) -> &'a [u8; SPARE_BYTES] {
        &self.spare.as_chunks().0[page]
    }

    /// A page is erased when all 528 bytes are 255.
    pub fn is_erased(&self, page: usize) -> bool {
        *self.spare(page) == [255; SPARE_BYTES] && *self.data(page) == [255; DATA_BYTES]
    }

    /// The pages, counted inside the block and ascending, on which the maker's mark
    /// stands: byte 5 is not 255.
    pub fn marked_pages(&self, block: usize) -> Vec<usize> {
        let start = self.pages_of(block).start;
        let is_marked = |page: &usize| self.spare(start + page)[STATUS] != 255;
        MARK_PAGES.into_iter().filter(is_marked).collect()
    }

    /// A block is bad when byte 5 of page 0 or of page 1 is not 255.
    pub fn is_bad(&self, block: usize) -> bool {
        !self.marked_pages(block).is_empty()
    }

    /// A good block is free when all its pages are erased.
    pub fn is_free(&self, block: usize) -> bool {
        !self.is_bad(block) && self.pages_of(block).all(|page| self.is_erased(page))
    }

    /// Other blocks are good.
    pub fn good_blocks(&self) -> usize {
        (0..self.blocks).filter(|block| !self.is_bad(*block)).count()
    }
}
