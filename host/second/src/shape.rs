//! The shape of a card is four numbers: P pages per block, B blocks, L logical
//! blocks, K log blocks at most.

use std::ops::RangeInclusive;

/// A page has 512 data bytes.
pub const DATA_BYTES: usize = 512;
/// A page has 16 spare bytes.
pub const SPARE_BYTES: usize = 16;
/// P is 2 to 32.
pub const PAGES: RangeInclusive<usize> = 2..=32;
/// B is 3 to 64.
pub const BLOCKS: RangeInclusive<usize> = 3..=64;

/// P, L and K as a command is given them. B is not given: it follows from the
/// length of the image.
#[derive(Clone, Copy, Debug, PartialEq, Eq)]
pub struct Shape {
    /// P, the pages of a block.
    pub pages: usize,
    /// L, the logical blocks.
    pub logical: usize,
    /// K, the log blocks that may be live at most.
    pub logs: usize,
}

impl Shape {
    /// B, for an image of this many data bytes and spare bytes: the same whole
    /// number for both. None when the shape or a length is outside the limits.
    pub fn blocks(&self, data_bytes: usize, spare_bytes: usize) -> Option<usize> {
        if !PAGES.contains(&self.pages) || self.logical < 1 || self.logs < 1 {
            return None;
        }
        BLOCKS.into_iter().find(|blocks| {
            data_bytes == blocks * self.pages * DATA_BYTES
                && spare_bytes == blocks * self.pages * SPARE_BYTES
        })
    }

    /// The good blocks needed, L + K + 1. L and K have no upper limit, so the sum is
    /// taken in a wider number.
    pub fn good_blocks_needed(&self) -> u128 {
        self.logical as u128 + self.logs as u128 + 1
    }

    /// Logical page a belongs to logical block floor(a / P) ..
    pub fn logical_block(&self, a: usize) -> usize {
        a / self.pages
    }

    /// .. and has offset a mod P there.
    pub fn offset(&self, a: usize) -> usize {
        a % self.pages
    }

    /// a is 0 to L x P - 1. L has no upper limit, so the product is taken in a
    /// wider number.
    pub fn in_range(&self, a: usize) -> bool {
        (a as u128) < self.logical as u128 * self.pages as u128
    }
}
