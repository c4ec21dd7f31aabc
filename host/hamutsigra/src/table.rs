//! The table of power-up.

use crate::ffi;
use crate::raw::NO_BLOCK;

/// What the table of power-up says of a logical block.
#[derive(Clone, Copy, Debug, PartialEq, Eq, Hash)]
#[repr(transparent)]
pub struct TableEntry([u16; 2]);

impl TableEntry {
    /// The data block, if there is one.
    #[must_use]
    pub fn data_block(self) -> Option<usize> {
        block(self.0[0])
    }

    /// The live log block, if there is one.
    #[must_use]
    pub fn log_block(self) -> Option<usize> {
        block(self.0[1])
    }

    /// The table as the library fills it.
    pub(crate) fn numbers(table: &mut [TableEntry]) -> &mut [u16] {
        ffi::numbers(table).as_flattened_mut()
    }
}

/// No block at all.
impl Default for TableEntry {
    fn default() -> TableEntry {
        TableEntry([NO_BLOCK; 2])
    }
}

fn block(number: u16) -> Option<usize> {
    (number != NO_BLOCK).then_some(number.into())
}
