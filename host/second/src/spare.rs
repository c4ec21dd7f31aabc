//! The spare bytes of a programmed page.
//!
//! | bytes | content |
//! |---|---|
//! | 0-3 | sequence number, low byte first, 1 to 4,294,967,294 |
//! | 4 | kind: 240 log, 15 copy |
//! | 5 | block status, 255 |
//! | 6-7 | logical page, low byte first |
//! | 8-15 | 255 |

use crate::shape::SPARE_BYTES;

/// The highest sequence number that a block can have.
pub const HIGHEST_NUMBER: u32 = 4_294_967_294;

/// The place of the block status: 255 in a good block.
pub const STATUS: usize = 5;

/// The kind of a block, as its pages carry it.
#[derive(Clone, Copy, Debug, PartialEq, Eq)]
pub enum Kind {
    /// Pages in the order in which they were written.
    Log,
    /// Pages put in order by a merge or a block write.
    Copy,
}

impl Kind {
    fn byte(self) -> u8 {
        match self {
            Kind::Log => 240,
            Kind::Copy => 15,
        }
    }
}

/// What the spare bytes of a programmed page say.
#[derive(Clone, Copy, Debug, PartialEq, Eq)]
pub struct Spare {
    /// The sequence number of its block.
    pub number: u32,
    /// The kind of its block.
    pub kind: Kind,
    /// The address: the logical page that it holds.
    pub logical_page: usize,
}

impl Spare {
    /// The table read. None when the bytes are not those of the table.
    pub fn from_bytes(bytes: &[u8; SPARE_BYTES]) -> Option<Spare> {
        let number = u32::from_le_bytes([bytes[0], bytes[1], bytes[2], bytes[3]]);
        let kind = [Kind::Log, Kind::Copy].into_iter().find(|kind| kind.byte() == bytes[4])?;
        let logical_page = u16::from_le_bytes([bytes[6], bytes[7]]).into();
        let number_in_limits = (1..=HIGHEST_NUMBER).contains(&number);
        let rest_is_255 = bytes[STATUS] == 255 && bytes[8..] == [255; 8];
        (number_in_limits && rest_is_255).then_some(Spare { number, kind, logical_page })
    }

    /// The table written.
    pub fn to_bytes(self) -> [u8; SPARE_BYTES] {
        let mut bytes = [255; SPARE_BYTES];
        bytes[0..4].copy_from_slice(&self.number.to_le_bytes());
        bytes[4] = self.kind.byte();
        // Two bytes suffice: a card has at most 62 x 32 logical pages.
        bytes[6..8].copy_from_slice(&self.logical_page.to_le_bytes()[..2]);
        bytes
    }
}
