//! The commands as functions of the buffers lent to them, of any length: what the
//! methods of [`Card`](crate::Card) call, with the numbers of the C functions.

use crate::ffi::{self, Written};
use crate::{answer, Answer, Shape, DATA_BYTES};

/// As cut number: the card is not pulled out. No list of steps is this long.
pub const NO_CUT: usize = usize::MAX;
/// In the table of power-up: no such block.
pub const NO_BLOCK: u16 = 65_535;

/// What the library gives as the place of an empty part.
const NOT_LENT: u64 = u64::MAX;

/// A page lent back: a part of the data image.
#[derive(Clone, Copy, Debug, PartialEq, Eq, Hash)]
pub struct Lent<'a> {
    /// The byte of the data image at which the page starts.
    pub at: usize,
    /// Its 512 bytes.
    pub bytes: &'a [u8],
}

/// Erases each good block that is not free.
///
/// # Errors
///
/// Answers 1, 4 and 8.
pub fn format(data: &mut [u8], spare: &mut [u8], shape: Shape, cut: usize) -> Answer {
    answer::unpack(ffi::format(data, spare, shape, cut))
}

/// Erases each obsolete block and fills the table: for each logical block its
/// data block, then its live log block, [`NO_BLOCK`] for none.
///
/// The table has 2 x L numbers. With a refusal it is left as it was.
///
/// # Errors
///
/// Answers 1, 2, 4, 5 and 8.
pub fn power_up(
    data: &mut [u8],
    spare: &mut [u8],
    table: &mut [u16],
    shape: Shape,
    cut: usize,
) -> Answer {
    answer::unpack(ffi::power_up(data, spare, table, shape, cut))
}

/// Puts the content of logical page `number` into the 512 bytes of `page`.
///
/// With a refusal the page is left as it was.
///
/// # Errors
///
/// Answers 1 to 5.
pub fn read(data: &[u8], spare: &[u8], page: &mut [u8], shape: Shape, number: usize) -> Answer {
    answer::unpack(ffi::read(data, spare, page, shape, number))
}

/// Makes the 512 bytes of `page` the content of logical page `number`.
///
/// A cut write has happened exactly if the program of its own page was done.
///
/// # Errors
///
/// Answers 1 to 8.
pub fn write(
    data: &mut [u8],
    spare: &mut [u8],
    page: &[u8],
    shape: Shape,
    number: usize,
    cut: usize,
) -> Answer {
    answer::unpack(ffi::write(Written::Page, data, spare, page, shape, number, cut))
}

/// Makes the P x 512 bytes of `block` the content of logical block `number`, all or
/// none.
///
/// A cut block write has happened exactly if its programs are P.
///
/// # Errors
///
/// Answers 1 to 8.
pub fn block_write(
    data: &mut [u8],
    spare: &mut [u8],
    block: &[u8],
    shape: Shape,
    number: usize,
    cut: usize,
) -> Answer {
    answer::unpack(ffi::write(Written::Block, data, spare, block, shape, number, cut))
}

/// Lends back the 512 bytes of the image that are the content of logical page
/// `number`.
///
/// None when read would refuse (its buffer check aside), or when no flash page
/// holds the content, which is then 512 bytes of 255.
#[must_use]
pub fn lend<'a>(data: &'a [u8], spare: &[u8], shape: Shape, number: usize) -> Option<Lent<'a>> {
    let at = match ffi::lend(data, spare, shape, number) {
        NOT_LENT => return None,
        at => usize::try_from(at).ok()?,
    };
    Some(Lent { at, bytes: &data[at..at + DATA_BYTES] })
}
