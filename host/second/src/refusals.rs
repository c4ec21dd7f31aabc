//! The refusals 1 to 7, each given exactly when its function fails. A command
//! asks those of its column in ascending order, so that the lowest number that
//! applies is the answer.

use crate::blocks::Blocks;
use crate::card::Card;
use crate::shape::{Shape, DATA_BYTES};
use crate::spare::HIGHEST_NUMBER;

/// Why nothing is done. (8, the cut, is no such reason: its steps are done.)
#[derive(Clone, Copy)]
pub enum Refusal {
    OutsideLimits = 1,
    WrongBuffer = 2,
    OutOfRange = 3,
    TooFewBlocks = 4,
    IllFormed = 5,
    NeedsPowerUp = 6,
    OutOfNumbers = 7,
}

/// 1: shape or image length outside the limits.
pub fn card<'a>(data: &'a [u8], spare: &'a [u8], shape: Shape) -> Result<Card<'a>, Refusal> {
    Card::new(data, spare, shape).ok_or(Refusal::OutsideLimits)
}

/// 2: page buffer not 512 long.
pub fn page_buffer(page: &[u8]) -> Result<(), Refusal> {
    refuse_if(page.len() != DATA_BYTES, Refusal::WrongBuffer)
}

/// 2: block buffer not P x 512 long. The product is taken in a wider number, so that it
/// is right for any P, also one that is outside the limits.
pub fn block_buffer(block: &[u8], shape: Shape) -> Result<(), Refusal> {
    let bytes = shape.pages as u128 * DATA_BYTES as u128;
    refuse_if(block.len() as u128 != bytes, Refusal::WrongBuffer)
}

/// 2: table not 2 x L. L has no upper limit, so 2 x L is taken in a wider number.
pub fn table(table: &[u16], shape: Shape) -> Result<(), Refusal> {
    refuse_if(table.len() as u128 != 2 * shape.logical as u128, Refusal::WrongBuffer)
}

/// 3: logical page out of range.
pub fn logical_page(a: usize, shape: Shape) -> Result<(), Refusal> {
    refuse_if(!shape.in_range(a), Refusal::OutOfRange)
}

/// 3: l not below L.
pub fn logical_block(l: usize, shape: Shape) -> Result<(), Refusal> {
    refuse_if(l >= shape.logical, Refusal::OutOfRange)
}

/// 4: fewer good blocks than L + K + 1.
pub fn good_blocks(card: &Card) -> Result<(), Refusal> {
    let good_blocks = card.good_blocks() as u128;
    refuse_if(good_blocks < card.shape.good_blocks_needed(), Refusal::TooFewBlocks)
}

/// 5: W1 to W7 not all true.
pub fn well_formed(card: &Card) -> Result<Blocks, Refusal> {
    let blocks = Blocks::on(card);
    refuse_if(!blocks.breaches().is_empty(), Refusal::IllFormed)?;
    Ok(blocks)
}

/// 6: an obsolete block exists: run power-up.
pub fn no_obsolete(blocks: &Blocks) -> Result<(), Refusal> {
    refuse_if(!blocks.obsolete().is_empty(), Refusal::NeedsPowerUp)
}

/// 7: highest number plus new numbers needed (0, 1 or 2) above 4,294,967,294.
pub fn numbers(blocks: &Blocks, needed: u64) -> Result<(), Refusal> {
    let last = u64::from(blocks.highest_number()) + needed;
    refuse_if(last > u64::from(HIGHEST_NUMBER), Refusal::OutOfNumbers)
}

fn refuse_if(applies: bool, refusal: Refusal) -> Result<(), Refusal> {
    if applies {
        Err(refusal)
    } else {
        Ok(())
    }
}
