//! Format, power-up, read, write, block write and lend. Each asks the refusals of its
//! column first, lowest number first; then finds its list; then does the steps that
//! the cut lets happen.

use crate::blocks::Blocks;
use crate::card::Card;
use crate::plan;
use crate::refusals::{self, Refusal};
use crate::shape::{Shape, DATA_BYTES};
use crate::steps::{self, Answer, Step};

/// In the table of power-up: no such block.
pub const NONE: u16 = 65_535;

/// Erases each good block that is not free.
pub fn format(data: &mut [u8], spare: &mut [u8], shape: Shape, cut: usize) -> Answer {
    match format_list(data, spare, shape) {
        Ok(list) => steps::run(&list, cut, shape.pages, data, spare),
        Err(refusal) => refused(refusal),
    }
}

fn format_list(data: &[u8], spare: &[u8], shape: Shape) -> Result<Vec<Step>, Refusal> {
    let card = refusals::card(data, spare, shape)?;
    refusals::good_blocks(&card)?;
    Ok(plan::format(&card))
}

/// Erases each obsolete block and fills the table: for each logical block its
/// data block, then its live log block, 65,535 for none.
pub fn power_up(
    data: &mut [u8],
    spare: &mut [u8],
    table: &mut [u16],
    shape: Shape,
    cut: usize,
) -> Answer {
    let blocks = match power_up_blocks(data, spare, table, shape) {
        Ok(blocks) => blocks,
        Err(refusal) => return refused(refusal),
    };
    let answer = steps::run(&plan::power_up(&blocks), cut, shape.pages, data, spare);
    // 8 leaves exactly the steps done, and no table is filled.
    if answer.number == 0 {
        fill(table, &blocks);
    }
    answer
}

fn power_up_blocks(
    data: &[u8],
    spare: &[u8],
    table: &[u16],
    shape: Shape,
) -> Result<Blocks, Refusal> {
    let card = refusals::card(data, spare, shape)?;
    refusals::table(table, shape)?;
    refusals::good_blocks(&card)?;
    refusals::well_formed(&card)
}

fn fill(table: &mut [u16], blocks: &Blocks) {
    for (l, entry) in table.chunks_exact_mut(2).enumerate() {
        entry[0] = blocks.data_block(l).map_or(NONE, |data| data.block as u16);
        entry[1] = blocks.live_log(l).map_or(NONE, |log| log.block as u16);
    }
}

/// Puts the content of logical page `number` into `page`.
pub fn read(data: &[u8], spare: &[u8], page: &mut [u8], shape: Shape, number: usize) -> Answer {
    match read_content(data, spare, page, shape, number) {
        Ok(Some(lent)) => page.copy_from_slice(lent.bytes),
        Ok(None) => page.fill(255),
        Err(refusal) => return refused(refusal),
    }
    Answer::default()
}

fn read_content<'a>(
    data: &'a [u8],
    spare: &'a [u8],
    page: &[u8],
    shape: Shape,
    number: usize,
) -> Result<Option<Lent<'a>>, Refusal> {
    let card = refusals::card(data, spare, shape)?;
    refusals::page_buffer(page)?;
    content(&card, number)
}

/// Programs `page` as logical page `number`.
pub fn write(
    data: &mut [u8],
    spare: &mut [u8],
    page: &[u8],
    shape: Shape,
    number: usize,
    cut: usize,
) -> Answer {
    match write_list(data, spare, page, shape, number) {
        Ok(list) => steps::run(&list, cut, shape.pages, data, spare),
        Err(refusal) => refused(refusal),
    }
}

fn write_list(
    data: &[u8],
    spare: &[u8],
    page: &[u8],
    shape: Shape,
    number: usize,
) -> Result<Vec<Step>, Refusal> {
    let card = refusals::card(data, spare, shape)?;
    refusals::page_buffer(page)?;
    refusals::logical_page(number, shape)?;
    refusals::good_blocks(&card)?;
    let blocks = refusals::well_formed(&card)?;
    refusals::no_obsolete(&blocks)?;
    refusals::numbers(&blocks, plan::new_numbers(&card, &blocks, number))?;
    Ok(plan::write(&card, &blocks, number, page))
}

/// Programs the P x 512 bytes of `block` as logical block `number`: it has the old
/// content until the last program and the new one from there.
pub fn block_write(
    data: &mut [u8],
    spare: &mut [u8],
    block: &[u8],
    shape: Shape,
    number: usize,
    cut: usize,
) -> Answer {
    match block_write_list(data, spare, block, shape, number) {
        Ok(list) => steps::run(&list, cut, shape.pages, data, spare),
        Err(refusal) => refused(refusal),
    }
}

/// Checks are those of write, with 2 for a wrong buffer length and 3 for l not
/// below L.
fn block_write_list(
    data: &[u8],
    spare: &[u8],
    block: &[u8],
    shape: Shape,
    number: usize,
) -> Result<Vec<Step>, Refusal> {
    let card = refusals::card(data, spare, shape)?;
    refusals::block_buffer(block, shape)?;
    refusals::logical_block(number, shape)?;
    refusals::good_blocks(&card)?;
    let blocks = refusals::well_formed(&card)?;
    refusals::no_obsolete(&blocks)?;
    // It needs one new number.
    refusals::numbers(&blocks, 1)?;
    Ok(plan::block_write(&card, &blocks, number, block))
}

/// A page lent back.
#[derive(Clone, Copy, Debug, PartialEq, Eq)]
pub struct Lent<'a> {
    /// The byte of the data image at which it starts.
    pub at: usize,
    /// Its 512 bytes.
    pub bytes: &'a [u8],
}

/// Lends back the page's own 512 bytes of the image; none when read would refuse
/// (its buffer check aside) or when no flash page holds the content.
pub fn lend<'a>(data: &'a [u8], spare: &'a [u8], shape: Shape, number: usize) -> Option<Lent<'a>> {
    let card = refusals::card(data, spare, shape).ok()?;
    content(&card, number).ok()?
}

/// The flash page that holds the content of a logical page, if one does.
fn content<'a>(card: &Card<'a>, number: usize) -> Result<Option<Lent<'a>>, Refusal> {
    refusals::logical_page(number, card.shape)?;
    refusals::good_blocks(card)?;
    let blocks = refusals::well_formed(card)?;
    let page = blocks.content(number);
    Ok(page.map(|page| Lent { at: page * DATA_BYTES, bytes: card.data(page) }))
}

/// 1 to 7 change nothing and report zero counts.
fn refused(refusal: Refusal) -> Answer {
    Answer { number: refusal as u8, programs: 0, erases: 0 }
}
