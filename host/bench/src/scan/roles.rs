//! What the used blocks are to each other: data block and live log block, and the rules
//! W5 to W7.

use super::block::Used;
use super::MOST;
use crate::card::SPARE_BYTES;

/// A used block and its place on the card.
#[derive(Clone, Copy, Default)]
pub struct Placed {
    pub block: u32,
    pub used: Used,
}

impl Placed {
    fn number(&self) -> u32 {
        self.used.number
    }

    fn logical(&self) -> usize {
        self.used.logical.into()
    }
}

/// The data block and the live log block of one logical block.
pub struct Seats<'a> {
    pub data: Option<&'a Placed>,
    pub log: Option<&'a Placed>,
}

impl<'a> Seats<'a> {
    /// Those of logical block l, by the used blocks of a card with K log blocks at most;
    /// none when one of W5 to W7 is not true.
    pub fn of(blocks: &'a [Placed], logs: usize, l: usize) -> Option<Seats<'a>> {
        if !numbers_apart(blocks) {
            return None;
        }
        let data = data_blocks(blocks);
        let log = live_logs(blocks, &data, logs)?;
        Some(Seats { data: data[l], log: log[l] })
    }

    /// The flash page that holds a page of this logical block, if one does: in the log
    /// block the last that names it, else that of the data block.
    pub fn page(&self, spare: &[[u8; SPARE_BYTES]], pages: usize, number: usize) -> Option<usize> {
        let in_log = self.log.and_then(|log| {
            let start = log.block as usize * pages;
            let programmed = &spare[start..start + usize::from(log.used.filled)];
            Some(start + programmed.iter().rposition(|page| address(page) == number)?)
        });
        let in_data = || Some(self.data?.block as usize * pages + number % pages);
        in_log.or_else(in_data)
    }
}

fn address(spare: &[u8; SPARE_BYTES]) -> usize {
    u16::from_le_bytes([spare[6], spare[7]]).into()
}

/// W5, at a glance where no two numbers have the same last 12 bits, else by pairs.
fn numbers_apart(blocks: &[Placed]) -> bool {
    let mut met = [0_u64; 64];
    let mut again = 0;
    for number in blocks.iter().map(Placed::number) {
        let bits = &mut met[number as usize / 64 % 64];
        let bit = 1 << (number % 64);
        again |= *bits & bit;
        *bits |= bit;
    }
    again == 0 || apart_by_pairs(blocks)
}

fn apart_by_pairs(blocks: &[Placed]) -> bool {
    let is_met = |i, number| blocks[..i].iter().any(|block| block.number() == number);
    !blocks.iter().enumerate().any(|(i, block)| is_met(i, block.number()))
}

/// The complete block with the highest number of each logical block.
fn data_blocks(blocks: &[Placed]) -> [Option<&Placed>; MOST] {
    let mut data: [Option<&Placed>; MOST] = [None; MOST];
    for block in blocks.iter().filter(|block| block.used.is_complete) {
        let highest = &mut data[block.logical()];
        if highest.is_none_or(|highest| highest.number() < block.number()) {
            *highest = Some(block);
        }
    }
    data
}

/// The log blocks that are not complete and have a higher number than the data block;
/// none at all when there are two of one logical block, W6, or more than K, W7.
fn live_logs<'a>(
    blocks: &'a [Placed],
    data: &[Option<&Placed>; MOST],
    logs: usize,
) -> Option<[Option<&'a Placed>; MOST]> {
    let mut live = [None; MOST];
    let mut count = 0;
    for block in blocks.iter().filter(|block| block.used.is_log && !block.used.is_complete) {
        if data[block.logical()].is_none_or(|data| data.number() < block.number()) {
            if live[block.logical()].replace(block).is_some() {
                return None;
            }
            count += 1;
        }
    }
    (count <= logs).then_some(live)
}
