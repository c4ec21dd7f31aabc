//! The list of steps of each command. It is fixed by the image and the call.

use crate::block::Used;
use crate::blocks::Blocks;
use crate::card::Card;
use crate::shape::{Shape, DATA_BYTES};
use crate::spare::{Kind, Spare};
use crate::steps::Step;
use std::collections::BTreeSet;

/// **Format**: erase each good block that is not free, in ascending order.
pub fn format(card: &Card) -> Vec<Step> {
    let good = (0..card.blocks).filter(|block| !card.is_bad(*block));
    let not_free = good.filter(|block| !card.is_free(*block));
    not_free.map(|block| Step::Erase { block }).collect()
}

/// **Power-up**: erase each obsolete block, ascending.
pub fn power_up(blocks: &Blocks) -> Vec<Step> {
    let obsolete = blocks.obsolete().into_iter();
    obsolete.map(|block| Step::Erase { block }).collect()
}

/// **Write** of page a in block l, when none of 1 to 7 applies. If l has a live log
/// block with room, program its next page. If that log block is full, merge l, then
/// take a block as log and program its page 0. If l has none: when K log blocks are
/// live, merge the one with the lowest sequence number first; then take a block as
/// log and program page 0. If the program makes the log block complete, then erase
/// l's former data block, if any.
pub fn write(card: &Card, blocks: &Blocks, a: usize, data: &[u8]) -> Vec<Step> {
    let l = card.shape.logical_block(a);
    let mut plan = Plan::new(card, blocks);
    if let Some(log) = merged_first(card.shape, blocks, l) {
        plan.merge(log);
    }
    match log_with_room(card.shape, blocks, l) {
        Some(log) => plan.append(log, a, data),
        None => plan.start_log(a, data),
    }
    plan.steps
}

/// The new numbers that a write of page a needs (0, 1 or 2): one for the copy if it
/// merges, one for the log block if it takes one.
pub fn new_numbers(card: &Card, blocks: &Blocks, a: usize) -> u64 {
    let l = card.shape.logical_block(a);
    let merges = merged_first(card.shape, blocks, l).is_some();
    let takes_log = log_with_room(card.shape, blocks, l).is_none();
    u64::from(merges) + u64::from(takes_log)
}

/// **Block write** of P x 512 bytes for logical block l, when none of 1 to 7 applies. It
/// takes one block, programs P pages of kind copy in order, then erases l's live log
/// block and then its data block, where they exist.
pub fn block_write(card: &Card, blocks: &Blocks, l: usize, data: &[u8]) -> Vec<Step> {
    let (pages, _) = data.as_chunks();
    let mut plan = Plan::new(card, blocks);
    plan.copy(l, pages);
    if let Some(log) = blocks.live_log(l) {
        plan.erase(log.block);
    }
    plan.erase_data_block(l);
    plan.steps
}

/// The live log block of l, if it has room.
fn log_with_room(shape: Shape, blocks: &Blocks, l: usize) -> Option<&Used> {
    blocks.live_log(l).filter(|log| log.has_room(shape.pages))
}

/// The log block that a write in l merges first, if any: that of l if it is full, or,
/// where l has none and K are live, the one with the lowest sequence number.
fn merged_first(shape: Shape, blocks: &Blocks, l: usize) -> Option<&Used> {
    let live = blocks.live_logs();
    match blocks.live_log(l) {
        Some(log) if log.has_room(shape.pages) => None,
        Some(full) => Some(full),
        None if live.len() == shape.logs => live.into_iter().min_by_key(|log| log.number),
        None => None,
    }
}

/// A list in the making.
struct Plan<'a> {
    /// The card and its blocks, before the first step.
    card: &'a Card<'a>,
    blocks: &'a Blocks,
    steps: Vec<Step>,
    /// The free blocks, after the steps so far.
    free: BTreeSet<usize>,
    /// The highest number in the image, after the steps so far.
    highest: u32,
}

impl<'a> Plan<'a> {
    fn new(card: &'a Card, blocks: &'a Blocks) -> Plan<'a> {
        Plan {
            card,
            blocks,
            steps: Vec::new(),
            free: blocks.free().collect(),
            highest: blocks.highest_number(),
        }
    }

    /// Programs the next page of a log block with room, and erases the former data
    /// block if this makes the log block complete.
    fn append(&mut self, log: &Used, a: usize, data: &[u8]) {
        let shape = self.card.shape;
        self.program(log.block, log.offsets.len(), spare(log.number, log.kind, a), data);
        if log.with(shape.offset(a)).is_complete(shape.pages) {
            self.erase_data_block(log.logical_block);
        }
    }

    /// Takes a block as log and programs its page 0.
    fn start_log(&mut self, a: usize, data: &[u8]) {
        let (block, number) = self.take();
        self.program(block, 0, spare(number, Kind::Log, a), data);
    }

    /// **Merge** of a logical block: take a block, program its P pages in order
    /// with the present content, kind copy; erase the log block; erase the data
    /// block, if any.
    fn merge(&mut self, log: &Used) {
        let l = log.logical_block;
        let pages = self.card.shape.pages;
        let content: Vec<_> = (l * pages..(l + 1) * pages).map(|a| self.content(a)).collect();
        self.copy(l, content);
        self.erase(log.block);
        self.erase_data_block(l);
    }

    /// Takes a block and programs its P pages in order with this content of l, kind
    /// copy.
    fn copy<'c>(&mut self, l: usize, content: impl IntoIterator<Item = &'c [u8; DATA_BYTES]>) {
        let pages = self.card.shape.pages;
        let (block, number) = self.take();
        for (page, data) in (0..pages).zip(content) {
            self.program(block, page, spare(number, Kind::Copy, l * pages + page), data);
        }
    }

    /// "Take a block" means the lowest-numbered free block at that moment, with
    /// a sequence number one above the highest in the image (1 if none).
    fn take(&mut self) -> (usize, u32) {
        // No answer stands for "no free block": the rules always leave one.
        let block = self.free.pop_first().expect("the rules always leave a free block");
        self.highest += 1;
        (block, self.highest)
    }

    /// The present content of logical page a. A merge is the first thing in its
    /// list, so it is the content before the first step.
    fn content(&self, a: usize) -> &'a [u8; DATA_BYTES] {
        let page = self.blocks.content(a);
        page.map_or(&[255; DATA_BYTES], |page| self.card.data(page))
    }

    fn program(&mut self, block: usize, page: usize, spare: Spare, data: &[u8]) {
        self.steps.push(Step::Program {
            page: block * self.card.shape.pages + page,
            data: data.to_vec(),
            spare: spare.to_bytes(),
        });
    }

    fn erase(&mut self, block: usize) {
        self.steps.push(Step::Erase { block });
        self.free.insert(block);
    }

    fn erase_data_block(&mut self, l: usize) {
        if let Some(data) = self.blocks.data_block(l) {
            self.erase(data.block);
        }
    }
}

fn spare(number: u32, kind: Kind, logical_page: usize) -> Spare {
    Spare { number, kind, logical_page }
}
