//! What one block holds, and the rules that one block can break: W1 to W4.

use crate::card::Card;
use crate::shape::Shape;
use crate::spare::{Kind, Spare};
use std::fmt;

/// A rule of a well-formed image, by the name that the document gives it.
#[derive(Clone, Copy, Debug, PartialEq, Eq)]
pub enum Rule {
    /// In a used block the pages not erased come first, from page 0, with no gap.
    W1,
    /// They have the bytes of the table, one kind and one sequence number.
    W2,
    /// Their addresses are in range and in one logical block.
    W3,
    /// In a copy block, page i has offset i.
    W4,
    /// No two used blocks have the same sequence number.
    W5,
    /// A logical block has at most one live log block.
    W6,
    /// At most K live log blocks in all.
    W7,
}

impl fmt::Display for Rule {
    fn fmt(&self, out: &mut fmt::Formatter) -> fmt::Result {
        fmt::Debug::fmt(self, out)
    }
}

/// What a block is by itself.
#[derive(Clone, Debug, PartialEq, Eq)]
pub enum Block {
    /// Never programmed or erased; takes no further part.
    Bad,
    /// Good, and all its pages are erased.
    Free,
    /// Good and not free.
    Used(Used),
    /// Used, but breaking the rule named, the first of W1 to W4 that it breaks:
    /// nothing can be said of what it holds.
    Broken(Rule),
}

/// What the pages of a used block say once W1 to W4 hold.
#[derive(Clone, Debug, PartialEq, Eq)]
pub struct Used {
    /// Which block it is.
    pub block: usize,
    /// Its sequence number.
    pub number: u32,
    /// Its kind.
    pub kind: Kind,
    /// The logical block to which its pages belong.
    pub logical_block: usize,
    /// The offset of each programmed page, from page 0 on.
    pub offsets: Vec<usize>,
}

impl Used {
    /// A block is complete when all P pages are programmed and page i has
    /// offset i, whatever its kind.
    pub fn is_complete(&self, pages: usize) -> bool {
        self.offsets.iter().copied().eq(0..pages)
    }

    /// It has room when not all P pages are programmed; else it is full.
    pub fn has_room(&self, pages: usize) -> bool {
        self.offsets.len() < pages
    }

    /// The block with one more page programmed.
    pub fn with(&self, offset: usize) -> Used {
        let mut with = self.clone();
        with.offsets.push(offset);
        with
    }
}

impl Block {
    /// The block as it stands on the card.
    pub fn on(card: &Card, block: usize) -> Block {
        if card.is_bad(block) {
            return Block::Bad;
        }
        if card.is_free(block) {
            return Block::Free;
        }
        match used(card, block) {
            Ok(used) => Block::Used(used),
            Err(rule) => Block::Broken(rule),
        }
    }
}

/// A good block that is not free, or the first of W1 to W4 that it breaks.
fn used(card: &Card, block: usize) -> Result<Used, Rule> {
    let shape = card.shape;
    let programmed = w1(card, block)?;
    let spares = w2(card, &programmed)?;
    w3(shape, &spares)?;
    w4(shape, &spares)?;
    // The block is used, so that there is a first page.
    let Spare { number, kind, logical_page } = spares[0];
    let logical_block = shape.logical_block(logical_page);
    let offsets = spares.iter().map(|spare| shape.offset(spare.logical_page)).collect();
    Ok(Used { block, number, kind, logical_block, offsets })
}

/// W1 In a used block the pages not erased come first, from page 0, with no gap.
fn w1(card: &Card, block: usize) -> Result<Vec<usize>, Rule> {
    let pages = card.pages_of(block);
    let not_erased: Vec<usize> = pages.clone().filter(|page| !card.is_erased(*page)).collect();
    let come_first = not_erased.iter().copied().eq(pages.take(not_erased.len()));
    come_first.then_some(not_erased).ok_or(Rule::W1)
}

/// W2 They have the bytes of the table, one kind and one sequence number.
fn w2(card: &Card, programmed: &[usize]) -> Result<Vec<Spare>, Rule> {
    let spares = programmed.iter().map(|page| Spare::from_bytes(card.spare(*page)));
    let spares = spares.collect::<Option<Vec<Spare>>>().ok_or(Rule::W2)?;
    let one_kind = spares.iter().all(|spare| spare.kind == spares[0].kind);
    let one_number = spares.iter().all(|spare| spare.number == spares[0].number);
    (one_kind && one_number).then_some(spares).ok_or(Rule::W2)
}

/// W3 Their addresses are in range and in one logical block.
fn w3(shape: Shape, spares: &[Spare]) -> Result<(), Rule> {
    let logical_block = |spare: &Spare| shape.logical_block(spare.logical_page);
    let in_range = spares.iter().all(|spare| shape.in_range(spare.logical_page));
    let in_one = spares.iter().all(|spare| logical_block(spare) == logical_block(&spares[0]));
    (in_range && in_one).then_some(()).ok_or(Rule::W3)
}

/// W4 In a copy block, page i has offset i.
fn w4(shape: Shape, spares: &[Spare]) -> Result<(), Rule> {
    let mut pages = spares.iter().enumerate();
    let holds = |(i, spare): (usize, &Spare)| {
        spare.kind == Kind::Log || shape.offset(spare.logical_page) == i
    };
    pages.all(holds).then_some(()).ok_or(Rule::W4)
}
