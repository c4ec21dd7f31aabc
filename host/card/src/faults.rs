//! Where an image is not well-formed: the rule, the blocks, and of W1 to W4 the page
//! and the byte. What breaks a rule is what the second program says (see `inspect`);
//! here it is only looked up where.

use crate::spare;
use second::block::Rule;
use second::blocks::{Blocks, Breach};
use second::card::Card;
use second::spare::{Kind, Spare};

/// A rule that is broken in the same way by some blocks.
#[derive(Clone, Debug, PartialEq, Eq)]
pub struct Fault {
    pub rule: Rule,
    pub blocks: Vec<usize>,
    pub place: Option<Place>,
}

/// The first page of a block at which a rule is broken.
#[derive(Clone, Debug, PartialEq, Eq)]
pub struct Place {
    pub page: usize,
    /// The spare byte, where it is one.
    pub byte: Option<usize>,
    pub what: String,
}

/// All faults, equal ones together.
pub fn of(card: &Card, blocks: &Blocks) -> Vec<Fault> {
    let mut faults: Vec<Fault> = Vec::new();
    for Breach { rule, blocks } in blocks.breaches() {
        let place = blocks.first().and_then(|block| place(card, *block, rule));
        let same = faults.iter_mut().find(|fault| is_same(fault, rule, &blocks, &place));
        match same {
            Some(fault) => {
                fault.blocks.extend(blocks);
                fault.blocks.sort_unstable();
                fault.blocks.dedup();
            }
            None => faults.push(Fault { rule, blocks, place }),
        }
    }
    faults
}

/// Blocks that break a rule of one block break it in the same way; of a rule of two they
/// have a block in common.
fn is_same(fault: &Fault, rule: Rule, blocks: &[usize], place: &Option<Place>) -> bool {
    let of_one = matches!(rule, Rule::W1 | Rule::W2 | Rule::W3 | Rule::W4);
    let in_common = || blocks.iter().any(|block| fault.blocks.contains(block));
    fault.rule == rule && if of_one { fault.place == *place } else { in_common() }
}

/// Where a block breaks a rule of one block.
fn place(card: &Card, block: usize, rule: Rule) -> Option<Place> {
    let pages: Vec<usize> = card.pages_of(block).collect();
    let programmed: Vec<usize> =
        (0..pages.len()).filter(|page| !card.is_erased(pages[*page])).collect();
    let spare = |page: &usize| card.spare(pages[*page]);
    match rule {
        Rule::W1 => {
            let gap = programmed.iter().enumerate().find(|(i, page)| i != *page)?;
            let what = format!("page {} is erased and page {} is not", gap.0, gap.1);
            Some(Place { page: gap.0, byte: None, what })
        }
        Rule::W2 => programmed.iter().find_map(|page| {
            let first = spare(programmed.first()?);
            wrong_entry(*page, spare(page), first)
        }),
        Rule::W3 | Rule::W4 => {
            let entries: Vec<Spare> =
                programmed.iter().filter_map(|page| Spare::from_bytes(spare(page))).collect();
            let wrong = |page: usize| wrong_address(card, &entries, page, rule);
            (0..entries.len()).find_map(wrong)
        }
        Rule::W5 | Rule::W6 | Rule::W7 => None,
    }
}

/// W2: not as in the table, or not of the kind and the number of the first page.
fn wrong_entry(page: usize, bytes: &[u8; 16], first: &[u8; 16]) -> Option<Place> {
    if let Some(wrong) = spare::wrong(bytes) {
        return Some(Place { page, byte: Some(wrong.byte), what: wrong.what });
    }
    let (number, other) = (spare::number(bytes), spare::number(first));
    let (byte, what) = if number != other {
        (0, format!("sequence number {number}, and {other} in page 0"))
    } else if bytes[4] != first[4] {
        (4, format!("{}, and {} in page 0", bytes[4], first[4]))
    } else {
        return None;
    };
    Some(Place { page, byte: Some(byte), what })
}

/// W3 and W4: an address out of range, of another logical block, or out of order.
fn wrong_address(card: &Card, entries: &[Spare], page: usize, rule: Rule) -> Option<Place> {
    let shape = card.shape;
    let (entry, first) = (entries[page], entries[0]);
    let a = entry.logical_page;
    let (l, of_first) = (shape.logical_block(a), shape.logical_block(first.logical_page));
    let what = if rule == Rule::W3 && !shape.in_range(a) {
        let last = shape.logical as u128 * shape.pages as u128 - 1;
        format!("logical page {a}, and the last is {last}")
    } else if rule == Rule::W3 && l != of_first {
        format!("logical page {a} of logical block {l}, and page 0 is of {of_first}")
    } else if rule == Rule::W4 && entry.kind == Kind::Copy && shape.offset(a) != page {
        format!("logical page {a} has offset {}, not {page}", shape.offset(a))
    } else {
        return None;
    };
    Some(Place { page, byte: Some(6), what })
}

impl Fault {
    /// The fault in words.
    pub fn in_words(&self) -> String {
        let what = match self.rule {
            Rule::W1 => "a programmed page comes after an erased one",
            Rule::W2 => "spare bytes not as in the table, or not of one kind and one number",
            Rule::W3 => "logical pages out of range, or of more than one logical block",
            Rule::W4 => "a copy whose pages are not in order",
            Rule::W5 => "the same sequence number",
            Rule::W6 => "live log blocks of the same logical block",
            Rule::W7 => "more live log blocks than K",
        };
        let place = self.place.as_ref().map_or(String::new(), Place::in_words);
        format!("{}: {what} ({}){place}", named(&self.blocks), self.rule)
    }
}

impl Place {
    fn in_words(&self) -> String {
        match self.byte {
            Some(byte) => format!("\n  page {}, spare byte {byte}: {}", self.page, self.what),
            None => format!("\n  {}", self.what),
        }
    }
}

/// Blocks by their numbers.
pub fn named(blocks: &[usize]) -> String {
    let numbers: Vec<String> = blocks.iter().map(usize::to_string).collect();
    match &numbers[..] {
        [one] => format!("block {one}"),
        [others @ .., last] => format!("blocks {} and {last}", others.join(", ")),
        [] => "no block".to_string(),
    }
}
