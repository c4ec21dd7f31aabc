//! The bad blocks of a card: where the maker's mark stands, and what a block that was
//! written before it was marked holds all the same. What is bad is what the second
//! program says (see `inspect`).

use crate::faults::named;
use crate::json::Json;
use second::card::Card;
use second::spare::Spare;

/// A bad block.
pub struct Bad {
    block: usize,
    /// The pages with the mark.
    marked_pages: Vec<usize>,
    /// What the layer has written to it, if anything.
    holds: Option<Held>,
}

/// The first page of a block that has an entry of the table.
struct Held {
    page: usize,
    entry: Spare,
}

/// All of them, ascending.
pub fn of(card: &Card) -> Vec<Bad> {
    let bad = (0..card.blocks).filter(|block| card.is_bad(*block));
    let each = bad.map(|block| {
        let holds = held(card, block);
        Bad { block, marked_pages: card.marked_pages(block), holds }
    });
    each.collect()
}

fn held(card: &Card, block: usize) -> Option<Held> {
    let mut pages = card.pages_of(block).enumerate();
    pages.find_map(|(page, at)| Some(Held { page, entry: Spare::from_bytes(card.spare(at))? }))
}

/// A line for each that holds something; the others with equal marks together.
pub fn in_words(bad: &[Bad]) -> Vec<String> {
    let mut lines: Vec<(Vec<usize>, String)> = Vec::new();
    for one in bad {
        let what = one.in_words();
        match lines.iter_mut().find(|(_, other)| one.holds.is_none() && *other == what) {
            Some((blocks, _)) => blocks.push(one.block),
            None => lines.push((vec![one.block], what)),
        }
    }
    lines.iter().map(|(blocks, what)| format!("{}: {what}", named(blocks))).collect()
}

impl Bad {
    fn in_words(&self) -> String {
        let pages: Vec<String> = self.marked_pages.iter().map(usize::to_string).collect();
        let s = if pages.len() == 1 { "" } else { "s" };
        let holds = self.holds.as_ref().map_or(String::new(), Held::in_words);
        format!("bad, mark on page{s} {}{holds}", pages.join(" and "))
    }

    pub fn to_json(&self) -> Json {
        let holds = self.holds.as_ref().map(|held| held.entry.logical_page);
        Json::Object(vec![
            ("block", Json::number(self.block)),
            ("marked_pages", Json::numbers(self.marked_pages.iter().copied())),
            ("holds", Json::number_if_any(holds)),
        ])
    }
}

impl Held {
    fn in_words(&self) -> String {
        let Held { page, entry: Spare { number, logical_page, .. } } = self;
        let place = format!("page {page}, number {number}");
        format!("; it holds logical page {logical_page} ({place}) and no longer counts")
    }
}
