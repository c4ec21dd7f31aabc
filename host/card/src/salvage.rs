//! What can be told of the logical pages of a card that is not well-formed: `salvage`.
//!
//! Only blocks that break none of W1 to W4 are taken from. A page is certain where no
//! block can have a newer content of it. A broken block can, if an entry of it names
//! the logical block and has a higher number, or if none of its entries can be read; so
//! can a block of the same number, or a second live log block of the logical block.

use crate::faults::named;
use crate::spare::kind_name;
use hamutsigra::DATA_BYTES;
use second::block::{Block, Used};
use second::blocks::Blocks;
use second::card::Card;
use second::spare::Spare;

/// What is told of one logical page.
#[derive(Clone, Debug, PartialEq, Eq)]
pub struct Told {
    /// The block that it is taken from, and the page there; none if it was never
    /// written, as far as can be seen.
    pub source: Option<Source>,
    /// The blocks that may have a newer content; none if it is certain.
    pub doubts: Vec<usize>,
}

#[derive(Clone, Debug, PartialEq, Eq)]
pub struct Source {
    pub used: Used,
    pub page: usize,
}

/// What is told of each logical page, ascending.
pub fn salvage(card: &Card) -> Vec<Told> {
    let blocks = Blocks::on(card);
    let broken: Vec<Broken> = blocks
        .iter()
        .enumerate()
        .filter(|(_, block)| matches!(block, Block::Broken(_)))
        .map(|(block, _)| Broken::new(card, block))
        .collect();
    (0..card.shape.logical * card.shape.pages).map(|a| told(card, &blocks, &broken, a)).collect()
}

/// The bytes of all pages; 255 where nothing certain is told, or, if doubtful ones are
/// wanted, nothing at all.
pub fn bytes(card: &Card, pages: &[Told], doubtful: bool) -> Vec<u8> {
    let page = |told: &Told| match &told.source {
        Some(source) if doubtful || told.doubts.is_empty() => {
            *card.data(source.used.block * card.shape.pages + source.page)
        }
        _ => [255; DATA_BYTES],
    };
    pages.iter().flat_map(page).collect()
}

/// A block that breaks one of W1 to W4: what its entries say all the same.
struct Broken {
    block: usize,
    /// The logical block and the number of each that can be read.
    entries: Vec<(usize, u32)>,
}

impl Broken {
    fn new(card: &Card, block: usize) -> Broken {
        let entries = card.pages_of(block).filter_map(|page| Spare::from_bytes(card.spare(page)));
        let said = |entry: Spare| (card.shape.logical_block(entry.logical_page), entry.number);
        Broken { block, entries: entries.map(said).collect() }
    }

    /// Whether it may have a content of logical block l that is newer than this number.
    fn may_be_newer(&self, l: usize, number: u32) -> bool {
        self.entries.is_empty() || self.entries.iter().any(|(of, n)| *of == l && *n >= number)
    }
}

fn told(card: &Card, blocks: &Blocks, broken: &[Broken], a: usize) -> Told {
    let l = card.shape.logical_block(a);
    let source = source(card, blocks, a);
    let number = source.as_ref().map_or(0, |source| source.used.number);
    let newer = broken.iter().filter(|broken| broken.may_be_newer(l, number));
    let mut doubts: Vec<usize> = newer.map(|broken| broken.block).collect();
    doubts.extend(source.iter().flat_map(|source| rivals(card, blocks, source, a)));
    doubts.sort_unstable();
    doubts.dedup();
    Told { source, doubts }
}

/// The newest content in sound blocks: of the log blocks that are live the one with the
/// highest number that has the page, else the data block.
fn source(card: &Card, blocks: &Blocks, a: usize) -> Option<Source> {
    let (l, offset) = (card.shape.logical_block(a), card.shape.offset(a));
    let in_log = blocks.live_logs().into_iter().filter(|log| log.logical_block == l);
    let held = in_log.filter_map(|log| {
        let page = log.offsets.iter().rposition(|copy| *copy == offset)?;
        Some(Source { used: log.clone(), page })
    });
    let in_data = || blocks.data_block(l).map(|data| Source { used: data.clone(), page: offset });
    held.max_by_key(|source| source.used.number).or_else(in_data)
}

/// Sound blocks that have the page as well and that the rules do not place after or
/// before the source: those of its number, and other live log blocks.
fn rivals(card: &Card, blocks: &Blocks, source: &Source, a: usize) -> Vec<usize> {
    let offset = card.shape.offset(a);
    let live: Vec<usize> = blocks.live_logs().iter().map(|log| log.block).collect();
    let is_rival = |used: &&Used| {
        used.block != source.used.block
            && used.logical_block == source.used.logical_block
            && used.offsets.contains(&offset)
            && (used.number == source.used.number
                || live.contains(&used.block) && live.contains(&source.used.block))
    };
    let used = blocks.iter().filter_map(|block| match block {
        Block::Used(used) => Some(used),
        _ => None,
    });
    used.filter(is_rival).map(|used| used.block).collect()
}

/// The report: how much, and what from where, equal pages together.
pub fn report(card: &Card, pages: &[Told], doubtful: bool) -> String {
    let certain = pages.iter().filter(|told| told.doubts.is_empty()).count();
    let doubts = pages.iter().filter(|told| !told.doubts.is_empty() && told.source.is_some());
    let doubts = doubts.count();
    let unknown = pages.len() - certain - doubts;
    let mut lines = vec![format!(
        "salvage: of {} pages {certain} are certain, {doubts} doubtful, {unknown} unknown",
        pages.len()
    )];
    let mut first = 0;
    for end in 1..=pages.len() {
        if end == pages.len() || !is_alike(&pages[first], &pages[end]) {
            lines.push(line(card, first, end - 1, &pages[first]));
            first = end;
        }
    }
    if doubts > 0 && !doubtful {
        lines.push("Doubtful pages are left out: --doubtful takes them as well.".into());
    }
    lines.join("\n") + "\n"
}

fn is_alike(one: &Told, other: &Told) -> bool {
    let block = |told: &Told| told.source.as_ref().map(|source| source.used.block);
    block(one) == block(other) && one.doubts == other.doubts
}

fn line(card: &Card, first: usize, last: usize, told: &Told) -> String {
    let pages =
        if first == last { format!("page {first}") } else { format!("pages {first} to {last}") };
    let source = match (&told.source, &told.doubts[..]) {
        (Some(Source { used, .. }), _) => {
            let complete = used.is_complete(card.shape.pages);
            let kind = if complete { "data" } else { kind_name(used.kind) };
            format!("from block {}, {kind}, number {}", used.block, used.number)
        }
        (None, []) => "never written".into(),
        (None, _) => "unknown".into(),
    };
    let doubts = match (&told.source, &told.doubts[..]) {
        (_, []) => String::new(),
        (Some(_), blocks) => format!("; {} may have a newer content", named(blocks)),
        (None, blocks) => format!("; {} may have the content", named(blocks)),
    };
    format!("{pages:<16} {source}{doubts}")
}
