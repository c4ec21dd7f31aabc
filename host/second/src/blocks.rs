//! What the blocks of a card are to each other, the rules W5 to W7, and where
//! the content of a logical page lies.

use crate::block::{Block, Rule, Used};
use crate::card::Card;
use crate::shape::Shape;
use crate::spare::Kind;

/// The part that a block has in a card.
#[derive(Clone, Copy, Debug, PartialEq, Eq)]
pub enum Role {
    /// Byte 5 of page 0 or of page 1 is not 255.
    Bad,
    /// All its pages are erased.
    Free,
    /// The complete block with the highest number of its logical block.
    Data,
    /// A log block, not complete, with a higher number than the data block.
    Live,
    /// Used, and neither data block nor live.
    Obsolete,
    /// Used, and breaking one of W1 to W4, so that its part cannot be told.
    Broken,
}

/// A place where a rule of a well-formed image is not true.
#[derive(Clone, Debug, PartialEq, Eq)]
pub struct Breach {
    /// The rule.
    pub rule: Rule,
    /// The blocks that break it together.
    pub blocks: Vec<usize>,
}

/// The blocks of a card.
#[derive(Clone, Debug)]
pub struct Blocks {
    shape: Shape,
    blocks: Vec<Block>,
}

impl Blocks {
    /// Looks at each block of the card.
    pub fn on(card: &Card) -> Blocks {
        Blocks {
            shape: card.shape,
            blocks: (0..card.blocks).map(|block| Block::on(card, block)).collect(),
        }
    }

    /// What each block is by itself, ascending.
    pub fn iter(&self) -> impl Iterator<Item = &Block> {
        self.blocks.iter()
    }

    /// The used blocks that can be read, ascending.
    fn used(&self) -> impl Iterator<Item = &Used> {
        self.blocks.iter().filter_map(|block| match block {
            Block::Used(used) => Some(used),
            _ => None,
        })
    }

    /// The used blocks of logical block l, ascending.
    fn used_for(&self, l: usize) -> impl Iterator<Item = &Used> {
        self.used().filter(move |used| used.logical_block == l)
    }

    /// The complete block with the highest number is its logical block's data
    /// block.
    pub fn data_block(&self, l: usize) -> Option<&Used> {
        let complete = self.used_for(l).filter(|used| used.is_complete(self.shape.pages));
        complete.max_by_key(|used| used.number)
    }

    fn is_data_block(&self, used: &Used) -> bool {
        self.data_block(used.logical_block).is_some_and(|data| data.block == used.block)
    }

    /// A log block that is not complete and has a higher number than the data
    /// block (or any number, if there is none) is live.
    fn is_live(&self, used: &Used) -> bool {
        let data = self.data_block(used.logical_block);
        used.kind == Kind::Log
            && !used.is_complete(self.shape.pages)
            && data.is_none_or(|data| used.number > data.number)
    }

    /// The live log block of logical block l.
    pub fn live_log(&self, l: usize) -> Option<&Used> {
        self.used_for(l).find(|used| self.is_live(used))
    }

    /// All live log blocks, ascending.
    pub fn live_logs(&self) -> Vec<&Used> {
        self.used().filter(|used| self.is_live(used)).collect()
    }

    /// Used blocks that are neither data block nor live are obsolete.
    fn is_obsolete(&self, used: &Used) -> bool {
        !self.is_data_block(used) && !self.is_live(used)
    }

    /// All obsolete blocks, ascending.
    pub fn obsolete(&self) -> Vec<usize> {
        let obsolete = self.used().filter(|used| self.is_obsolete(used));
        obsolete.map(|used| used.block).collect()
    }

    /// The part that a block has.
    pub fn role(&self, block: &Block) -> Role {
        match block {
            Block::Bad => Role::Bad,
            Block::Free => Role::Free,
            Block::Broken(_) => Role::Broken,
            Block::Used(used) if self.is_data_block(used) => Role::Data,
            Block::Used(used) if self.is_live(used) => Role::Live,
            Block::Used(_) => Role::Obsolete,
        }
    }

    /// The flash page with the content of logical page a: in the live log block,
    /// the copy searched from the last programmed page backwards; else the page
    /// at its offset in the data block; else none, and the content is 512 bytes
    /// of 255.
    pub fn content(&self, a: usize) -> Option<usize> {
        let l = self.shape.logical_block(a);
        let offset = self.shape.offset(a);
        if let Some(log) = self.live_log(l) {
            if let Some(page) = log.offsets.iter().rposition(|copy| *copy == offset) {
                return Some(log.block * self.shape.pages + page);
            }
        }
        let data = self.data_block(l)?;
        Some(data.block * self.shape.pages + offset)
    }

    /// All free blocks, ascending.
    pub fn free(&self) -> impl Iterator<Item = usize> + '_ {
        (0..self.blocks.len()).filter(|block| self.blocks[*block] == Block::Free)
    }

    /// The highest sequence number in the image, 0 if there is none.
    pub fn highest_number(&self) -> u32 {
        self.used().map(|used| used.number).max().unwrap_or(0)
    }

    /// The places where W1 to W7 are not true; none on a well-formed image.
    pub fn breaches(&self) -> Vec<Breach> {
        let mut breaches = self.broken_blocks();
        breaches.extend(self.equal_numbers());
        breaches.extend(self.double_logs());
        breaches.extend(self.too_many_logs());
        breaches
    }

    /// W1 to W4 concern one block each.
    fn broken_blocks(&self) -> Vec<Breach> {
        let numbered = self.blocks.iter().enumerate();
        let broken = numbered.filter_map(|(number, block)| match block {
            Block::Broken(rule) => Some(Breach { rule: *rule, blocks: vec![number] }),
            _ => None,
        });
        broken.collect()
    }

    /// W5 No two used blocks have the same sequence number.
    fn equal_numbers(&self) -> Vec<Breach> {
        let used: Vec<&Used> = self.used().collect();
        pairs(Rule::W5, &used, |b, c| b.number == c.number)
    }

    /// W6 A logical block has at most one live log block.
    fn double_logs(&self) -> Vec<Breach> {
        pairs(Rule::W6, &self.live_logs(), |b, c| b.logical_block == c.logical_block)
    }

    /// W7 At most K live log blocks in all.
    fn too_many_logs(&self) -> Option<Breach> {
        let live = self.live_logs();
        (live.len() > self.shape.logs)
            .then(|| Breach { rule: Rule::W7, blocks: live.iter().map(|log| log.block).collect() })
    }
}

/// The pairs of blocks that break a rule together.
fn pairs(rule: Rule, blocks: &[&Used], breaks: impl Fn(&Used, &Used) -> bool) -> Vec<Breach> {
    let mut breaches = Vec::new();
    for (i, b) in blocks.iter().enumerate() {
        for c in &blocks[i + 1..] {
            if breaks(b, c) {
                let blocks = vec![b.block, c.block];
                breaches.push(Breach { rule, blocks });
            }
        }
    }
    breaches
}
