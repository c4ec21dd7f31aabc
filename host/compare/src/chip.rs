//! Random chips: erased, made up in all the ways that the rules allow, damaged, or
//! full of anything.

use crate::random::Random;
use second::card::Card;
use second::shape::{DATA_BYTES, SPARE_BYTES};
use second::spare::{Kind, Spare, HIGHEST_NUMBER, STATUS};
use second::Shape;

/// Bytes for a mark.
const MARKS: [u8; 3] = [0, 127, 254];

/// An image and the shape that it was made for.
#[derive(Clone)]
pub struct Chip {
    pub shape: Shape,
    pub blocks: usize,
    pub data: Vec<u8>,
    pub spare: Vec<u8>,
}

impl Chip {
    /// A chip of any kind.
    pub fn any(random: &mut Random) -> Chip {
        let mut chip = Chip::erased(random);
        chip.mark_bad(random);
        match random.below(20) {
            0..8 => (),
            8..16 => chip.make_up(random),
            16..19 => {
                chip.make_up(random);
                chip.damage(random);
            }
            _ => chip.fill_with_anything(random),
        }
        chip
    }

    /// A chip that is erased or made up, and not damaged.
    pub fn erased_or_made_up(random: &mut Random) -> Chip {
        let mut chip = Chip::erased(random);
        chip.mark_bad(random);
        if random.one_in(2) {
            chip.make_up(random);
        }
        chip
    }

    /// Small ones mostly: there all states are reached soon.
    fn erased(random: &mut Random) -> Chip {
        let (pages, blocks) = match random.below(500) {
            0 => (32, 64),
            1..10 => (random.between(5, 12), random.between(9, 20)),
            _ => (random.between(2, 4), random.between(3, 8)),
        };
        let logs = random.between(1, (blocks - 2).min(3));
        let most = blocks - logs - 1;
        // With as many logical blocks as there can be, free blocks are scarce.
        let logical = if random.one_in(2) { most } else { random.between(1, most) };
        Chip {
            shape: Shape { pages, logical, logs },
            blocks,
            data: vec![255; blocks * pages * DATA_BYTES],
            spare: vec![255; blocks * pages * SPARE_BYTES],
        }
    }

    /// Marks blocks bad, seldom more than the card can spare.
    fn mark_bad(&mut self, random: &mut Random) {
        let spared = self.blocks - (self.shape.logical + self.shape.logs + 1);
        let bad = match random.below(40) {
            0 => spared + 1,
            1..20 => random.below(spared + 1),
            _ => 0,
        };
        for _ in 0..bad {
            self.mark(random.below(self.blocks), random);
        }
    }

    /// Puts the maker's mark on a block: on page 0, on page 1, or on both.
    fn mark(&mut self, block: usize, random: &mut Random) {
        for page in random.one_of::<&[usize]>(&[&[0], &[1], &[0, 1]]) {
            self.spare_of(block, *page)[STATUS] = random.one_of(&MARKS);
        }
    }

    /// Marks a block now and then, a used one mostly: its number, kind and addresses
    /// count for nothing then. Seldom where the card can spare none.
    fn mark_used(&mut self, random: &mut Random) {
        let times = if self.can_spare_a_block() { 2 } else { 40 };
        if random.one_in(times) {
            let (block, _) = self.any_page(random);
            self.mark(block, random);
        }
    }

    fn can_spare_a_block(&self) -> bool {
        self.card().is_some_and(|card| card.good_blocks() as u128 > card.shape.good_blocks_needed())
    }

    /// The chip as the second program sees it, which says what is bad.
    pub fn card(&self) -> Option<Card<'_>> {
        Card::new(&self.data, &self.spare, self.shape)
    }

    /// Makes up data blocks, live log blocks and obsolete blocks, as a long history
    /// could have left them, and marks one of them now and then.
    fn make_up(&mut self, random: &mut Random) {
        let pages = self.shape.pages;
        let mut maker = Maker::new(self, random);
        let mut live = 0;
        for l in maker.logical_blocks() {
            let has_data = !maker.random.one_in(3);
            if has_data && maker.random.one_in(5) {
                let offsets = maker.any_offsets();
                maker.put(Kind::Log, l, &offsets);
            }
            if has_data {
                let kind = maker.random.one_of(&[Kind::Log, Kind::Copy]);
                maker.put(kind, l, &(0..pages).collect::<Vec<_>>());
            }
            if live < maker.chip.shape.logs && maker.random.one_in(2) {
                let offsets = maker.incomplete_offsets();
                maker.put(Kind::Log, l, &offsets);
                live += 1;
            }
            if maker.random.one_in(8) {
                let half = maker.random.between(1, pages - 1);
                maker.put(Kind::Copy, l, &(0..half).collect::<Vec<_>>());
            }
        }
        self.mark_used(random);
    }

    /// Damages some bytes, so that one rule or other is broken, or just not.
    pub fn damage(&mut self, random: &mut Random) {
        for _ in 0..random.between(1, 3) {
            let (block, page) = self.any_page(random);
            match random.below(10) {
                0 => self.spare_of(block, page)[random.below(16)] ^= 1 << random.below(8),
                1 => {
                    let byte = random.one_of(&[0, 1, 254, 255]);
                    self.spare_of(block, page)[random.below(16)] = byte;
                }
                2 => self.spare_of(block, page)[4] = random.one_of(&[15, 240]),
                3 => self.spare_of(block, page)[STATUS] = random.one_of(&MARKS),
                4 => self.data_of(block, page)[random.below(512)] = random.byte(),
                5 => self.erase_pages(block, page, page + 1),
                6 => self.erase_pages(block, page, self.shape.pages),
                7 => self.renumber(block, random),
                8 => self.readdress(block, page, random),
                _ => {
                    let (from_block, from_page) = self.any_page(random);
                    let spare = self.spare_of(from_block, from_page).to_vec();
                    self.spare_of(block, page).copy_from_slice(&spare);
                }
            }
        }
    }

    /// A page of a block, mostly one that is programmed.
    fn any_page(&mut self, random: &mut Random) -> (usize, usize) {
        let mut page = (0, 0);
        for _ in 0..4 {
            page = (random.below(self.blocks), random.below(self.shape.pages));
            if self.spare_of(page.0, page.1)[4] != 255 {
                break;
            }
        }
        page
    }

    /// Gives the programmed pages of a block another number: one that there is not,
    /// or that of another block.
    fn renumber(&mut self, block: usize, random: &mut Random) {
        let other = self.spare_of(random.below(self.blocks), 0)[..4].to_vec();
        let number = random.one_of::<&[u8]>(&[&[0; 4], &[255; 4], &other]);
        for page in 0..self.shape.pages {
            if self.spare_of(block, page)[4] != 255 {
                self.spare_of(block, page)[..4].copy_from_slice(number);
            }
        }
    }

    /// Gives a page another address, near the ends of the range.
    fn readdress(&mut self, block: usize, page: usize, random: &mut Random) {
        let Shape { pages, logical, .. } = self.shape;
        let last = logical * pages - 1;
        let address = random.one_of(&[0, pages, last, last + 1, 65_535]) as u16;
        self.spare_of(block, page)[6..8].copy_from_slice(&address.to_le_bytes());
    }

    fn fill_with_anything(&mut self, random: &mut Random) {
        let choices: &[u8] = random.one_of(&[&[0], &[0, 255], &[1, 15, 240, 255]]);
        self.spare.fill_with(|| random.one_of(choices));
        self.data.fill(random.byte());
        if random.one_in(2) {
            self.make_good();
        }
    }

    /// Takes the maker's marks away, wherever the second program sees one.
    fn make_good(&mut self) {
        for block in 0..self.blocks {
            let marked = self.card().map_or(Vec::new(), |card| card.marked_pages(block));
            marked.into_iter().for_each(|page| self.spare_of(block, page)[STATUS] = 255);
        }
    }

    fn erase_pages(&mut self, block: usize, from: usize, to: usize) {
        for page in from..to {
            self.spare_of(block, page).fill(255);
            self.data_of(block, page).fill(255);
        }
    }

    fn spare_of(&mut self, block: usize, page: usize) -> &mut [u8] {
        let page = block * self.shape.pages + page;
        &mut self.spare[page * SPARE_BYTES..(page + 1) * SPARE_BYTES]
    }

    fn data_of(&mut self, block: usize, page: usize) -> &mut [u8] {
        let page = block * self.shape.pages + page;
        &mut self.data[page * DATA_BYTES..(page + 1) * DATA_BYTES]
    }

    /// The byte at this place of a flash page: a data byte, or else a spare byte.
    pub fn byte_of(&mut self, page: usize, place: usize) -> &mut u8 {
        match place.checked_sub(DATA_BYTES) {
            None => &mut self.data[page * DATA_BYTES + place],
            Some(place) => &mut self.spare[page * SPARE_BYTES + place],
        }
    }
}

/// Fills a page: now and then with 255s, as a written page may be.
pub fn fill_page(page: &mut [u8], random: &mut Random) {
    match random.below(6) {
        0 => page.fill(255),
        1 => page.fill_with(|| random.byte()),
        _ => page.fill(random.byte()),
    }
}

/// Makes up used blocks, each with a higher number than the one before.
struct Maker<'a> {
    chip: &'a mut Chip,
    random: &'a mut Random,
    free: Vec<usize>,
    number: u64,
}

impl<'a> Maker<'a> {
    fn new(chip: &'a mut Chip, random: &'a mut Random) -> Maker<'a> {
        let is_good = |block: &usize| chip.card().is_some_and(|card| !card.is_bad(*block));
        let mut free: Vec<usize> = (0..chip.blocks).filter(is_good).collect();
        random.shuffle(&mut free);
        // Where a byte is carried over, and where the numbers end.
        let top = u64::from(HIGHEST_NUMBER) - random.below(3 * chip.blocks) as u64;
        let number = random.one_of(&[1, 1, 250, 65_530, 0xff_fffa, top, top]);
        Maker { chip, random, free, number }
    }

    /// The logical blocks in any order.
    fn logical_blocks(&mut self) -> Vec<usize> {
        let mut logical_blocks: Vec<usize> = (0..self.chip.shape.logical).collect();
        self.random.shuffle(&mut logical_blocks);
        logical_blocks
    }

    /// Puts these offsets of logical block l into a free block, as long as there
    /// are one and a number for it.
    fn put(&mut self, kind: Kind, l: usize, offsets: &[usize]) {
        let Ok(number) = u32::try_from(self.number) else {
            return;
        };
        let Some(block) = self.free.pop().filter(|_| number <= HIGHEST_NUMBER) else {
            return;
        };
        for (page, offset) in offsets.iter().enumerate() {
            let logical_page = l * self.chip.shape.pages + offset;
            let spare = Spare { number, kind, logical_page };
            self.chip.spare_of(block, page).copy_from_slice(&spare.to_bytes());
            fill_page(self.chip.data_of(block, page), self.random);
        }
        self.number += self.random.between(1, 3) as u64;
    }

    /// The pages of a log block, often all of them.
    fn any_offsets(&mut self) -> Vec<usize> {
        let pages = self.chip.shape.pages;
        let fill = if self.random.one_in(3) { pages } else { self.random.between(1, pages) };
        if self.random.one_in(3) {
            (0..fill).collect()
        } else {
            (0..fill).map(|_| self.random.below(pages)).collect()
        }
    }

    /// The same, but not those of a complete block.
    fn incomplete_offsets(&mut self) -> Vec<usize> {
        let mut offsets = self.any_offsets();
        if offsets.iter().copied().eq(0..self.chip.shape.pages) {
            offsets.swap(0, 1);
        }
        offsets
    }
}

#[cfg(test)]
mod tests {
    use super::*;

    /// The bad blocks of many chips: the pages that are marked, and whether the block
    /// looks used.
    fn bad_blocks() -> Vec<(Vec<usize>, bool)> {
        let mut found = Vec::new();
        for seed in 0..500 {
            let chip = Chip::any(&mut Random::new(seed));
            let card = chip.card().expect("a card");
            let is_entry = |page| Spare::from_bytes(card.spare(page)).is_some();
            let bad = (0..chip.blocks).filter(|block| card.is_bad(*block));
            found.extend(
                bad.map(|block| (card.marked_pages(block), card.pages_of(block).any(is_entry))),
            );
        }
        found
    }

    #[test]
    fn marks_stand_on_either_page_and_on_both() {
        let found = bad_blocks();
        for marked in [vec![0], vec![1], vec![0, 1]] {
            for looks_used in [true, false] {
                assert!(found.contains(&(marked.clone(), looks_used)), "{marked:?} {looks_used}");
            }
        }
    }

    #[test]
    fn a_chip_made_good_has_no_bad_block() {
        let mut random = Random::new(1);
        for _ in 0..100 {
            let mut chip = Chip::erased(&mut random);
            chip.spare.fill(0);
            chip.make_good();
            assert_eq!(chip.card().expect("a card").good_blocks(), chip.blocks);
        }
    }
}
