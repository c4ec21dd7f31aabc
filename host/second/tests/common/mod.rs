//! A chip in memory for the tests: an image with its shape.
#![allow(dead_code)] // Each test file uses its own part of this.

use second::spare::{Kind, Spare};
use second::{Answer, Shape};

/// A cut number that no list reaches.
pub const NO_CUT: usize = usize::MAX;

#[derive(Clone, Debug, PartialEq, Eq)]
pub struct Chip {
    pub data: Vec<u8>,
    pub spare: Vec<u8>,
    pub shape: Shape,
}

/// A chip of B blocks with all bytes 255.
pub fn blank(pages: usize, blocks: usize, logical: usize, logs: usize) -> Chip {
    Chip {
        data: vec![255; blocks * pages * 512],
        spare: vec![255; blocks * pages * 16],
        shape: Shape { pages, logical, logs },
    }
}

/// The small card of the document: P 4, L 2, K 1, B 4, all blocks good.
pub fn small_card() -> Chip {
    blank(4, 4, 2, 1)
}

pub fn done(programs: usize, erases: usize) -> Answer {
    Answer { number: 0, programs, erases }
}

pub fn cut(programs: usize, erases: usize) -> Answer {
    Answer { number: 8, programs, erases }
}

pub fn refused(number: u8) -> Answer {
    Answer { number, programs: 0, erases: 0 }
}

impl Chip {
    pub fn format(&mut self, cut: usize) -> Answer {
        second::format(&mut self.data, &mut self.spare, self.shape, cut)
    }

    /// Power-up with a table that starts as 7s, so that one not filled shows.
    pub fn power_up(&mut self, cut: usize) -> (Answer, Vec<u16>) {
        let mut table = vec![7; 2 * self.shape.logical];
        let answer = second::power_up(&mut self.data, &mut self.spare, &mut table, self.shape, cut);
        (answer, table)
    }

    /// Writes a page filled with one byte.
    pub fn write_cut(&mut self, number: usize, fill: u8, cut: usize) -> Answer {
        let page = [fill; 512];
        second::write(&mut self.data, &mut self.spare, &page, self.shape, number, cut)
    }

    pub fn write(&mut self, number: usize, fill: u8) -> Answer {
        self.write_cut(number, fill, NO_CUT)
    }

    /// Writes a logical block whose pages are filled with one byte each, the first with
    /// this one, the next with the next ones.
    pub fn block_write_cut(&mut self, number: usize, fill: u8, cut: usize) -> Answer {
        let fills = (0..self.shape.pages).map(|page| fill.wrapping_add(page as u8));
        let block: Vec<u8> = fills.flat_map(|fill| [fill; 512]).collect();
        second::block_write(&mut self.data, &mut self.spare, &block, self.shape, number, cut)
    }

    pub fn block_write(&mut self, number: usize, fill: u8) -> Answer {
        self.block_write_cut(number, fill, NO_CUT)
    }

    /// Reads a page that is filled with one byte, and gives this byte.
    pub fn read(&self, number: usize) -> u8 {
        let mut page = [7; 512];
        let answer = second::read(&self.data, &self.spare, &mut page, self.shape, number);
        assert_eq!(answer, done(0, 0));
        assert!(page.iter().all(|byte| *byte == page[0]), "a page of two minds: {page:?}");
        page[0]
    }

    /// The block and the page in it that hold a logical page.
    pub fn place(&self, number: usize) -> Option<(usize, usize)> {
        let lent = second::lend(&self.data, &self.spare, self.shape, number)?;
        assert_eq!(lent.bytes, &self.data[lent.at..lent.at + 512]);
        let page = lent.at / 512;
        Some((page / self.shape.pages, page % self.shape.pages))
    }

    pub fn spare_of(&mut self, block: usize, page: usize) -> &mut [u8] {
        let at = (block * self.shape.pages + page) * 16;
        &mut self.spare[at..at + 16]
    }

    pub fn data_of(&mut self, block: usize, page: usize) -> &mut [u8] {
        let at = (block * self.shape.pages + page) * 512;
        &mut self.data[at..at + 512]
    }

    /// Makes up a block: its pages hold these logical pages, in this order, with
    /// data bytes that are ten times the block plus the page.
    pub fn make_up(&mut self, block: usize, kind: Kind, number: u32, logical_pages: &[usize]) {
        for (page, logical_page) in logical_pages.iter().enumerate() {
            let spare = Spare { number, kind, logical_page: *logical_page };
            self.spare_of(block, page).copy_from_slice(&spare.to_bytes());
            self.data_of(block, page).fill((10 * block + page) as u8);
        }
    }

    /// Makes a block free, as an erase does.
    pub fn erase(&mut self, block: usize) {
        for page in 0..self.shape.pages {
            self.spare_of(block, page).fill(255);
            self.data_of(block, page).fill(255);
        }
    }

    pub fn make_bad(&mut self, block: usize) {
        self.mark(block, 0);
    }

    /// Puts a mark such as the maker's on a page of a block.
    pub fn mark(&mut self, block: usize, page: usize) {
        self.spare_of(block, page)[5] = 0;
    }

    /// What each of format, power-up, read, write and block write answers (of page 0 and
    /// of logical block 0). Those that refuse are held to changing nothing.
    pub fn answers(&self) -> [u8; 5] {
        [
            self.answer_of(|chip| chip.format(NO_CUT)),
            self.answer_of(|chip| chip.power_up(NO_CUT).0),
            self.answer_of(|chip| {
                let mut page = [7; 512];
                let answer = second::read(&chip.data, &chip.spare, &mut page, chip.shape, 0);
                assert!(answer.number == 0 || page == [7; 512]);
                answer
            }),
            self.answer_of(|chip| chip.write(0, 1)),
            self.answer_of(|chip| chip.block_write(0, 1)),
        ]
    }

    fn answer_of(&self, command: impl Fn(&mut Chip) -> Answer) -> u8 {
        let mut chip = self.clone();
        let answer = command(&mut chip);
        assert!(answer.number == 0 || (answer == refused(answer.number) && chip == *self));
        answer.number
    }
}
