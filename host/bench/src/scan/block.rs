//! One good block: what its pages say, and the rules W1 to W4.

use super::erased;
use crate::card::{DATA_BYTES, SPARE_BYTES};
use second::spare::HIGHEST_NUMBER;

const LOG: u8 = 240;
const COPY: u8 = 15;

/// The pages of a block.
#[derive(Clone, Copy)]
pub struct Pages<'a> {
    pub data: &'a [[u8; DATA_BYTES]],
    pub spare: &'a [[u8; SPARE_BYTES]],
}

/// What a good block is by itself.
pub enum Block {
    /// All its pages are erased.
    Free,
    /// Not free, and W1 to W4 are true of it.
    Used(Used),
    /// Not free, and one of W1 to W4 is not true of it.
    Ill,
}

/// What the pages of a used block say, in few bytes.
#[derive(Clone, Copy, Default)]
pub struct Used {
    pub number: u32,
    /// The logical block, below 62 where the good blocks suffice for L.
    pub logical: u8,
    /// The pages programmed.
    pub filled: u8,
    pub is_log: bool,
    /// All P pages are programmed, and page i has offset i.
    pub is_complete: bool,
}

/// Each page is tested for erased, by the plain loop.
pub fn plain(pages: Pages, logical: usize) -> Block {
    let mut tests =
        pages.data.iter().zip(pages.spare).map(|(data, spare)| erased::plain(data, spare));
    let filled = tests.by_ref().take_while(|erased| !erased).count();
    if tests.all(|erased| erased) {
        used(&pages.spare[..filled], pages.spare.len(), logical)
    } else {
        Block::Ill
    }
}

/// The spare bytes say which pages must be erased, and those alone are tested.
pub fn quick(pages: Pages, logical: usize) -> Block {
    let filled = filled(pages.spare);
    let mut rest = pages.data.iter().zip(pages.spare).skip(filled);
    if rest.all(|(data, spare)| erased::quick(data, spare)) {
        used(&pages.spare[..filled], pages.spare.len(), logical)
    } else {
        Block::Ill
    }
}

/// How many pages are programmed, if W1 is true.
fn filled(spare: &[[u8; SPARE_BYTES]]) -> usize {
    let is_programmed = |spare: &[u8; SPARE_BYTES]| u128::from_le_bytes(*spare) != u128::MAX;
    match spare.last() {
        Some(last) if is_programmed(last) => spare.len(),
        _ => spare.partition_point(is_programmed),
    }
}

/// The block of which these pages are programmed and the others erased: W2 to W4.
fn used(programmed: &[[u8; SPARE_BYTES]], pages: usize, logical: usize) -> Block {
    let Some(first) = programmed.first() else { return Block::Free };
    let Some(first) = First::of(first, pages, logical) else { return Block::Ill };
    let in_order = first.in_order(programmed);
    if in_order || first.kind() == LOG && first.joined_by(programmed, pages) {
        Block::Used(Used {
            number: first.number(),
            logical: first.logical,
            filled: programmed.len() as u8,
            is_log: first.kind() == LOG,
            is_complete: in_order && programmed.len() == pages,
        })
    } else {
        Block::Ill
    }
}

/// The spare bytes of a page as two words: number, kind, status and address; the rest.
fn words(spare: &[u8; SPARE_BYTES]) -> [u64; 2] {
    let both = u128::from_le_bytes(*spare);
    [both as u64, (both >> 64) as u64]
}

/// One address up, in the first word.
const ONE_UP: u64 = 1 << 48;

/// What the first page of a used block says; the others are held against it.
#[derive(Clone, Copy)]
struct First {
    /// The first word of a page of this block with offset 0.
    word: u64,
    logical: u8,
}

impl First {
    /// None when number or kind are not as in the table, or the address is out of range.
    /// Byte 5 of the first page is 255 in a good block; bytes 8 to 15 are looked at with
    /// those of the other pages.
    fn of(spare: &[u8; SPARE_BYTES], pages: usize, logical_blocks: usize) -> Option<First> {
        let [word, _] = words(spare);
        let address = (word / ONE_UP) as u32;
        let logical = address / pages as u32;
        let start = u64::from(logical) * pages as u64 * ONE_UP;
        let first = First { word: start + word % ONE_UP, logical: logical as u8 };
        let is_entry = (1..=HIGHEST_NUMBER).contains(&first.number())
            && (first.kind() == LOG || first.kind() == COPY)
            && (logical as usize) < logical_blocks;
        is_entry.then_some(first)
    }

    fn number(self) -> u32 {
        self.word as u32
    }

    fn kind(self) -> u8 {
        (self.word >> 32) as u8
    }

    /// Whether these are pages of one block with this one, page i with offset i. It
    /// looks at all of them: most blocks are so.
    fn in_order(self, programmed: &[[u8; SPARE_BYTES]]) -> bool {
        let mut expected = self.word;
        let (mut differ, mut rests) = (0, u64::MAX);
        for spare in programmed {
            let [word, rest] = words(spare);
            differ |= word ^ expected;
            rests &= rest;
            expected = expected.wrapping_add(ONE_UP);
        }
        differ == 0 && rests == u64::MAX
    }

    /// Whether these are pages of one block with this one, with any offsets.
    fn joined_by(self, programmed: &[[u8; SPARE_BYTES]], pages: usize) -> bool {
        programmed.iter().all(|spare| {
            let [word, rest] = words(spare);
            // Where all else is equal the difference is that of the addresses alone.
            let offset = word.wrapping_sub(self.word).rotate_left(16);
            offset < pages as u64 && rest == u64::MAX
        })
    }
}
