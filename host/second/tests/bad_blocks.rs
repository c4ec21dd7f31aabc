//! Document 02, request (ii): the maker marks bad blocks on the second page too.

mod common;

use common::{blank, done, small_card, Chip, NO_CUT};
use second::block::Rule;
use second::blocks::{Blocks, Breach};
use second::card::Card;
use second::spare::Kind;
use second::{Answer, NONE};

const ILL_FORMED: [u8; 5] = [0, 5, 5, 5, 5];
const OBSOLETE: [u8; 5] = [0, 0, 0, 6, 6];
const RECOVERED: [u8; 5] = [0, 0, 0, 0, 0];
const TOO_FEW_BLOCKS: [u8; 5] = [4, 4, 4, 4, 4];

fn card(chip: &Chip) -> Card<'_> {
    Card::new(&chip.data, &chip.spare, chip.shape).expect("a card")
}

fn breaches(chip: &Chip) -> Vec<Breach> {
    Blocks::on(&card(chip)).breaches()
}

/// Marks on these pages make a block bad, and no other: where there were just enough good
/// blocks, all commands refuse.
#[track_caller]
fn makes_bad(pages: &[usize]) {
    for (chip, blocks) in [(small_card(), 4), (blank(2, 3, 1, 1), 3), (blank(32, 3, 1, 1), 3)] {
        assert_eq!(chip.answers(), RECOVERED);
        for block in 0..blocks {
            let mut chip = chip.clone();
            pages.iter().for_each(|page| chip.mark(block, *page));
            assert_eq!(chip.answers(), TOO_FEW_BLOCKS, "block {block}");
            assert_eq!(chip.place(0), None);

            let card = card(&chip);
            let bad: Vec<usize> = (0..blocks).filter(|block| card.is_bad(*block)).collect();
            assert_eq!(bad, [block]);
            for other in 0..blocks {
                let marked = if other == block { pages } else { &[] };
                assert_eq!(card.marked_pages(other), marked);
            }
        }
    }
}

#[test]
fn a_mark_on_page_0_alone() {
    makes_bad(&[0]);
}

#[test]
fn a_mark_on_page_1_alone() {
    makes_bad(&[1]);
}

#[test]
fn a_mark_on_both() {
    makes_bad(&[0, 1]);
}

#[test]
fn any_value_but_255_is_a_mark() {
    for page in [0, 1] {
        for byte in 0..=255 {
            let mut chip = small_card();
            chip.spare_of(2, page)[5] = byte;
            let expected = if byte == 255 { RECOVERED } else { TOO_FEW_BLOCKS };
            assert_eq!(chip.answers(), expected, "{byte} on page {page}");
        }
    }
}

#[test]
fn a_mark_on_page_2_leaves_a_block_good() {
    let mut used = small_card();
    used.make_up(1, Kind::Log, 1, &[0, 1, 2]);
    assert_eq!(used.answers(), RECOVERED);
    // Of a block that was free it makes one that is used, with a gap before the mark.
    for (mut chip, rule) in [(used, Rule::W2), (small_card(), Rule::W1)] {
        chip.mark(1, 2);
        assert_eq!(card(&chip).marked_pages(1), []);
        assert_eq!(breaches(&chip), [Breach { rule, blocks: vec![1] }]);
        assert_eq!(chip.answers(), ILL_FORMED);
        assert_eq!(chip.format(NO_CUT), done(0, 1));
        assert_eq!(chip, small_card());
    }
}

/// Kind, sequence number and logical pages that a block is made up with, and what the card
/// answers if it is good.
type Look = (Kind, u32, &'static [usize], [u8; 5]);

/// What block 0 of the card below can look like.
const LOOKS: [Look; 11] = [
    // A free block, and the data block of logical block 1 with the last number.
    (Kind::Copy, 1, &[], RECOVERED),
    (Kind::Copy, 4_294_967_294, &[4, 5, 6, 7], [0, 0, 0, 0, 7]),
    // The data block of logical block 0 in place of those that are there; an older one;
    // a copy half made; an older log block.
    (Kind::Copy, 9, &[0, 1, 2, 3], OBSOLETE),
    (Kind::Copy, 2, &[0, 1, 2, 3], OBSOLETE),
    (Kind::Copy, 9, &[0, 1], OBSOLETE),
    (Kind::Log, 2, &[0, 1], OBSOLETE),
    // W3 to W7, in this order; W6 together with W7.
    (Kind::Log, 9, &[8, 9], ILL_FORMED),
    (Kind::Copy, 9, &[1, 0], ILL_FORMED),
    (Kind::Copy, 5, &[4, 5, 6, 7], ILL_FORMED),
    (Kind::Log, 9, &[3, 2], ILL_FORMED),
    (Kind::Log, 9, &[4, 5], ILL_FORMED),
];

/// A card with room for one bad block: P 4, L 2, K 1, B 5. The data block of logical
/// block 0 is block 1 (number 3) and its live log block 2 (number 5); block 0 looks so.
fn with_look((kind, number, logical_pages, _): Look) -> Chip {
    let mut chip = blank(4, 5, 2, 1);
    chip.make_up(0, kind, number, logical_pages);
    chip.make_up(1, Kind::Copy, 3, &[0, 1, 2, 3]);
    chip.make_up(2, Kind::Log, 5, &[3]);
    chip
}

/// The same with block 0 bad by its page 1.
fn with_bad(look: Look) -> Chip {
    let mut chip = with_look(look);
    chip.mark(0, 1);
    chip
}

/// The data and spare bytes of block 0.
fn block_0(chip: &Chip) -> (&[u8], &[u8]) {
    (&chip.data[..2048], &chip.spare[..64])
}

/// The card without block 0.
fn others(chip: &Chip) -> Chip {
    Chip { data: chip.data[2048..].to_vec(), spare: chip.spare[64..].to_vec(), shape: chip.shape }
}

#[test]
fn its_number_and_addresses_break_no_rule() {
    for look in LOOKS {
        let (.., if_good) = look;
        assert_eq!(with_look(look).answers(), if_good);
        assert_eq!(breaches(&with_bad(look)), []);
        assert_eq!(with_bad(look).answers(), RECOVERED);
    }
}

#[test]
fn its_number_is_not_the_highest() {
    for look in LOOKS {
        // The merge takes block 3, the log block then block 1.
        let mut chip = with_bad(look);
        assert_eq!(chip.write(4, 99), done(5, 2));
        assert_eq!(chip.spare_of(3, 0)[..8], [6, 0, 0, 0, 15, 255, 0, 0]);
        assert_eq!(chip.spare_of(1, 0)[..8], [7, 0, 0, 0, 240, 255, 4, 0]);

        let mut chip = with_bad(look);
        assert_eq!(chip.block_write(1, 99), done(4, 0));
        assert_eq!(chip.spare_of(3, 0)[..8], [6, 0, 0, 0, 15, 255, 4, 0]);
    }
}

#[test]
fn it_holds_no_content() {
    for look in LOOKS {
        let mut chip = with_bad(look);
        assert_eq!([0, 1, 2, 3].map(|number| chip.read(number)), [10, 11, 12, 20]);
        assert_eq!([4, 5, 6, 7].map(|number| chip.read(number)), [255; 4]);
        assert_eq!([4, 5, 6, 7].map(|number| chip.place(number)), [None; 4]);
        assert_eq!(chip.power_up(NO_CUT), (done(0, 0), vec![1, 2, NONE, NONE]));
    }
}

#[test]
fn it_is_neither_programmed_nor_erased() {
    // All steps are done on the other blocks, as if it were not there.
    let commands: [fn(&mut Chip, usize) -> Answer; 6] = [
        |chip, round| chip.write_cut(round % 8, round as u8, round % 9),
        |chip, round| chip.power_up(round % 2).0,
        |chip, _| chip.power_up(NO_CUT).0,
        |chip, round| chip.block_write_cut(round % 2, round as u8, round % 7),
        |chip, round| chip.power_up(round % 2).0,
        |chip, _| chip.power_up(NO_CUT).0,
    ];
    for look in LOOKS {
        let before = with_bad(look);
        let mut chip = before.clone();
        let mut without = others(&chip);
        for round in 0..72 {
            for command in commands {
                let answer = command(&mut chip, round);
                assert!([0, 8].contains(&answer.number), "{answer:?}");
                assert_eq!(answer, command(&mut without, round));
                assert_eq!(others(&chip), without);
                assert_eq!(block_0(&chip), block_0(&before));
            }
        }
        assert_eq!(chip.format(NO_CUT), without.format(NO_CUT));
        assert_eq!(block_0(&chip), block_0(&before));
        assert_eq!(others(&chip), small_card());
    }
}

#[test]
fn format_leaves_its_bytes() {
    // No byte of the card is 255, but for those that make the other blocks good.
    let mut before = blank(4, 5, 2, 1);
    before.data.fill(7);
    before.spare.fill(7);
    before.spare_of(0, 0)[5] = 255;
    for block in 1..5 {
        before.spare_of(block, 0)[5] = 255;
        before.spare_of(block, 1)[5] = 255;
    }
    let mut expected = before.clone();
    for cut in 0..4 {
        let mut chip = before.clone();
        let answer = chip.format(cut);
        assert_eq!((answer.number, answer.programs, answer.erases), (8, 0, cut));
        assert_eq!(chip, expected, "cut at {cut}");
        expected.erase(cut + 1);
    }
    let mut chip = before.clone();
    assert_eq!(chip.format(NO_CUT), done(0, 4));
    assert_eq!(chip, expected);
    // There is nothing more to erase.
    assert_eq!(chip.format(NO_CUT), done(0, 0));
    assert_eq!(chip, expected);
}
