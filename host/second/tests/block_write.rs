//! Document 02, request (i): the list of steps of a block write.

mod common;

use common::{blank, cut, done, small_card, Chip, NO_CUT};
use second::spare::Kind;
use second::NONE;

/// The block has P pages of kind copy in order, with this sequence number, the addresses
/// of logical block l and the content that a block write with this fill gives it.
#[track_caller]
fn assert_copy(chip: &mut Chip, block: usize, number: u8, l: usize, fill: u8) {
    for page in 0..chip.shape.pages {
        let address = (l * chip.shape.pages + page) as u8;
        let spare = [number, 0, 0, 0, 15, 255, address, 0];
        assert_eq!(chip.spare_of(block, page)[..8], spare, "page {page}");
        assert_eq!(chip.spare_of(block, page)[8..], [255; 8], "page {page}");
        assert_eq!(chip.data_of(block, page), [fill + page as u8; 512], "page {page}");
    }
}

/// The small card with a data block of logical block 0 (block 1, number 3) ..
fn with_data() -> Chip {
    let mut chip = small_card();
    chip.make_up(1, Kind::Copy, 3, &[0, 1, 2, 3]);
    chip
}

/// .. and with a log block of it (block 2, number 4).
fn with_data_and_log() -> Chip {
    let mut chip = with_data();
    chip.make_up(2, Kind::Log, 4, &[3, 0]);
    chip
}

#[test]
fn it_takes_one_block_and_programs_p_pages() {
    let mut chip = small_card();
    assert_eq!(chip.block_write(1, 10), done(4, 0));
    assert_copy(&mut chip, 0, 1, 1, 10);
    assert_eq!([4, 5, 6, 7].map(|number| chip.read(number)), [10, 11, 12, 13]);
    assert_eq!(chip.power_up(NO_CUT), (done(0, 0), vec![NONE, NONE, 0, NONE]));

    chip.erase(0);
    assert_eq!(chip, small_card(), "no other byte was changed");
}

#[test]
fn then_it_erases_the_data_block() {
    let mut chip = with_data();
    assert_eq!(chip.block_write(0, 10), done(4, 1));
    assert_copy(&mut chip, 0, 4, 0, 10);
    chip.erase(0);
    assert_eq!(chip, small_card());
}

#[test]
fn then_it_erases_the_log_block() {
    let mut chip = small_card();
    chip.make_up(2, Kind::Log, 4, &[3, 0]);
    assert_eq!(chip.block_write(0, 10), done(4, 1));
    assert_copy(&mut chip, 0, 5, 0, 10);
    chip.erase(0);
    assert_eq!(chip, small_card());
}

#[test]
fn first_the_log_block_and_then_the_data_block() {
    let mut whole = with_data_and_log();
    assert_eq!(whole.block_write(0, 10), done(4, 2));
    assert_copy(&mut whole, 0, 5, 0, 10);
    assert_eq!(whole.power_up(NO_CUT), (done(0, 0), vec![0, NONE, NONE, NONE]));

    // After the programs the log block, 2, goes before the data block, 1.
    let mut expected = with_data_and_log();
    assert_eq!(expected.block_write_cut(0, 10, 4), cut(4, 0));
    assert_copy(&mut expected, 0, 5, 0, 10);
    for (steps, erased) in [(5, 2), (6, 1)] {
        let mut chip = with_data_and_log();
        assert_eq!(chip.block_write_cut(0, 10, steps).erases, steps - 4);
        expected.erase(erased);
        assert_eq!(chip, expected, "cut at {steps}");
    }
    assert_eq!(expected, whole);
}

#[test]
fn the_block_taken_is_free_before_the_erases() {
    // The data block is the lowest one, but it is erased only after the programs.
    let mut chip = small_card();
    chip.make_up(0, Kind::Log, 7, &[4, 5, 6, 7]);
    assert_eq!(chip.block_write(1, 10), done(4, 1));
    assert_copy(&mut chip, 1, 8, 1, 10);
    // The next one finds it free.
    assert_eq!(chip.block_write(1, 20), done(4, 1));
    assert_copy(&mut chip, 0, 9, 1, 20);
}

#[test]
fn it_goes_past_bad_blocks() {
    let mut chip = blank(4, 6, 2, 1);
    chip.make_bad(0);
    chip.make_bad(2);
    chip.make_up(1, Kind::Copy, 1, &[0, 1, 2, 3]);
    assert_eq!(chip.block_write(0, 10), done(4, 1));
    assert_copy(&mut chip, 3, 2, 0, 10);
}

#[test]
fn the_log_blocks_of_others_stay() {
    // K log blocks are live: a write elsewhere would merge one, a block write does not.
    let before = with_data_and_log();
    let mut chip = before.clone();
    assert_eq!(chip.block_write(1, 10), done(4, 0));
    assert_copy(&mut chip, 0, 5, 1, 10);
    assert_eq!(chip.power_up(NO_CUT), (done(0, 0), vec![1, 2, 0, NONE]));
    chip.erase(0);
    assert_eq!(chip, before);

    assert_eq!(chip.write(4, 10), done(5, 2));
}

#[test]
fn a_log_block_that_is_full_is_not_merged_first() {
    let mut chip = with_data();
    chip.make_up(3, Kind::Log, 4, &[3, 3, 3, 3]);
    assert_eq!(chip.block_write(0, 10), done(4, 2));
    assert_copy(&mut chip, 0, 5, 0, 10);
}

#[test]
fn writes_go_on_from_a_block_write() {
    let mut chip = small_card();
    assert_eq!(chip.block_write(0, 10), done(4, 0));
    assert_eq!(chip.write(2, 30), done(1, 0));
    assert_eq!([0, 1, 2, 3].map(|number| chip.read(number)), [10, 11, 30, 13]);
    assert_eq!([chip.place(2), chip.place(3)], [Some((1, 0)), Some((0, 3))]);
    assert_eq!(chip.block_write(0, 20), done(4, 2));
    assert_eq!([0, 1, 2, 3].map(|number| chip.read(number)), [20, 21, 22, 23]);
}

#[test]
fn the_largest_card_and_the_smallest() {
    let mut chip = blank(32, 64, 62, 1);
    for l in 0..62 {
        assert_eq!(chip.block_write(l, l as u8), done(32, 0));
    }
    assert_eq!(chip.block_write(61, 100), done(32, 1));
    assert_eq!(chip.place(61 * 32 + 31), Some((62, 31)));
    assert_eq!(chip.spare_of(62, 31)[..8], [63, 0, 0, 0, 15, 255, 191, 7]);
    assert_eq!([chip.read(61 * 32), chip.read(62 * 32 - 1)], [100, 131]);
    assert_eq!([chip.read(0), chip.read(61 * 32 - 1)], [0, 91]);

    let mut chip = blank(2, 3, 1, 1);
    for (write, block) in [0, 1, 0, 1].into_iter().enumerate() {
        assert_eq!(chip.block_write(0, 10), done(2, write.min(1)));
        assert_copy(&mut chip, block, write as u8 + 1, 0, 10);
    }
}
