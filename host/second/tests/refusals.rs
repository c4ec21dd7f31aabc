//! Every refusal of every command, at the edge where it begins, and their order.

mod common;

use common::{blank, cut, done, refused, small_card, Chip, NO_CUT};
use second::spare::Kind;
use second::{Answer, Shape};

#[test]
fn refusal_1_limits_of_the_shape() {
    let answers = |pages, blocks, logical, logs| blank(pages, blocks, logical, logs).answers();
    for (pages, number) in [(0, 1), (1, 1), (2, 0), (32, 0), (33, 1)] {
        assert_eq!(answers(pages, 4, 2, 1), [number; 5], "P {pages}");
    }
    for (blocks, number) in [(0, 1), (2, 1), (3, 0), (64, 0), (65, 1)] {
        assert_eq!(answers(4, blocks, 1, 1), [number; 5], "B {blocks}");
    }
    assert_eq!(answers(4, 4, 0, 1), [1; 5], "L 0");
    assert_eq!(answers(4, 4, 2, 0), [1; 5], "K 0");
}

#[test]
fn refusal_1_lengths_of_the_image() {
    let answers = |data: usize, spare: usize| {
        let mut chip = small_card();
        chip.data.resize(data, 255);
        chip.spare.resize(spare, 255);
        chip.answers()
    };
    assert_eq!(answers(8192, 256), [0; 5]);
    // A byte more or less, a page more or less, a block on one side alone.
    for data in [0, 8191, 8193, 8192 - 512, 8192 + 512, 8192 + 2048] {
        assert_eq!(answers(data, 256), [1; 5], "{data} data bytes");
    }
    for spare in [0, 255, 257, 256 - 16, 256 + 16, 256 + 64] {
        assert_eq!(answers(8192, spare), [1; 5], "{spare} spare bytes");
    }
    // The same number of pages on both sides, but not of whole blocks.
    assert_eq!(answers(8192 + 512, 256 + 16), [1; 5]);
}

#[test]
fn refusal_2_page_buffer_block_buffer_and_table() {
    let Chip { mut data, mut spare, shape } = small_card();
    for bytes in [0, 1, 511, 513, 1024] {
        let mut page = vec![7; bytes];
        assert_eq!(second::read(&data, &spare, &mut page, shape, 0), refused(2));
        assert_eq!(page, vec![7; bytes]);
        assert_eq!(second::write(&mut data, &mut spare, &page, shape, 0, NO_CUT), refused(2));
    }
    // A page is no block; nor is one with a byte or a page more or less.
    for bytes in [0, 1, 512, 1536, 2047, 2049, 2560, 8192] {
        let block = vec![7; bytes];
        let answer = second::block_write(&mut data, &mut spare, &block, shape, 0, NO_CUT);
        assert_eq!(answer, refused(2), "{bytes} bytes");
    }
    for entries in [0, 1, 2, 3, 5, 8] {
        let mut table = vec![7; entries];
        let answer = second::power_up(&mut data, &mut spare, &mut table, shape, NO_CUT);
        assert_eq!(answer, refused(2));
        assert_eq!(table, vec![7; entries]);
    }
    assert_eq!(Chip { data, spare, shape }, small_card());
}

#[test]
fn refusal_3_logical_page() {
    let mut chip = small_card();
    for number in [8, 9, 65_535, 65_536, usize::MAX] {
        assert_eq!(chip.write(number, 1), refused(3));
        assert_eq!(chip.place(number), None);
        let mut page = [7; 512];
        let answer = second::read(&chip.data, &chip.spare, &mut page, chip.shape, number);
        assert_eq!((answer, page), (refused(3), [7; 512]));
    }
    assert_eq!(chip.write(7, 1), done(1, 0));
}

#[test]
fn refusal_3_logical_block() {
    let mut chip = small_card();
    // Those up to 7 are pages in range, but no logical blocks.
    for number in [2, 3, 7, 8, 65_535, 65_536, usize::MAX] {
        assert_eq!(chip.block_write(number, 1), refused(3), "logical block {number}");
    }
    assert_eq!(chip, small_card());
    assert_eq!(chip.block_write(1, 1), done(4, 0));
}

#[test]
fn refusal_4_good_blocks() {
    let with_bad = |bad: usize| {
        let mut chip = blank(4, 8, 3, 2);
        (0..bad).for_each(|block| chip.make_bad(block));
        chip.answers()
    };
    assert_eq!(with_bad(2), [0; 5]);
    assert_eq!(with_bad(3), [4; 5]);
    assert_eq!(with_bad(8), [4; 5]);
}

#[test]
fn refusal_5_is_not_for_format() {
    let mut chip = small_card();
    chip.spare_of(1, 2).fill(0);
    assert_eq!(chip.answers(), [0, 5, 5, 5, 5]);
    assert_eq!(chip.place(0), None);
    assert_eq!(chip.format(NO_CUT), done(0, 1));
    assert_eq!(chip, small_card());
}

#[test]
fn refusal_6_is_for_the_writes_alone() {
    let mut chip = small_card();
    chip.make_up(0, Kind::Copy, 1, &[0]);
    assert_eq!(chip.answers(), [0, 0, 0, 6, 6]);
    assert_eq!(chip.power_up(NO_CUT).0, done(0, 1));
    assert_eq!(chip.answers(), [0; 5]);
}

#[test]
fn refusal_7_counts_the_numbers_needed() {
    let top = 4_294_967_294;
    let write = |number: u32, logical_pages: &[usize], page: usize| {
        let mut chip = small_card();
        chip.make_up(0, Kind::Log, number, logical_pages);
        chip.write(page, 1)
    };
    // None: a live log block with room.
    assert_eq!(write(top, &[0], 0), done(1, 0));
    // One: a new log block where K are not live.
    assert_eq!(write(top - 1, &[0, 1, 2, 3], 0), done(1, 0));
    assert_eq!(write(top, &[0, 1, 2, 3], 0), refused(7));
    // Two: a merge, of the same logical block or of another.
    assert_eq!(write(top - 2, &[0, 0, 0, 0], 0), done(5, 1));
    assert_eq!(write(top - 1, &[0, 0, 0, 0], 0), refused(7));
    assert_eq!(write(top - 2, &[0], 4), done(5, 1));
    assert_eq!(write(top - 1, &[0], 4), refused(7));
}

#[test]
fn refusal_7_a_block_write_needs_one_number() {
    let top = 4_294_967_294;
    // Log blocks with room, full and complete; the logical block itself and another.
    for logical_pages in [[0].as_slice(), &[0, 0, 0, 0], &[0, 1, 2, 3]] {
        for l in [0, 1] {
            let mut chip = small_card();
            chip.make_up(0, Kind::Log, top, logical_pages);
            let before = chip.clone();
            assert_eq!(chip.block_write(l, 1), refused(7));
            assert_eq!(chip, before);

            chip.make_up(0, Kind::Log, top - 1, logical_pages);
            assert_eq!(chip.block_write(l, 1), done(4, 1 - l));
            for page in 0..4 {
                assert_eq!(chip.spare_of(1, page)[..4], [254, 255, 255, 255]);
            }
        }
    }
}

#[test]
fn refusal_8_where_the_cut_is_below_the_length_of_the_list() {
    let mut chip = small_card();
    chip.make_up(0, Kind::Copy, 1, &[0]);
    chip.make_up(2, Kind::Copy, 2, &[0]);
    let before = chip.clone();

    assert_eq!(chip.clone().format(1).number, 8);
    assert_eq!(chip.clone().format(2), done(0, 2));

    let (answer, table) = chip.power_up(1);
    assert_eq!((answer.number, answer.programs, answer.erases), (8, 0, 1));
    assert_eq!(table, [7; 4], "no table is filled");
    assert_eq!(chip.spare_of(0, 0), [255; 16]);
    assert_eq!(chip.spare_of(2, 0), before.clone().spare_of(2, 0));

    assert_eq!(small_card().write_cut(0, 1, 0).number, 8);
    assert_eq!(small_card().write_cut(0, 1, 1), done(1, 0));
    assert_eq!(small_card().block_write_cut(0, 1, 3), cut(3, 0));
    assert_eq!(small_card().block_write_cut(0, 1, 4), done(4, 0));
    // An empty list is all done, whatever the cut.
    assert_eq!(small_card().format(0), done(0, 0));
    assert_eq!(small_card().power_up(0), (done(0, 0), vec![second::NONE; 4]));
}

/// Write or block write: both are given a buffer, the shape, a number and a cut.
type Write = fn(&mut [u8], &mut [u8], &[u8], Shape, usize, usize) -> Answer;

#[test]
fn the_lowest_number_that_applies_is_the_answer() {
    // The bytes of a page and the first number that is no page; the same of a block.
    in_order(second::write, 512, 8);
    in_order(second::block_write, 2048, 2);
}

/// A card to which all of 1 to 8 apply; they are then taken away one by one.
fn in_order(write: Write, bytes: usize, mut number: usize) {
    let mut chip = small_card();
    let mut buffer = vec![1; bytes - 1];
    chip.make_up(0, Kind::Log, 4_294_967_294, &[0, 0, 0, 0]);
    chip.make_up(1, Kind::Copy, 1, &[0]);
    chip.make_bad(3);
    chip.spare_of(2, 3)[0] = 0;
    chip.shape.pages = 5;

    let expect = |chip: &Chip, buffer: &[u8], number: usize, answer: u8| {
        let Chip { mut data, mut spare, shape } = chip.clone();
        let given = write(&mut data, &mut spare, buffer, shape, number, 0);
        assert_eq!(given, refused(answer));
        assert_eq!(Chip { data, spare, shape }, *chip);
    };
    expect(&chip, &buffer, number, 1);
    chip.shape.pages = 4;
    expect(&chip, &buffer, number, 2);
    buffer.push(1);
    expect(&chip, &buffer, number, 3);
    number = 0;
    expect(&chip, &buffer, number, 4);
    chip.spare_of(3, 0)[5] = 255;
    expect(&chip, &buffer, number, 5);
    chip.spare_of(2, 3)[0] = 255;
    expect(&chip, &buffer, number, 6);
    chip.erase(1);
    expect(&chip, &buffer, number, 7);
    for page in 0..4 {
        chip.spare_of(0, page)[0] = 1;
    }
    expect(&chip, &buffer, number, 8);
}

#[test]
fn the_order_at_power_up() {
    let Chip { mut data, mut spare, shape } = small_card();
    spare[5] = 0; // block 0 bad: 4 applies
    spare[64 + 63] = 0; // block 1 ill-formed: 5 applies
    let mut answer = |shape: Shape, entries: usize| {
        second::power_up(&mut data, &mut spare, &mut vec![7; entries], shape, 0)
    };
    assert_eq!(answer(Shape { pages: 3, ..shape }, 3), refused(1));
    assert_eq!(answer(shape, 3), refused(2));
    assert_eq!(answer(shape, 4), refused(4));
    assert_eq!(answer(Shape { logical: 1, ..shape }, 2), refused(5));
}
