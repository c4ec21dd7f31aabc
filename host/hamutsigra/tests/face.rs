//! The face over the library: that each parameter arrives in its place, and each
//! refusal comes back as itself. (That the answers are the right ones is for the
//! proofs and for `compare`.)

use hamutsigra::{raw, Card, Refusal, Shape, Steps, TableEntry};

const SHAPE: Shape = Shape { pages: 4, logical: 2, logs: 1 };

fn blank(blocks: usize) -> Card<Vec<u8>> {
    Card::new(vec![255; blocks * 4 * 512], vec![255; blocks * 4 * 16], SHAPE)
}

fn steps(programs: u32, erases: u32) -> Steps {
    Steps { programs, erases }
}

/// The small card of document 01 after case 4: page 3 is alone in the log block.
fn after_case_4() -> Card<Vec<u8>> {
    let mut card = blank(4);
    for (number, fill) in [(1, 10), (0, 11), (1, 12), (2, 13)] {
        assert_eq!(card.write(number, &[fill; 512], None), Ok(steps(1, 0)));
    }
    assert_eq!(card.write(3, &[14; 512], None), Ok(steps(5, 1)));
    card
}

#[test]
fn written_pages_are_read_and_lent() {
    let card = after_case_4();
    for (number, fill) in [(0, 11), (1, 12), (2, 13), (3, 14), (4, 255)] {
        assert_eq!(card.read(number), Ok([fill; 512]));
        let mut page = [7; 512];
        assert_eq!(card.read_into(number, &mut page), Ok(()));
        assert_eq!(page, [fill; 512]);
    }
    let lent = card.lend(2).expect("page 2 is held in block 1");
    assert_eq!((lent.at, lent.bytes), ((4 + 2) * 512, &[13; 512]));
    assert_eq!(card.lend(4), None, "nothing holds page 4");
    assert_eq!(card.lend(8), None, "page 8 is out of range");
    let mut page = [7; 512];
    assert_eq!(card.read_into(8, &mut page), Err(Refusal::OutOfRange));
    assert_eq!(page, [7; 512], "a refusal leaves the page");
}

#[test]
fn a_card_owns_its_bytes_or_is_lent_them() {
    let (mut data, mut spare) = ([255; 4 * 4 * 512], [255; 4 * 4 * 16]);
    let owned = Card::new(data, spare, SHAPE);
    let mut lent = Card::new(&mut data[..], &mut spare[..], SHAPE);
    assert_eq!(lent.write(5, &[7; 512], None), Ok(steps(1, 0)));
    assert_eq!(owned.read(5), Ok([255; 512]), "it has bytes of its own");
    let looked_at = Card::new(&data, &spare, SHAPE);
    assert_eq!(looked_at.read(5), Ok([7; 512]));
    assert_eq!(looked_at.lent().read(5), looked_at.read(5));
    assert_eq!(looked_at.shape(), SHAPE);
    let other = looked_at.with_shape(Shape { logical: 1, ..SHAPE });
    assert_eq!(other.read(5), Err(Refusal::OutOfRange));
    assert_eq!(other.into_parts(), (&data, &spare));
}

#[test]
fn a_cut_write_says_how_far_it_came() {
    let mut card = after_case_4();
    assert_eq!(card.write(4, &[15; 512], Some(5)), Err(Refusal::Cut(steps(4, 1))));
    assert_eq!(card.write(4, &[15; 512], None), Err(Refusal::NeedsPowerUp));

    let mut table = [TableEntry::default(); 2];
    assert_eq!(card.power_up(&mut table, Some(0)), Err(Refusal::Cut(steps(0, 0))));
    assert_eq!(table, [TableEntry::default(); 2], "no table is filled");
    assert_eq!(card.power_up(&mut table, None), Ok(steps(0, 1)));
    let blocks = table.map(|entry| (entry.data_block(), entry.log_block()));
    assert_eq!(blocks, [(Some(2), None), (None, None)]);
    assert_eq!(card.write(4, &[15; 512], None), Ok(steps(1, 0)));
    assert_eq!(card.power_up(&mut table, None), Ok(steps(0, 0)));
    assert_eq!(table[1].log_block(), Some(0));
}

/// Four pages, each filled with one byte.
fn block(fills: [u8; 4]) -> Vec<u8> {
    fills.map(|fill| [fill; 512]).concat()
}

fn contents(card: &Card<Vec<u8>>, pages: std::ops::Range<usize>) -> Vec<u8> {
    pages.flat_map(|number| card.read(number).expect("a page")).collect()
}

#[test]
fn a_block_is_written_all_or_none() {
    let (old, new) = (block([11, 12, 13, 14]), block([21, 22, 23, 24]));
    for cut in 0..6 {
        let mut card = after_case_4();
        let done = steps(cut.min(4), cut.saturating_sub(4));
        assert_eq!(card.block_write(0, &new, Some(cut as usize)), Err(Refusal::Cut(done)));
        let expected = if done.programs == 4 { &new } else { &old };
        assert_eq!(contents(&card, 0..4), *expected, "cut at {cut}");
    }
    let mut card = after_case_4();
    assert_eq!(card.block_write(0, &new, Some(6)), Ok(steps(4, 2)));
    assert_eq!(card.block_write(1, &old, None), Ok(steps(4, 0)));
    assert_eq!(contents(&card, 0..8), [new, old].concat());
    assert_eq!(card.lend(5).map(|lent| lent.at), Some(512), "the lowest-numbered free block");
}

#[test]
fn format_erases_what_is_not_free() {
    let mut card = after_case_4();
    assert_eq!(card.format(Some(1)), Err(Refusal::Cut(steps(0, 1))));
    assert_eq!(card.format(None), Ok(steps(0, 1)));
    assert_eq!(card, blank(4));
}

#[test]
fn each_refusal_comes_back_as_itself() {
    let page = [7; 512];
    let mut card = blank(4);
    let outside = Shape { pages: 1, ..SHAPE };
    assert_eq!(card.clone().with_shape(outside).write(0, &page, None), Err(Refusal::OutsideLimits));
    assert_eq!(card.write(8, &page, None), Err(Refusal::OutOfRange));
    let large = Shape { logical: 1 << 63, ..SHAPE };
    assert_eq!(card.clone().with_shape(large).write(0, &page, None), Err(Refusal::TooFewBlocks));
    let block = [7; 2048];
    let answer = card.clone().with_shape(outside).block_write(0, &block, None);
    assert_eq!(answer, Err(Refusal::OutsideLimits));
    for bytes in [0, 512, 2047] {
        assert_eq!(card.block_write(2, &block[..bytes], None), Err(Refusal::WrongBuffer));
    }
    for number in [2, 8, usize::MAX] {
        assert_eq!(card.block_write(number, &block, None), Err(Refusal::OutOfRange));
    }
    let answer = card.clone().with_shape(large).block_write(2, &block, None);
    assert_eq!(answer, Err(Refusal::TooFewBlocks));
    for entries in [0, 1, 3] {
        let mut table = vec![TableEntry::default(); entries];
        assert_eq!(card.power_up(&mut table, None), Err(Refusal::WrongBuffer));
    }

    let with_spare = |spare: &[u8]| {
        let (data, mut spares) = blank(4).into_parts();
        spares[..spare.len()].copy_from_slice(spare);
        Card::new(data, spares, SHAPE)
    };
    let mut ill_formed = with_spare(&[1, 0, 0, 0, 99]);
    assert_eq!(ill_formed.write(0, &page, None), Err(Refusal::IllFormed));
    assert_eq!(ill_formed.block_write(0, &block, None), Err(Refusal::IllFormed));
    let mut obsolete = with_spare(&[1, 0, 0, 0, 15, 255, 0, 0]);
    assert_eq!(obsolete.write(0, &page, None), Err(Refusal::NeedsPowerUp));
    assert_eq!(obsolete.block_write(0, &block, None), Err(Refusal::NeedsPowerUp));
    let mut last = with_spare(&[254, 255, 255, 255, 240, 255, 0, 0]);
    assert_eq!(last.write(4, &page, None), Err(Refusal::OutOfNumbers));
    assert_eq!(last.block_write(0, &block, None), Err(Refusal::OutOfNumbers));
}

#[test]
fn the_raw_functions_take_buffers_of_any_length() {
    let (mut data, mut spare) = blank(4).into_parts();
    for page in [&[7; 511][..], &[]] {
        let answer = raw::write(&mut data, &mut spare, page, SHAPE, 8, raw::NO_CUT);
        assert_eq!(answer, Err(Refusal::WrongBuffer));
    }
    assert_eq!(raw::format(&mut [], &mut [], SHAPE, raw::NO_CUT), Err(Refusal::OutsideLimits));
    // P x 512 is 0 in 64 bits, and so is the length.
    for pages in [0, 1 << 55] {
        let shape = Shape { pages, ..SHAPE };
        let answer = raw::block_write(&mut data, &mut spare, &[], shape, usize::MAX, raw::NO_CUT);
        assert_eq!(answer, Err(Refusal::OutsideLimits));
    }
    let answer = raw::block_write(&mut data, &mut spare, &[], SHAPE, usize::MAX, raw::NO_CUT);
    assert_eq!(answer, Err(Refusal::WrongBuffer));
    assert_eq!(raw::lend(&[], &[], SHAPE, 0), None);
    let answer = raw::power_up(&mut data, &mut spare, &mut [], SHAPE, raw::NO_CUT);
    assert_eq!(answer, Err(Refusal::WrongBuffer));
    let mut table = [7; 4];
    assert_eq!(raw::power_up(&mut data, &mut spare, &mut table, SHAPE, 0), Ok(steps(0, 0)));
    assert_eq!(table, [raw::NO_BLOCK; 4]);
}
