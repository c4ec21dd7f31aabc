//! Every cut of every command, followed by power-up: what a card remembers.

mod common;

use common::{blank, done, Chip, NO_CUT};
use second::spare::Kind;

fn contents(chip: &Chip) -> Vec<u8> {
    (0..chip.shape.logical * chip.shape.pages).map(|number| chip.read(number)).collect()
}

/// Cuts a write at every number. Power-up must then give a card that takes
/// writes, with the old contents, or with the new page exactly if its program was
/// done; and the steps done must be the first of the list.
fn cut_everywhere(chip: &Chip, number: usize, fill: u8) {
    let old = contents(chip);
    let mut new = old.clone();
    new[number] = fill;

    let mut whole = chip.clone();
    let answer = whole.write(number, fill);
    assert_eq!(answer.number, 0);
    assert_eq!(contents(&whole), new);

    let mut had_happened = false;
    for cut in 0..answer.programs + answer.erases {
        let mut pulled = chip.clone();
        let cut_answer = pulled.write_cut(number, fill, cut);
        assert_eq!(cut_answer.number, 8);
        assert_eq!(cut_answer.programs + cut_answer.erases, cut);

        // Its own page is the last of the programs, whether merged before or not.
        let happened = cut_answer.programs == answer.programs;
        assert!(happened || !had_happened, "once it has happened it stays");
        had_happened = happened;

        let remembered = if happened { &new } else { &old };
        assert_eq!(contents(&pulled), *remembered, "cut at {cut}, before power-up");
        assert_eq!(pulled.power_up(NO_CUT).0.number, 0);
        assert_eq!(contents(&pulled), *remembered, "cut at {cut}, after power-up");
        assert_eq!(pulled.write(number, fill).number, 0, "a recovered card takes writes");
        assert_eq!(contents(&pulled), new);
    }
}

/// Cuts a block write at every number. Power-up must then give a card that takes
/// writes, with the old content until the last program and the new one from there,
/// and no other block of the flash may have changed.
fn cut_block_write_everywhere(chip: &Chip, l: usize, fill: u8) {
    let pages = chip.shape.pages;
    let old = contents(chip);
    let mut new = old.clone();
    new[l * pages..(l + 1) * pages].copy_from_slice(&fills(fill, pages));

    let (_, table) = chip.clone().power_up(NO_CUT);
    let mut changing = vec![table[2 * l], table[2 * l + 1]];
    changing.retain(|block| *block != second::NONE);

    let mut whole = chip.clone();
    let answer = whole.block_write(l, fill);
    assert_eq!(answer, done(pages, changing.len()));
    assert_eq!(contents(&whole), new);
    let (taken, _) = whole.place(l * pages).expect("it was written");
    changing.push(taken as u16);

    for cut in 0..=pages + answer.erases {
        let mut pulled = chip.clone();
        let cut_answer = pulled.block_write_cut(l, fill, cut);
        assert_eq!(cut_answer.number, if cut < pages + answer.erases { 8 } else { 0 });
        assert_eq!(cut_answer.programs, cut.min(pages), "all programs come before the erases");
        assert_eq!(cut_answer.erases, cut - cut_answer.programs);
        assert_eq!(others(&pulled, &changing), others(chip, &changing));

        let remembered = if cut < pages { &old } else { &new };
        assert_eq!(contents(&pulled), *remembered, "cut at {cut}, before power-up");
        assert_eq!(pulled.power_up(NO_CUT).0.number, 0);
        assert_eq!(contents(&pulled), *remembered, "cut at {cut}, after power-up");
        assert_eq!(pulled, if cut < pages { chip } else { &whole }.clone(), "all or none");
        assert_eq!(pulled.block_write(l, fill).number, 0, "a recovered card takes writes");
        assert_eq!(contents(&pulled), new);
    }
}

/// What the pages of a logical block are filled with by a block write.
fn fills(fill: u8, pages: usize) -> Vec<u8> {
    (0..pages).map(|page| fill.wrapping_add(page as u8)).collect()
}

/// The card with these blocks erased: what is left is the others.
fn others(chip: &Chip, blocks: &[u16]) -> Chip {
    let mut others = chip.clone();
    blocks.iter().for_each(|block| others.erase(usize::from(*block)));
    others
}

#[test]
fn a_write_that_merges_its_own_full_log_block() {
    let mut chip = blank(4, 5, 2, 1);
    chip.make_up(3, Kind::Log, 1, &[3, 0, 1, 1]);
    cut_everywhere(&chip, 1, 99);
    // With a data block to be erased as well.
    chip.make_up(1, Kind::Copy, 0x0001_0000, &[0, 1, 2, 3]);
    chip.make_up(3, Kind::Log, 0x0001_0001, &[3, 0, 1, 1]);
    cut_everywhere(&chip, 0, 99);
}

#[test]
fn a_write_that_merges_another_log_block() {
    let mut chip = blank(4, 7, 3, 2);
    chip.make_up(0, Kind::Copy, 3, &[4, 5, 6, 7]);
    chip.make_up(2, Kind::Log, 9, &[7, 5]);
    chip.make_up(4, Kind::Log, 6, &[0]);
    // The one with the lowest sequence number is merged: block 4.
    let mut whole = chip.clone();
    assert_eq!(whole.write(8, 99), done(5, 1));
    assert_eq!(whole.place(1), Some((1, 1)));
    assert_eq!(whole.place(8), Some((3, 0)));
    cut_everywhere(&chip, 8, 99);
}

#[test]
fn a_write_that_completes_its_log_block() {
    let mut chip = blank(4, 5, 2, 1);
    chip.make_up(1, Kind::Copy, 1, &[0, 1, 2, 3]);
    chip.make_up(2, Kind::Log, 2, &[0, 1, 2]);
    let mut whole = chip.clone();
    assert_eq!(whole.write(3, 99), done(1, 1));
    cut_everywhere(&chip, 3, 99);
}

/// A card with room: P 4, L 5, K 3, B 10, one block bad, one free between the others.
/// Logical block 0 has a data block and a log block, 1 only a data block, 2 only a log
/// block, 3 neither, 4 a log block that is full.
fn card() -> Chip {
    let mut chip = blank(4, 10, 5, 3);
    chip.make_bad(0);
    chip.make_up(1, Kind::Log, 9, &[3, 3, 0]);
    chip.make_up(3, Kind::Copy, 5, &[0, 1, 2, 3]);
    chip.make_up(4, Kind::Log, 7, &[4, 5, 6, 7]);
    chip.make_up(5, Kind::Log, 2, &[10]);
    chip.make_up(8, Kind::Log, 12, &[19, 18, 17, 16]);
    chip
}

#[test]
fn a_block_write_with_log_and_data_block_one_of_them_or_neither() {
    for l in 0..5 {
        cut_block_write_everywhere(&card(), l, 100);
        // A page of all 255 is written like any other.
        cut_block_write_everywhere(&card(), l, 253);
    }
}

#[test]
fn a_block_write_of_what_is_there_already() {
    let mut chip = card();
    assert_eq!(chip.block_write(0, 100), done(4, 2));
    cut_block_write_everywhere(&chip, 0, 100);
}

#[test]
fn every_write_of_a_long_history() {
    for (pages, blocks, logical, logs) in [(2, 3, 1, 1), (3, 5, 2, 2), (4, 6, 3, 1), (5, 8, 4, 3)] {
        let mut chip = blank(pages, blocks, logical, logs);
        let mut number = 1;
        for write in 0..120 {
            // Runs in order between jumps, so that log blocks are both completed
            // and merged.
            let in_order = write % 24 < 12;
            number = if in_order { number + 1 } else { number * 7 + write } % (logical * pages);
            cut_everywhere(&chip, number, (write + 1) as u8);
            assert_eq!(chip.write(number, (write + 1) as u8).number, 0);
        }
    }
}

#[test]
fn every_block_write_of_a_long_history() {
    for (pages, blocks, logical, logs) in [(2, 3, 1, 1), (3, 5, 2, 2), (4, 6, 3, 1), (5, 8, 4, 3)] {
        let mut chip = blank(pages, blocks, logical, logs);
        let mut number = 1;
        for write in 0..120 {
            number = (number * 7 + write) % (logical * pages);
            for l in 0..logical {
                cut_block_write_everywhere(&chip, l, (write + 1) as u8);
            }
            // Two writes between block writes, so that there are log blocks to replace.
            let answer = match write % 3 {
                0 => chip.block_write(number / pages, (write + 1) as u8),
                _ => chip.write(number, (write + 1) as u8),
            };
            assert_eq!(answer.number, 0);
        }
    }
}

#[test]
fn a_cut_power_up_goes_on_where_it_was() {
    let mut chip = blank(2, 6, 1, 1);
    chip.make_up(0, Kind::Log, 4, &[1]);
    for (block, number) in [(1, 5), (3, 2), (5, 3)] {
        chip.make_up(block, Kind::Copy, number, &[0]);
    }
    let mut whole = chip.clone();
    let (answer, table) = whole.power_up(NO_CUT);
    assert_eq!((answer, table), (done(0, 3), vec![second::NONE, 0]));
    for cut in 0..3 {
        let mut pulled = chip.clone();
        let (answer, table) = pulled.power_up(cut);
        assert_eq!((answer.number, answer.programs, answer.erases), (8, 0, cut));
        assert_eq!(table, [7, 7]);
        assert_eq!(pulled.power_up(NO_CUT), (done(0, 3 - cut), vec![second::NONE, 0]));
        assert_eq!(pulled, whole);
    }
}

#[test]
fn a_cut_format_promises_only_its_steps() {
    let mut chip = blank(2, 4, 1, 1);
    chip.data.fill(0);
    chip.make_bad(1);
    let before = chip.clone();
    for cut in 0..3 {
        let mut pulled = before.clone();
        let answer = pulled.format(cut);
        assert_eq!((answer.number, answer.programs, answer.erases), (8, 0, cut));
        for block in 0..4 {
            // Block 1 is bad, so that the blocks erased are 0, 2 and 3.
            let erased = [Some(0), None, Some(1), Some(2)][block].is_some_and(|step| step < cut);
            let byte = if erased { 255 } else { 0 };
            assert_eq!(pulled.data_of(block, 1), [byte; 512]);
        }
    }
    assert_eq!(chip.format(3), done(0, 3));
    assert_eq!(chip.data_of(1, 0), [0; 512], "a bad block is never erased");
}
