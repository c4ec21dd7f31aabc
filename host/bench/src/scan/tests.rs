//! The two scans answer and read as the second program does, also on damaged cards.

use super::*;
use crate::card;
use second::block::Rule::{self, *};
use second::blocks::Blocks;
use second::card::Card;
use second::spare::{Kind, Spare};

/// The generator of the comparison.
#[allow(dead_code)]
#[path = "../../../compare/src/random.rs"]
mod random;

use random::Random;

/// A small card, of 8 blocks: one of them may be bad.
const SMALL: Shape = Shape { pages: 4, logical: 4, logs: 2 };

/// Data blocks of logical blocks 0, 1 and 2 (copy, log and copy) in blocks 0, 1 and 2;
/// live log blocks of 0 and 3 in blocks 3 and 4, with two pages and one.
fn small() -> Image {
    let mut image = Image { data: vec![255; 32 * DATA_BYTES], spare: vec![255; 32 * SPARE_BYTES] };
    program(&mut image, 0, 1, Kind::Copy, &[0, 1, 2, 3]);
    program(&mut image, 1, 2, Kind::Log, &[4, 5, 6, 7]);
    program(&mut image, 2, 3, Kind::Copy, &[8, 9, 10, 11]);
    program(&mut image, 3, 4, Kind::Log, &[1, 0]);
    program(&mut image, 4, 5, Kind::Log, &[13]);
    image
}

/// Programs the first pages of a block.
fn program(image: &mut Image, block: usize, number: u32, kind: Kind, addresses: &[usize]) {
    for (i, logical_page) in addresses.iter().enumerate() {
        program_page(image, (block, i), number, kind, *logical_page);
    }
}

/// Programs a page of a block.
fn program_page(image: &mut Image, at: (usize, usize), number: u32, kind: Kind, address: usize) {
    data(image, at).fill((at.0 * 16 + at.1) as u8);
    *spare(image, at) = Spare { number, kind, logical_page: address }.to_bytes();
}

fn erase(image: &mut Image, block: usize) {
    for page in 0..SMALL.pages {
        data(image, (block, page)).fill(255);
        spare(image, (block, page)).fill(255);
    }
}

/// The data bytes of a page of a block.
fn data(image: &mut Image, (block, page): (usize, usize)) -> &mut [u8; DATA_BYTES] {
    &mut image.data.as_chunks_mut().0[block * SMALL.pages + page]
}

/// The spare bytes of a page of a block.
fn spare(image: &mut Image, (block, page): (usize, usize)) -> &mut [u8; SPARE_BYTES] {
    &mut image.spare.as_chunks_mut().0[block * SMALL.pages + page]
}

/// The answer that all three give to a read of a page; where it is 0 they read the same.
fn answer(image: &Image, shape: Shape, number: usize) -> u8 {
    let mut pages = [[7; DATA_BYTES]; 3];
    let [by_second, by_plain, by_quick] = &mut pages;
    let answer = second::read(&image.data, &image.spare, by_second, shape, number).number;
    assert_eq!(plain(image, by_plain, shape, number), answer, "plain, page {number}");
    assert_eq!(quick(image, by_quick, shape, number), answer, "quick, page {number}");
    assert!(pages == [pages[0]; 3], "page {number} is read differently");
    answer
}

/// The answer to reads of all pages of the small card.
fn answer_of_all(image: &Image) -> u8 {
    let pages = SMALL.logical * SMALL.pages;
    assert_eq!(answer(image, SMALL, pages), 3);
    let first = answer(image, SMALL, 0);
    assert!((1..pages).all(|number| answer(image, SMALL, number) == first));
    first
}

/// The rules that are not true, by the second program.
fn broken(image: &Image) -> Vec<Rule> {
    let card = Card::new(&image.data, &image.spare, SMALL).expect("the card is in the limits");
    Blocks::on(&card).breaches().into_iter().map(|breach| breach.rule).collect()
}

#[test]
fn the_cards_of_the_tables_are_read_alike() {
    for card::Named { name, image, .. } in card::from_empty_to_full() {
        for number in card::anywhere(3).chain([card::IN_DATA_BLOCK, card::IN_LOG_BLOCK]) {
            assert_eq!(answer(&image, card::SHAPE, number), 0, "{name}");
        }
    }
}

#[test]
fn a_small_card_is_read_alike() {
    let mut image = small();
    assert_eq!(answer_of_all(&image), 0);
    // A newer data block makes the log block obsolete; then it is obsolete itself.
    erase(&mut image, 2);
    program(&mut image, 6, 9, Kind::Copy, &[0, 1, 2, 3]);
    assert_eq!((answer_of_all(&image), broken(&image)), (0, vec![]));
    program(&mut image, 7, 10, Kind::Log, &[0, 1, 2, 3]);
    assert_eq!((answer_of_all(&image), broken(&image)), (0, vec![]));
}

/// A rule, and what breaks it alone.
type Damage = (Rule, fn(&mut Image));

const DAMAGES: [Damage; 24] = [
    (W1, |image| program_page(image, (3, 3), 4, Kind::Log, 2)),
    (W1, |image| program_page(image, (5, 3), 6, Kind::Log, 3)),
    (W1, |image| spare(image, (5, 2))[STATUS] = 0),
    (W1, |image| data(image, (3, 3))[0] = 0),
    (W2, |image| data(image, (3, 2))[511] = 0),
    (W2, |image| data(image, (5, 0))[0] = 254),
    (W2, |image| spare(image, (4, 0))[4] = 99),
    (W2, |image| spare(image, (3, 1))[4] = 15),
    (W2, |image| spare(image, (4, 0))[0] = 0),
    (W2, |image| spare(image, (4, 0))[..4].fill(255)),
    (W2, |image| spare(image, (0, 1))[3] = 1),
    (W2, |image| spare(image, (1, 3))[15] = 0),
    (W2, |image| spare(image, (3, 0))[8] = 254),
    (W2, |image| spare(image, (3, 1))[9] = 0),
    (W2, |image| spare(image, (0, 2))[STATUS] = 0),
    (W3, |image| spare(image, (4, 0))[6] = 16),
    (W3, |image| spare(image, (4, 0))[7] = 1),
    (W3, |image| spare(image, (3, 1))[6] = 4),
    (W3, |image| spare(image, (0, 3))[6] = 5),
    (W4, |image| program(image, 0, 1, Kind::Copy, &[0, 2, 1, 3])),
    (W4, |image| program(image, 5, 6, Kind::Copy, &[1])),
    (W5, |image| program(image, 5, 1, Kind::Copy, &[4, 5, 6, 7])),
    (W6, |image| {
        erase(image, 4);
        program(image, 5, 6, Kind::Log, &[2]);
    }),
    (W7, |image| program(image, 5, 6, Kind::Log, &[5])),
];

#[test]
fn each_broken_rule_is_seen() {
    for (i, (rule, damage)) in DAMAGES.into_iter().enumerate() {
        let mut image = small();
        damage(&mut image);
        assert_eq!((broken(&image), answer_of_all(&image)), (vec![rule], 5), "damage {i}");
    }
}

#[test]
fn numbers_alike_in_their_last_bits_are_told_apart() {
    for number in [1 + (1 << 12), 2 + (1 << 31), 4_294_967_294] {
        let mut image = small();
        program(&mut image, 4, number, Kind::Log, &[13]);
        assert_eq!(answer_of_all(&image), 0);
        program(&mut image, 5, number, Kind::Copy, &[12]);
        assert_eq!((broken(&image), answer_of_all(&image)), (vec![W5], 5));
    }
}

#[test]
fn a_bad_block_is_left_out_and_two_are_too_many() {
    for (block, page) in [(0, 0), (0, 1), (3, 0), (3, 1), (5, 0), (5, 1)] {
        let mut image = small();
        spare(&mut image, (block, page))[STATUS] = 0;
        assert_eq!(answer_of_all(&image), 0, "block {block}, page {page}");
        // What stands in it counts for nothing.
        spare(&mut image, (block, page))[4] = 99;
        data(&mut image, (block, 3))[0] = 0;
        assert_eq!(answer_of_all(&image), 0, "block {block}, page {page}");
        spare(&mut image, (2, 1))[STATUS] = 254;
        assert_eq!(answer_of_all(&image), 4, "block {block}, page {page}");
        // 4 comes before 5.
        spare(&mut image, (4, 0))[4] = 99;
        assert_eq!(answer_of_all(&image), 4, "block {block}, page {page}");
    }
}

#[test]
fn one_byte_of_an_erased_page_is_seen() {
    // In a free block and in a log block, first and later pages.
    for at in [(5, 0), (5, 1), (5, 3), (3, 2), (3, 3)] {
        let mut image = small();
        for byte in 0..DATA_BYTES {
            data(&mut image, at)[byte] = 254;
            assert_eq!(answer(&image, SMALL, 0), 5, "data byte {byte}");
            data(&mut image, at)[byte] = 255;
        }
        for byte in 0..SPARE_BYTES {
            spare(&mut image, at)[byte] = 127;
            let is_mark = byte == STATUS && at.1 < 2;
            let expected = if is_mark { 0 } else { 5 };
            assert_eq!(answer(&image, SMALL, 0), expected, "spare byte {byte}");
            spare(&mut image, at)[byte] = 255;
        }
        assert_eq!(answer(&image, SMALL, 0), 0);
    }
}

#[test]
fn one_byte_is_seen_on_each_page_of_a_free_block() {
    let shape = Shape { pages: 32, logical: 1, logs: 1 };
    let pages = 3 * shape.pages;
    let mut image =
        Image { data: vec![255; pages * DATA_BYTES], spare: vec![255; pages * SPARE_BYTES] };
    for page in 0..pages {
        let byte = page * DATA_BYTES + page * 37 % DATA_BYTES;
        image.data[byte] = 0;
        assert_eq!(answer(&image, shape, 0), 5, "data of page {page}");
        image.data[byte] = 255;
        let byte = page * SPARE_BYTES + 6 + page % 10;
        image.spare[byte] = 0;
        assert_eq!(answer(&image, shape, 0), 5, "spare bytes of page {page}");
        image.spare[byte] = 255;
    }
    assert_eq!(answer(&image, shape, 0), 0);
}

#[test]
fn shapes_and_lengths_are_refused_alike() {
    let image = small();
    let shape = |pages, logical, logs| Shape { pages, logical, logs };
    let huge = usize::MAX;
    for (shape, expected) in [
        (shape(0, 4, 2), 1),
        (shape(1, 4, 2), 1),
        (shape(33, 4, 2), 1),
        (shape(huge, 4, 2), 1),
        (shape(3, 4, 2), 1),
        (shape(16, 4, 2), 1),
        (shape(4, 0, 2), 1),
        (shape(4, 4, 0), 1),
        (shape(4, huge, huge), 4),
        (shape(4, 4, 4), 4),
        (shape(4, 6, 1), 5),
        (shape(4, 4, 1), 5),
        (shape(4, 4, 3), 0),
    ] {
        assert_eq!(answer(&image, shape, 0), expected, "{shape:?}");
    }
    assert_eq!(answer(&image, SMALL, huge), 3);
    let mut cut_short = image.clone();
    cut_short.spare.pop();
    assert_eq!(answer(&cut_short, SMALL, 0), 1);
    cut_short.data.clear();
    cut_short.spare.clear();
    assert_eq!(answer(&cut_short, SMALL, 0), 1);
}

/// Blocks that may stand on a card, and now and then a byte that may not.
fn random_card(random: &mut Random) -> Image {
    let mut image = small();
    for block in 0..8 {
        erase(&mut image, block);
        let number = 1 + random.below(100) as u32 + random.one_of(&[0, 0, 1 << 12]);
        let start = SMALL.pages * random.below(SMALL.logical);
        let (kind, mut offsets): (Kind, Vec<usize>) = match random.below(6) {
            0 | 1 => (random.one_of(&[Kind::Log, Kind::Copy]), vec![0, 1, 2, 3]),
            2 => (Kind::Copy, (0..random.below(4)).collect()),
            3 => (Kind::Log, (0..random.below(5)).map(|_| random.below(4)).collect()),
            _ => continue,
        };
        if random.one_in(16) {
            random.shuffle(&mut offsets);
        }
        let addresses: Vec<usize> = offsets.iter().map(|offset| start + offset).collect();
        program(&mut image, block, number, kind, &addresses);
    }
    for _ in 0..random.one_of(&[0, 0, 1, 2]) {
        let at = (random.below(8), random.below(4));
        match random.below(8) {
            0 => data(&mut image, at)[random.below(DATA_BYTES)] = random.byte(),
            1 | 2 => spare(&mut image, at)[STATUS] = random.byte(),
            _ => spare(&mut image, at)[random.below(8)] = random.one_of(&[0, 1, 5, 15, 240, 255]),
        }
    }
    image
}

#[test]
fn random_cards_are_answered_alike() {
    let mut random = Random::new(7);
    let mut answers = [0; 6];
    let mut rules = [0; 7];
    for _ in 0..10_000 {
        let image = random_card(&mut random);
        let number = random.below(SMALL.logical * SMALL.pages);
        answers[usize::from(answer(&image, SMALL, number))] += 1;
        if let [rule] = broken(&image)[..] {
            rules[rule as usize] += 1;
        }
    }
    let few = |count: &usize| *count < 20;
    assert!(![answers[0], answers[4], answers[5]].iter().any(few), "answers: {answers:?}");
    assert!(!rules.iter().any(few), "cards that break one rule alone: {rules:?}");
}
