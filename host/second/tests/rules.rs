//! Each of W1 to W7 broken in each of its ways: read, write, block write and power-up
//! answer 5 and change nothing; format takes the card as it is. And what is no breach.

mod common;

use common::{blank, done, small_card, Chip, NO_CUT};
use second::block::Rule;
use second::blocks::{Blocks, Breach, Role};
use second::card::Card;
use second::spare::Kind;

const ILL_FORMED: [u8; 5] = [0, 5, 5, 5, 5];
const OBSOLETE: [u8; 5] = [0, 0, 0, 6, 6];
const RECOVERED: [u8; 5] = [0, 0, 0, 0, 0];

/// A well-formed card with room: P 4, L 3, K 2, B 8; the data block of logical
/// block 0 is block 0, its live log block 1, and that of logical block 1 block 2.
fn card() -> Chip {
    let mut chip = blank(4, 8, 3, 2);
    chip.make_up(0, Kind::Copy, 5, &[0, 1, 2, 3]);
    chip.make_up(1, Kind::Log, 9, &[3, 3, 0]);
    chip.make_up(2, Kind::Log, 7, &[4]);
    chip
}

fn blocks(chip: &Chip) -> Blocks {
    Blocks::on(&Card::new(&chip.data, &chip.spare, chip.shape).expect("a card"))
}

fn breaches(chip: &Chip) -> Vec<(Rule, Vec<usize>)> {
    let breaches = blocks(chip).breaches().into_iter();
    breaches.map(|Breach { rule, blocks }| (rule, blocks)).collect()
}

/// The card with this done to it breaks this rule in these blocks, and no other.
#[track_caller]
fn breaks(rule: Rule, blocks: &[usize], damage: impl Fn(&mut Chip)) {
    let mut chip = card();
    damage(&mut chip);
    assert_eq!(breaches(&chip), [(rule, blocks.to_vec())]);
    assert_eq!(chip.answers(), ILL_FORMED);
}

#[track_caller]
fn answers(expected: [u8; 5], change: impl Fn(&mut Chip)) {
    let mut chip = card();
    change(&mut chip);
    assert_eq!(chip.answers(), expected);
}

#[test]
fn the_card_is_well_formed() {
    assert_eq!(breaches(&card()), []);
    answers(RECOVERED, |_| ());
}

#[test]
fn w1_no_gap() {
    // A programmed page after an erased one; only its data; only its spare bytes.
    breaks(Rule::W1, &[2], |chip| chip.data_of(2, 2).fill(1));
    breaks(Rule::W1, &[2], |chip| chip.data_of(2, 3)[511] = 254);
    breaks(Rule::W1, &[2], |chip| chip.spare_of(2, 3)[15] = 254);
    // The first page erased.
    breaks(Rule::W1, &[1], |chip| {
        chip.data_of(1, 0).fill(255);
        chip.spare_of(1, 0).fill(255);
    });
    // A block that is free but for its last byte is used.
    breaks(Rule::W1, &[3], |chip| chip.data_of(3, 3)[511] = 254);
}

#[test]
fn w2_the_bytes_of_the_table() {
    for byte in 8..16 {
        breaks(Rule::W2, &[1], |chip| chip.spare_of(1, 1)[byte] = 254);
    }
    for kind in [0, 14, 16, 239, 241, 255] {
        breaks(Rule::W2, &[2], |chip| chip.spare_of(2, 0)[4] = kind);
    }
    for number in [0, u32::MAX] {
        breaks(Rule::W2, &[2], |chip| {
            chip.spare_of(2, 0)[..4].copy_from_slice(&number.to_le_bytes());
        });
    }
    // The block status, on another page than the first two: there it makes a bad block.
    breaks(Rule::W2, &[1], |chip| chip.spare_of(1, 2)[5] = 0);
    answers(RECOVERED, |chip| chip.spare_of(1, 0)[5] = 0);
    answers(RECOVERED, |chip| chip.spare_of(1, 1)[5] = 0);
    // Data programmed under erased spare bytes.
    breaks(Rule::W2, &[3], |chip| chip.data_of(3, 0)[0] = 254);
}

#[test]
fn w2_one_kind_and_one_number() {
    breaks(Rule::W2, &[1], |chip| chip.spare_of(1, 2)[4] = 15);
    for byte in 0..4 {
        breaks(Rule::W2, &[1], |chip| chip.spare_of(1, 2)[byte] ^= 128);
    }
}

#[test]
fn w3_in_range_and_in_one_logical_block() {
    breaks(Rule::W3, &[2], |chip| chip.spare_of(2, 0)[6] = 12);
    breaks(Rule::W3, &[2], |chip| chip.spare_of(2, 0)[7] = 1);
    breaks(Rule::W3, &[1], |chip| chip.spare_of(1, 1)[6] = 4);
    answers(RECOVERED, |chip| chip.spare_of(2, 0)[6] = 11);
    // In range is by the L of the call.
    breaks(Rule::W3, &[2], |chip| chip.shape.logical = 1);
}

#[test]
fn w4_a_copy_is_in_order() {
    breaks(Rule::W4, &[0], |chip| {
        chip.spare_of(0, 1)[6] = 2;
        chip.spare_of(0, 2)[6] = 1;
    });
    breaks(Rule::W4, &[4], |chip| chip.make_up(4, Kind::Copy, 3, &[1]));
    // A copy with its last pages missing is in order, and obsolete.
    answers(OBSOLETE, |chip| chip.make_up(4, Kind::Copy, 3, &[0, 1, 2]));
}

#[test]
fn w5_no_two_equal_numbers() {
    breaks(Rule::W5, &[0, 4], |chip| chip.make_up(4, Kind::Log, 5, &[0]));
    // Obsolete blocks count, bad ones do not.
    answers(ILL_FORMED, |chip| {
        chip.make_up(4, Kind::Copy, 2, &[0]);
        chip.make_up(5, Kind::Copy, 2, &[0]);
    });
    answers(RECOVERED, |chip| {
        chip.make_up(4, Kind::Log, 5, &[0]);
        chip.make_bad(4);
    });
}

#[test]
fn w6_one_live_log_block() {
    breaks(Rule::W6, &[2, 4], |chip| {
        chip.shape.logs = 3;
        chip.make_up(4, Kind::Log, 6, &[4]);
    });
    // An older log block than the data block is not live.
    answers(OBSOLETE, |chip| chip.make_up(4, Kind::Log, 4, &[0]));
    // A complete log block above it takes the data block's place.
    answers(OBSOLETE, |chip| chip.make_up(4, Kind::Log, 10, &[0, 1, 2, 3]));
}

#[test]
fn w7_at_most_k_live_log_blocks() {
    breaks(Rule::W7, &[1, 2, 4], |chip| chip.make_up(4, Kind::Log, 11, &[8]));
    breaks(Rule::W7, &[1, 2], |chip| chip.shape.logs = 1);
}

#[test]
fn the_roles_of_the_blocks() {
    let mut chip = card();
    chip.make_up(3, Kind::Copy, 10, &[0, 1]);
    chip.make_up(4, Kind::Log, 3, &[0, 1, 2, 3]);
    chip.make_up(5, Kind::Log, 3, &[0, 8]);
    chip.make_bad(6);
    let blocks = blocks(&chip);
    let roles: Vec<Role> = blocks.iter().map(|block| blocks.role(block)).collect();
    use Role::*;
    assert_eq!(roles, [Data, Live, Live, Obsolete, Obsolete, Broken, Bad, Free]);
}

// The five mistakes named in the document.

#[test]
fn the_last_copy_is_the_newest() {
    assert_eq!(card().place(3), Some((1, 1)));
}

#[test]
fn a_half_made_copy_is_no_log_block() {
    let mut chip = card();
    chip.make_up(4, Kind::Copy, 12, &[0, 1, 2]);
    assert_eq!(chip.place(0), Some((1, 2)));
    assert_eq!(chip.place(1), Some((0, 1)));
    assert_eq!(chip.power_up(NO_CUT).0, done(0, 1));
    assert_eq!(chip, card());
}

#[test]
fn a_written_page_may_be_all_255() {
    let mut chip = small_card();
    assert_eq!(chip.write(0, 255), done(1, 0));
    assert_eq!(chip.write(1, 9), done(1, 0));
    assert_eq!([chip.place(0), chip.place(1)], [Some((0, 0)), Some((0, 1))]);
    assert_eq!([chip.read(0), chip.read(1)], [255, 9]);
}

#[test]
fn a_full_log_block_out_of_order_is_not_complete() {
    let mut chip = small_card();
    chip.make_up(0, Kind::Log, 1, &[1, 0, 2, 3]);
    assert_eq!(blocks(&chip).data_block(0), None);
    assert_eq!(chip.place(0), Some((0, 1)));
    chip.make_up(0, Kind::Log, 1, &[0, 1, 2, 3]);
    assert_eq!(blocks(&chip).live_log(0), None);
    assert_eq!(chip.place(1), Some((0, 1)));
}
