//! Document 01, "A small card worked through": cases 1 to 11, all parts.

mod common;

use common::{blank, cut, done, refused, small_card, Chip, NO_CUT};
use second::spare::Kind;
use second::NONE;

// Each write has its own fill byte, so that the newest content can be told.

fn after_case_2() -> Chip {
    let mut chip = small_card();
    assert_eq!(chip.write(1, 10), done(1, 0));
    chip
}

fn after_case_3() -> Chip {
    let mut chip = after_case_2();
    for (number, fill) in [(0, 11), (1, 12), (2, 13)] {
        assert_eq!(chip.write(number, fill), done(1, 0));
    }
    chip
}

fn after_case_4() -> Chip {
    let mut chip = after_case_3();
    assert_eq!(chip.write(3, 14), done(5, 1));
    chip
}

fn after_case_5() -> Chip {
    let mut chip = after_case_4();
    assert_eq!(chip.write(4, 15), done(5, 2));
    chip
}

fn after_case_7() -> Chip {
    let mut chip = after_case_5();
    for (number, fill) in [(5, 16), (6, 17), (7, 18)] {
        assert_eq!(chip.write(number, fill), done(1, 0));
    }
    chip
}

#[test]
fn case_1_format_of_free_blocks_has_no_steps() {
    let mut chip = small_card();
    assert_eq!(chip.format(NO_CUT), done(0, 0));
    assert_eq!(chip, small_card());
    assert_eq!(chip.read(3), 255);
    assert_eq!(chip.place(3), None);
}

#[test]
fn case_2_the_first_write_and_its_spare_bytes() {
    let mut chip = after_case_2();
    let spare = [1, 0, 0, 0, 240, 255, 1, 0, 255, 255, 255, 255, 255, 255, 255, 255];
    assert_eq!(chip.spare_of(0, 0), spare);
    assert_eq!(chip.data_of(0, 0), [10; 512]);
    assert_eq!(chip.place(1), Some((0, 0)));

    chip.spare_of(0, 0).fill(255);
    chip.data_of(0, 0).fill(255);
    assert_eq!(chip, small_card(), "no other byte was changed");
}

#[test]
fn case_3_the_newest_copy_is_read() {
    let chip = after_case_3();
    assert_eq!(chip.read(1), 12);
    assert_eq!(chip.place(1), Some((0, 2)));
    assert_eq!([chip.read(0), chip.read(2), chip.read(3)], [11, 13, 255]);
}

#[test]
fn case_4_a_full_log_block_is_merged() {
    let mut chip = after_case_4();
    for page in 0..4 {
        let spare = [2, 0, 0, 0, 15, 255, page, 0];
        assert_eq!(chip.spare_of(1, page.into())[..8], spare);
    }
    assert_eq!(chip.spare_of(0, 0)[..8], [3, 0, 0, 0, 240, 255, 3, 0]);
    assert_eq!(chip.spare_of(0, 1), [255; 16]);
    assert_eq!([0, 1, 2, 3].map(|number| chip.read(number)), [11, 12, 13, 14]);
    assert_eq!(chip.place(2), Some((1, 2)));
    assert_eq!(chip.place(3), Some((0, 0)));
}

#[test]
fn case_5_the_only_log_block_makes_way() {
    let mut chip = after_case_5();
    for page in 0..4 {
        let spare = [4, 0, 0, 0, 15, 255, page, 0];
        assert_eq!(chip.spare_of(2, page.into())[..8], spare);
    }
    assert_eq!(chip.spare_of(0, 0)[..8], [5, 0, 0, 0, 240, 255, 4, 0]);
    assert_eq!(chip.spare_of(1, 0), [255; 16]);
    assert_eq!([0, 1, 2, 3, 4].map(|number| chip.read(number)), [11, 12, 13, 14, 15]);
}

#[test]
fn case_6_every_cut_of_case_5() {
    let counts = [(0, 0), (1, 0), (2, 0), (3, 0), (4, 0), (4, 1), (4, 2)];
    let erased_by_power_up: [&[usize]; 7] = [&[], &[2], &[2], &[2], &[0, 1], &[1], &[]];
    for (steps, (programs, erases)) in counts.into_iter().enumerate() {
        let mut chip = after_case_4();
        assert_eq!(chip.write_cut(4, 15, steps), cut(programs, erases));
        if steps == 0 {
            assert_eq!(chip, after_case_4(), "nothing changed");
        }

        let obsolete = erased_by_power_up[steps];
        let mut expected = chip.clone();
        obsolete.iter().for_each(|block| expected.erase(*block));
        assert_eq!(chip.power_up(NO_CUT).0, done(0, obsolete.len()), "cut at {steps}");
        assert_eq!(chip, expected, "cut at {steps}");
        let contents = [0, 1, 2, 3, 4].map(|number| chip.read(number));
        assert_eq!(contents, [11, 12, 13, 14, 255], "cut at {steps}");
    }

    let mut chip = after_case_4();
    assert_eq!(chip.write_cut(4, 15, 7), done(5, 2));
    assert_eq!(chip, after_case_5());
}

#[test]
fn case_7_a_log_block_in_order_becomes_the_data_block() {
    let mut chip = after_case_5();
    assert_eq!(chip.power_up(NO_CUT), (done(0, 0), vec![2, NONE, NONE, 0]));
    let mut chip = after_case_7();
    assert_eq!(chip.power_up(NO_CUT), (done(0, 0), vec![2, NONE, 0, NONE]));
}

#[test]
fn case_8_the_next_one_replaces_it() {
    let mut chip = after_case_7();
    for (number, fill) in [(4, 20), (5, 21), (6, 22)] {
        assert_eq!(chip.write(number, fill), done(1, 0));
        assert_eq!(chip.spare_of(1, number - 4)[..4], [6, 0, 0, 0]);
    }
    assert_eq!(chip.write(7, 23), done(1, 1));
    assert_eq!(chip.spare_of(0, 0), [255; 16]);
    assert_eq!([4, 5, 6, 7].map(|number| chip.read(number)), [20, 21, 22, 23]);
    assert_eq!(chip.power_up(NO_CUT), (done(0, 0), vec![2, NONE, 1, NONE]));
}

#[test]
fn case_9_page_7_is_the_last() {
    let mut chip = small_card();
    let shape = chip.shape;
    let (data, spare) = (&mut chip.data, &mut chip.spare);

    assert_eq!(second::read(data, spare, &mut [7; 512], shape, 7), done(0, 0));
    assert_eq!(second::read(data, spare, &mut [7; 512], shape, 8), refused(3));
    assert_eq!(second::read(data, spare, &mut [7; 511], shape, 8), refused(2));

    assert_eq!(second::write(data, spare, &[7; 512], shape, 8, NO_CUT), refused(3));
    assert_eq!(second::write(data, spare, &[7; 511], shape, 8, NO_CUT), refused(2));
    assert_eq!(second::write(data, spare, &[7; 512], shape, 7, NO_CUT), done(1, 0));
}

#[test]
fn case_10_the_last_numbers() {
    let with_log = |number: u32, blocks: usize, logs: usize| {
        let mut chip = blank(4, blocks, 2, logs);
        chip.make_up(0, Kind::Log, number, &[0]);
        chip
    };

    assert_eq!(with_log(4_294_967_294, 4, 1).write(0, 1), done(1, 0));
    assert_eq!(with_log(4_294_967_294, 4, 1).write(4, 1), refused(7));
    assert_eq!(with_log(4_294_967_293, 4, 1).write(4, 1), refused(7));

    let mut chip = with_log(4_294_967_293, 5, 2);
    assert_eq!(chip.write(4, 1), done(1, 0));
    assert_eq!(chip.spare_of(1, 0)[..4], [254, 255, 255, 255]);
}

#[test]
fn case_11_the_numbers_of_blocks() {
    assert_eq!(blank(4, 64, 2, 1).answers(), [0; 5]);
    assert_eq!(blank(4, 65, 2, 1).answers(), [1; 5]);
    assert_eq!(blank(4, 0, 2, 1).answers(), [1; 5]);

    let mut one_bad = small_card();
    one_bad.make_bad(2);
    assert_eq!(one_bad.answers(), [4; 5]);
}
