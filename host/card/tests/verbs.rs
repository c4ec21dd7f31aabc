//! Each verb where all is well.

mod common;

use common::{block, dump, Folder, DUMP_BYTES, PAGE_IN_DUMP, SHAPE};
use hamutsigra::Card;

#[test]
fn new_makes_an_erased_chip() {
    let folder = Folder::new();
    folder.card("new card.img --pages 4 --blocks=4").expect_done();
    assert_eq!(folder.bytes("card.img"), [255; DUMP_BYTES]);
    assert_eq!(folder.names(), ["card.img"]);
}

#[test]
fn new_marks_bad_blocks() {
    let folder = Folder::new();
    folder.card("new card.img -P4 -B5 --bad 1 --bad 4").expect_done();
    let image = folder.bytes("card.img");
    assert_eq!(image.len(), 5 * 4 * PAGE_IN_DUMP);
    let changed: Vec<usize> = (0..image.len()).filter(|at| image[*at] != 255).collect();
    assert_eq!(changed, [4 * PAGE_IN_DUMP + 517, 16 * PAGE_IN_DUMP + 517]);
    folder.on_card("format", "").expect_failure(4, &[]);
    folder.card("format card.img -P 4 -L 1 -K 1").expect_done();
}

/// The small card after case 4 of document 01, by the layer itself.
fn card_after_case_4() -> Card<Vec<u8>> {
    let mut card = Card::new(vec![255; 4 * 4 * 512], vec![255; 4 * 4 * 16], SHAPE);
    for (number, fill) in [(1, 10), (0, 11), (1, 12), (2, 13), (3, 14)] {
        card.write(number, &[fill; 512], None).expect("a write");
    }
    card
}

#[test]
fn write_does_to_the_file_what_the_layer_does_to_the_image() {
    let folder = Folder::after_case_4();
    let card = card_after_case_4();
    assert_eq!(folder.bytes("card.img"), dump(card.data(), card.spare()));
    let run = folder.write(4, 15, "");
    assert_eq!(run.expect_done().text, "write of page 4: 5 programs and 2 erases\n");
}

#[test]
fn write_takes_a_page_from_a_file() {
    let folder = Folder::with_card();
    folder.put("page", &[9; 512]);
    folder.on_card("write", "5 page").expect_done();
    assert_eq!(folder.on_card("read", "5").expect_done().out, [9; 512]);
}

#[test]
fn load_does_to_the_file_what_the_layer_does_to_the_image() {
    let folder = Folder::after_case_4();
    let mut card = card_after_case_4();
    card.block_write(0, &block([21, 22, 23, 24]), None).expect("a block write");
    folder.put("block", &block([21, 22, 23, 24]));
    let run = folder.on_card("load", "0 block");
    assert_eq!(run.expect_done().text, "load of logical block 0: 4 programs and 2 erases\n");
    assert_eq!(folder.bytes("card.img"), dump(card.data(), card.spare()));
    assert_eq!(folder.fills(0, 7), [21, 22, 23, 24, 255, 255, 255, 255]);
    assert_eq!(folder.names(), ["block", "card.img"]);
}

#[test]
fn load_is_all_or_none() {
    let folder = Folder::after_case_4();
    let image = folder.bytes("card.img");
    for cut in 0..6 {
        folder.put("card.img", &image);
        let run = folder.load(0, &block([21, 22, 23, 24]), &format!("--cut {cut}"));
        let (words, fills) = match cut {
            0..4 => ("; the block is still the old one.", [11, 12, 13, 14]),
            _ => ("; the block is the new one already.", [21, 22, 23, 24]),
        };
        run.expect_failure(8, &["before the last step", words, "Run `card power-up`"]);
        assert_eq!(folder.fills(0, 3), fills, "cut at {cut}");
        folder.on_card("power-up", "").expect_done();
        assert_eq!(folder.fills(0, 7), [&fills[..], &[255; 4]].concat(), "cut at {cut}");
        folder.load(1, &block([31, 32, 33, 34]), "").expect_done();
    }
}

#[test]
fn load_pads_if_asked_and_never_cuts() {
    let folder = Folder::after_case_4();
    for (bytes, fills) in
        [(0, [255; 4]), (512, [9, 255, 255, 255]), (1536, [9, 9, 9, 255]), (2048, [9; 4])]
    {
        folder.load(1, &vec![9; bytes], "--pad").expect_done();
        assert_eq!(folder.fills(4, 7), fills);
    }
    folder.load(1, &[7; 513], "--pad").expect_done();
    assert_eq!(folder.on_card("read", "5").out, [&[7][..], &[255; 511]].concat());
    let before = folder.state("card.img");
    folder.load(1, &[9; 2049], "--pad").expect_failure(2, &["2049 bytes long", "must be 2048"]);
    assert_eq!(folder.state("card.img"), before);
}

#[test]
fn read_gives_the_page_to_a_pipe_or_a_file() {
    let folder = Folder::after_case_4();
    assert_eq!(folder.on_card("read", "1").expect_done().out, [12; 512]);
    assert_eq!(folder.on_card("read", "7").expect_done().out, [255; 512]);
    assert_eq!(folder.on_card("read", "2 page").expect_done().out, []);
    assert_eq!(folder.bytes("page"), [13; 512]);
    folder.on_card("read", "3 page").expect_done();
    assert_eq!(folder.bytes("page"), [14; 512]);
    assert_eq!(folder.names(), ["card.img", "page"]);
}

#[test]
fn read_gives_hexadecimal_if_asked() {
    let folder = Folder::after_case_4();
    let run = folder.on_card("read", "1 --hex");
    let lines: Vec<&str> = run.expect_done().text.lines().collect();
    assert_eq!(lines.len(), 32);
    let bytes = "0c 0c 0c 0c 0c 0c 0c 0c 0c 0c 0c 0c 0c 0c 0c 0c  ................";
    assert_eq!(lines[0], format!("0000  {bytes}"));
    assert_eq!(lines[31], format!("01f0  {bytes}"));
}

#[test]
fn read_writes_to_a_device_and_does_not_replace_it() {
    let folder = Folder::after_case_4();
    folder.on_card("read", "1 /dev/null").expect_done();
    assert_eq!(std::fs::read("/dev/null").expect("still the device"), []);
}

#[test]
fn lend_says_where() {
    let folder = Folder::after_case_4();
    let run = folder.on_card("lend", "2");
    let expected = "page 2 is in block 1, page 2\n\
                    data image: bytes 3072 to 3583\n\
                    dump:       bytes 3168 to 3679\n";
    assert_eq!(run.expect_done().text, expected);
    assert_eq!(folder.bytes("card.img")[3168..3680], [13; 512]);

    let run = folder.on_card("lend", "4");
    assert_eq!(
        run.expect_done().text,
        "page 4 is in no flash page: it reads as 512 bytes of 255\n"
    );
}

#[test]
fn format_erases_the_card() {
    let folder = Folder::after_case_4();
    let run = folder.on_card("format", "");
    assert_eq!(run.expect_done().text, "format: 0 programs and 2 erases\n");
    assert_eq!(folder.bytes("card.img"), [255; DUMP_BYTES]);
}

#[test]
fn power_up_recovers_after_a_cut() {
    let folder = Folder::after_case_4();
    folder.write(4, 15, "--cut 5").expect_failure(8, &[]);
    let run = folder.on_card("power-up", "");
    let expected = "power-up: 0 programs and 1 erase\n\
                    logical  data   log\n      0     2     -\n      1     -     -\n";
    assert_eq!(run.expect_done().text, expected);
    folder.write(4, 15, "").expect_done();
    assert_eq!(folder.on_card("read", "4").out, [15; 512]);
    assert_eq!(folder.on_card("read", "3").out, [14; 512]);
}

#[test]
fn a_command_without_steps_leaves_the_file_alone() {
    let folder = Folder::after_case_4();
    let before = folder.state("card.img");
    folder.on_card("power-up", "").expect_done();
    assert_eq!(folder.state("card.img"), before);
}

#[test]
fn show_draws_a_small_card_page_by_page() {
    let folder = Folder::after_case_4();
    folder.write(4, 15, "--cut 4").expect_failure(8, &[]);
    let run = folder.on_card("show", "");
    let expected = "  block  role      logical  number  pages
!     0  OBSOLETE        0       3  3 . . .
!     1  OBSOLETE        0       2  0 1 2 3
      2  data            0       4  0 1 2 3
      3  free                       . . . .

4 blocks of 4 pages: 1 data, 0 log (at most 1), 1 free, 2 OBSOLETE
! obsolete blocks: `card power-up` erases them
";
    assert_eq!(run.expect_done().text, expected);
}

#[test]
fn show_marks_bad_and_broken_blocks() {
    let folder = Folder::new();
    folder.card("new card.img -P 4 -B 5 --bad 3").expect_done();
    let mut image = folder.bytes("card.img");
    image[2 * 4 * PAGE_IN_DUMP] = 0;
    folder.put("card.img", &image);
    let run = folder.on_card("show", "");
    let expected = "  block  role       logical  number  pages
      0  free                        . . . .
      1  free                        . . . .
!     2  BROKEN W2
!     3  BAD p0
      4  free                        . . . .

5 blocks of 4 pages: 0 data, 0 log (at most 1), 3 free, 1 BAD, 1 BROKEN
! not well-formed: `card check` says where
";
    assert_eq!(run.expect_done().text, expected);
}

#[test]
fn show_marks_blocks_that_break_a_rule_together() {
    let folder = Folder::after_case_4();
    folder.write(4, 15, "--cut 4").expect_failure(8, &[]);
    // Block 3 has the number of block 2.
    let mut image = folder.bytes("card.img");
    image[12 * PAGE_IN_DUMP + 512..][..8].copy_from_slice(&[4, 0, 0, 0, 240, 255, 7, 0]);
    folder.put("card.img", &image);
    let run = folder.on_card("show", "");
    let expected = "  block  role      logical  number  pages
!     0  OBSOLETE        0       3  3 . . .
!     1  OBSOLETE        0       2  0 1 2 3
!     2  data            0       4  0 1 2 3
!     3  log             1       4  7 . . .

4 blocks of 4 pages: 1 data, 1 log (at most 1), 0 free, 2 OBSOLETE
! not well-formed: `card check` says where
";
    assert_eq!(run.expect_done().text, expected, "power-up would be refused: it is no advice");
}

#[test]
fn show_says_if_there_are_too_few_good_blocks() {
    let folder = Folder::after_case_4();
    let run = folder.card("show card.img -P 4 -L 3 -K 1");
    let hint = "\n! too few good blocks for this shape: `card check` says more\n";
    assert!(run.expect_done().text.ends_with(hint), "{}", run.text);
}

#[test]
fn show_draws_a_large_card_in_two_columns() {
    let folder = Folder::new();
    folder.card("new card.img -P 32 -B 64 --bad 33").expect_done();
    for number in [95, 64, 95, 64, 70] {
        let line = format!("write card.img {number} -P 32 -L 58 -K 4");
        folder.card_with_input(&line, &[1; 512]).expect_done();
    }
    let run = folder.card("show card.img -P 32 -L 58 -K 4");
    let lines: Vec<&str> = run.expect_done().text.lines().collect();
    assert_eq!(lines.len(), 1 + 32 + 2);
    assert_eq!(lines[0], "   b  role      l  number  fill          b  role      l  number  fill");
    assert_eq!(
        lines[1],
        "   0  log       2       1  #+......     32  free                 ........"
    );
    assert_eq!(lines[2], "   1  free                 ........   ! 33  BAD p0");
    assert_eq!(lines[34], "64 blocks of 32 pages: 0 data, 1 log (at most 4), 62 free, 1 BAD");
    assert!(lines.iter().all(|line| line.len() <= 80));
}

#[test]
fn what_is_piped_has_no_colour() {
    let folder = Folder::after_case_4();
    assert!(!folder.on_card("show", "").out.contains(&0x1b));
}

#[test]
fn check_says_what_a_recovered_card_would_answer() {
    let folder = Folder::after_case_4();
    let before = folder.state("card.img");
    let run = folder.on_card("check", "4");
    let expected = "format     answers 0: all done, with 0 programs and 2 erases
power-up   answers 0: all done, with 0 programs and 0 erases
read 4     answers 0: all done, with 0 programs and 0 erases
write 4    answers 0: all done, with 5 programs and 2 erases

4 of 4 blocks are good; the highest sequence number is 3 of 4294967294
";
    assert_eq!(run.expect_done().text, expected);
    assert_eq!(folder.state("card.img"), before);
}

#[test]
fn check_says_why_a_card_needs_power_up() {
    let folder = Folder::after_case_4();
    folder.write(4, 15, "--cut 4").expect_failure(8, &[]);
    let run = folder.on_card("check", "");
    assert_eq!((run.status, run.error.as_str()), (6, ""));
    assert!(run.text.contains("read 0     answers 0:"));
    assert!(run.text.contains("write 0    answers 6: an obsolete block exists"));
    assert!(run.text.ends_with("\n\nRun `card power-up` first.\n"));
    assert!(run.text.contains("block 0: obsolete, a log block that has been merged or replaced\n"));
    assert!(run.text.contains("block 1: obsolete, a data block that has been replaced\n"));
}

#[test]
fn check_names_every_rule_that_is_broken() {
    let folder = Folder::new();
    folder.card("new card.img -P 2 -B 12").expect_done();
    let mut image = folder.bytes("card.img");
    let mut program = |block: usize, page: usize, number: u8, kind: u8, address: u8| {
        let at = (block * 2 + page) * PAGE_IN_DUMP + 512;
        image[at..at + 8].copy_from_slice(&[number, 0, 0, 0, kind, 255, address, 0]);
    };
    program(0, 1, 1, 240, 0); // W1
    program(1, 0, 2, 100, 0); // W2
    program(2, 0, 3, 240, 99); // W3
    program(3, 0, 4, 15, 1); // W4
    program(4, 0, 5, 240, 0);
    program(5, 0, 5, 15, 0); // W5 with block 4
    program(6, 0, 6, 240, 0); // W6 and, with K 1, W7
    folder.put("card.img", &image);

    let run = folder.card("check card.img -P 2 -L 2 -K 1");
    assert_eq!(run.status, 5);
    for reason in [
        "block 0: a programmed page comes after an erased one (W1)",
        "block 1: spare bytes not as in the table, or not of one kind and one number (W2)",
        "block 2: logical pages out of range, or of more than one logical block (W3)",
        "block 3: a copy whose pages are not in order (W4)",
        "blocks 4 and 5: the same sequence number (W5)",
        "blocks 4 and 6: live log blocks of the same logical block (W6)",
        "blocks 4 and 6: more live log blocks than K (W7)",
        "block 5: obsolete, a copy that was not finished",
    ] {
        assert!(run.text.contains(reason), "{reason:?} is missing in:\n{}", run.text);
    }
    // Three commands are refused, and there is one thing to do.
    assert_eq!(run.text.matches("answers 5: the image is not well-formed\n").count(), 3);
    assert_eq!(run.text.matches("Check -P, -L and -K.").count(), 1);
}

#[test]
fn a_name_may_start_with_a_dash() {
    let folder = Folder::with_card();
    std::fs::rename(folder.path("card.img"), folder.path("-card")).expect("renamed");
    folder.card("show -P 4 -L 2 -K 1 -- -card").expect_done();
}
