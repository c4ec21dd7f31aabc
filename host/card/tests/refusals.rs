//! Every refusal of every verb: its number as exit status, its meaning and what to
//! do on standard error, and nothing written.

mod common;

use common::{Folder, PAGE_IN_DUMP, SHAPE_ARGUMENTS};

/// As many bytes as a logical block of the small card has.
const BLOCK: [u8; 2048] = [1; 2048];

/// Runs a verb that must be refused and leave the file as it is.
#[track_caller]
fn refused(folder: &Folder, line: &str, input: &[u8], answer: i32, words: &[&str]) {
    let before = folder.state("card.img");
    let run = folder.card_with_input(line, input);
    run.expect_failure(answer, &[&format!("card: answer {answer}: ")])
        .expect_failure(answer, words);
    assert_eq!(run.out, [], "nothing on standard output");
    assert_eq!(folder.state("card.img"), before);
    assert_eq!(folder.names(), ["card.img"]);
}

fn with_spare(block: usize, spare: &[u8]) -> Folder {
    let folder = Folder::with_card();
    let mut image = folder.bytes("card.img");
    let at = block * 4 * PAGE_IN_DUMP + 512;
    image[at..at + spare.len()].copy_from_slice(spare);
    folder.put("card.img", &image);
    folder
}

#[test]
fn answer_1_outside_the_limits() {
    let folder = Folder::with_card();
    for shape in ["-P 0 -L 2 -K 1", "-P 33 -L 2 -K 1", "-P 4 -L 0 -K 1", "-P 4 -L 2 -K 0"] {
        for verb in ["format card.img", "power-up card.img", "read card.img 0", "show card.img"] {
            refused(&folder, &format!("{verb} {shape}"), &[], 1, &["the limits", "Check -P"]);
        }
    }
    // Which limit it is.
    for (shape, words) in [
        ("-P 1 -L 2 -K 1", "P is 1, and can be 2 to 32"),
        ("-P 33 -L 0 -K 0", "P is 33, and can be 2 to 32"),
        ("-P 4 -L 0 -K 0", "L is 0, and must be at least 1"),
        ("-P 4 -L 2 -K 0", "K is 0, and must be at least 1"),
        ("-P 5 -L 2 -K 1", "16 pages, which are not whole blocks of 5"),
        ("-P 8 -L 2 -K 1", "2 blocks of 8 pages, and can have 3 to 64"),
    ] {
        refused(&folder, &format!("write card.img 0 {shape}"), &[1; 512], 1, &[words]);
        refused(&folder, &format!("lend card.img 0 {shape}"), &[], 1, &[words]);
        refused(&folder, &format!("load card.img 0 - {shape}"), &BLOCK, 1, &[words]);
        refused(&folder, &format!("load card.img 0 - --pad {shape}"), &[], 1, &[words]);
    }
    // With this P, P x 512 is 0 in 64 bits.
    let line = "load card.img 18446744073709551615 - --pad -P 36028797018963968 -L 2 -K 1";
    refused(&folder, line, &[], 1, &["P is 36028797018963968, and can be 2 to 32"]);
}

#[test]
fn answer_2_page_not_512_bytes() {
    let folder = Folder::with_card();
    let line = format!("write card.img 8 {SHAPE_ARGUMENTS}");
    for length in [0, 1, 511, 513, 100_000] {
        refused(&folder, &line, &vec![1; length], 2, &["512 bytes long", "exactly 512 bytes"]);
    }
    let line = "power-up card.img -P 4 -L 9223372036854775808 -K 1";
    refused(&folder, line, &[], 2, &["no table", "Check -L"]);
}

/// It says how long the file is, and how long it must be.
#[test]
fn answer_2_block_not_p_x_512_bytes() {
    let folder = Folder::with_card();
    let line = format!("load card.img 2 - {SHAPE_ARGUMENTS}");
    for length in [0, 512, 2047, 2049, 100_000] {
        let words = format!("the block is {length} bytes long, and must be 2048, P x 512.");
        let pad = if length < 2048 { ", or --pad to fill up with 255" } else { "" };
        let remedy = format!("Give exactly so many bytes{pad}.\n");
        refused(&folder, &line, &vec![1; length], 2, &[&words, &remedy]);
    }
    let endless = format!("load card.img 2 /dev/zero --pad {SHAPE_ARGUMENTS}");
    refused(&folder, &endless, &[], 2, &["more than 16777216 bytes long, and must be 2048"]);
}

#[test]
fn answer_3_out_of_range() {
    let folder = Folder::with_card();
    for number in ["8", "18446744073709551615"] {
        let words = [&format!("page {number} is out of range"), "pages 0 to 7", "Check the page"];
        for verb in ["read", "lend", "write"] {
            let line = format!("{verb} card.img {number} {SHAPE_ARGUMENTS}");
            refused(&folder, &line, &[1; 512], 3, &words);
        }
    }
    for number in ["2", "8", "18446744073709551615"] {
        let words = [&format!("logical block {number} is out of range: the card has 0 to 1"), "-L"];
        let line = format!("load card.img {number} - {SHAPE_ARGUMENTS}");
        refused(&folder, &line, &BLOCK, 3, &words);
    }
}

#[test]
fn answer_4_too_few_good_blocks() {
    let folder = with_spare(1, &[255, 255, 255, 255, 255, 0]);
    for verb in ["format card.img", "power-up card.img", "read card.img 0", "write card.img 0"] {
        let words = ["3 of 4 blocks are good, and 4 are needed", "Check -P, -L and -K"];
        refused(&folder, &format!("{verb} {SHAPE_ARGUMENTS}"), &[1; 512], 4, &words);
    }
    let line = format!("load card.img 0 - {SHAPE_ARGUMENTS}");
    refused(&folder, &line, &BLOCK, 4, &["3 of 4 blocks are good"]);
}

#[test]
fn answer_5_ill_formed() {
    let folder = with_spare(1, &[1, 0, 0, 0, 99]);
    for verb in ["power-up card.img", "read card.img 0", "lend card.img 0", "write card.img 0"] {
        let words = ["not well-formed", "`card check`", "Check -P, -L and -K", "`card format`"];
        refused(&folder, &format!("{verb} {SHAPE_ARGUMENTS}"), &[1; 512], 5, &words);
    }
    let line = format!("load card.img 0 - {SHAPE_ARGUMENTS}");
    refused(&folder, &line, &BLOCK, 5, &["not well-formed"]);
    assert_eq!(folder.on_card("check", "").status, 5);
    folder.on_card("format", "").expect_done();
}

#[test]
fn answer_6_needs_power_up() {
    let folder = with_spare(0, &[1, 0, 0, 0, 15, 255, 0, 0]);
    let line = format!("write card.img 0 {SHAPE_ARGUMENTS}");
    refused(&folder, &line, &[1; 512], 6, &["obsolete", "Run `card power-up` first"]);
    let line = format!("load card.img 1 - {SHAPE_ARGUMENTS}");
    refused(&folder, &line, &BLOCK, 6, &["obsolete", "Run `card power-up` first"]);
    folder.on_card("power-up", "").expect_done();
    folder.write(0, 1, "").expect_done();
}

#[test]
fn answer_7_out_of_numbers() {
    let folder = with_spare(0, &[254, 255, 255, 255, 240, 255, 0, 0]);
    let line = format!("write card.img 4 {SHAPE_ARGUMENTS}");
    refused(&folder, &line, &[1; 512], 7, &["sequence numbers", "Run `card renew`"]);
    // A block always needs a number, where a page has room in its log block.
    let line = format!("load card.img 0 - {SHAPE_ARGUMENTS}");
    refused(&folder, &line, &BLOCK, 7, &["sequence numbers", "Run `card renew`"]);
    folder.write(0, 1, "").expect_done();
}

#[test]
fn answer_8_pulled_out() {
    // Cut at 0 nothing is done, so nothing is written either.
    let folder = Folder::after_case_4();
    let line = format!("write card.img 4 --cut 0 {SHAPE_ARGUMENTS}");
    refused(&folder, &line, &[1; 512], 8, &["0 programs and 0 erases", "Run `card power-up`"]);
    refused(&folder, &format!("format card.img --cut 0 {SHAPE_ARGUMENTS}"), &[], 8, &[]);
    let line = format!("load card.img 1 - --cut 0 {SHAPE_ARGUMENTS}");
    refused(&folder, &line, &BLOCK, 8, &["0 programs and 0 erases", "Run `card power-up`"]);

    // Else the steps done are in the file.
    let before = folder.bytes("card.img");
    let run = folder.write(4, 15, "--cut 3");
    run.expect_failure(8, &["answer 8", "3 programs and 0 erases", "Run `card power-up`"]);
    let after = folder.bytes("card.img");
    let changed = (0..16).filter(|page| {
        let bytes = page * PAGE_IN_DUMP..(page + 1) * PAGE_IN_DUMP;
        before[bytes.clone()] != after[bytes]
    });
    assert_eq!(changed.collect::<Vec<_>>(), [8, 9, 10]);

    // The other verbs that can be cut.
    folder.write(4, 15, "").expect_failure(6, &[]);
    folder.on_card("power-up", "--cut 0").expect_failure(8, &["Run `card power-up`"]);
    folder.on_card("power-up", "--cut 1").expect_done();
    folder.on_card("format", "--cut 1").expect_failure(8, &["Run `card format` again"]);
    folder.on_card("format", "--cut 1").expect_done();
}

#[test]
fn the_lowest_number_is_the_answer() {
    let folder = with_spare(1, &[1, 0, 0, 0, 99]);
    refused(&folder, "write card.img 99 -P 5 -L 2 -K 1", &[1; 5], 1, &[]);
    refused(&folder, "write card.img 99 -P 4 -L 2 -K 9", &[1; 5], 2, &[]);
    refused(&folder, "write card.img 99 -P 4 -L 2 -K 9", &[1; 512], 3, &[]);
    refused(&folder, "write card.img 1 -P 4 -L 2 -K 9", &[1; 512], 4, &[]);
    refused(&folder, "write card.img 1 -P 4 -L 2 -K 1", &[1; 512], 5, &[]);
    refused(&folder, "load card.img 99 - -P 5 -L 2 -K 1", &[1; 5], 1, &[]);
    refused(&folder, "load card.img 99 - -P 4 -L 2 -K 9", &[1; 5], 2, &[]);
    refused(&folder, "load card.img 99 - -P 4 -L 2 -K 9", &BLOCK, 3, &[]);
    refused(&folder, "load card.img 1 - -P 4 -L 2 -K 9", &BLOCK, 4, &[]);
    refused(&folder, "load card.img 1 - -P 4 -L 2 -K 1", &BLOCK, 5, &[]);
}
