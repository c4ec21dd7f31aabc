//! What is told of a card that answers 5: salvage and raw.

mod common;

use common::{set_spare, Folder, SHAPE_ARGUMENTS};

/// The card of document 01 after case 8: block 1 has pages 4 to 7, block 2 pages 0 to 3.
fn after_case_8() -> Folder {
    let folder = Folder::new();
    folder.card("demo card.img").expect_done();
    folder
}

fn page(folder: &Folder, number: usize) -> Vec<u8> {
    folder.bytes("out")[number * 512..(number + 1) * 512].to_vec()
}

/// What salvage tells begins so.
#[track_caller]
fn salvage_tells(folder: &Folder, start: &str) {
    let run = folder.on_card("salvage", "out");
    assert!(run.expect_done().text.starts_with(start), "{}", run.text);
}

#[test]
fn pages_of_sound_blocks_are_certain() {
    let folder = after_case_8();
    set_spare(&folder, 5, 4, &[99]);
    let before = folder.state("card.img");
    assert_eq!(folder.on_card("check", "").status, 5);
    let run = folder.on_card("salvage", "out");
    let expected = "salvage: of 8 pages 4 are certain, 0 doubtful, 4 unknown\n\
                    pages 0 to 3     from block 2, data, number 4\n\
                    pages 4 to 7     unknown; block 1 may have the content\n";
    assert_eq!(run.expect_done().text, expected);
    assert_eq!(folder.bytes("out").len(), 8 * 512);
    assert_eq!((page(&folder, 0), page(&folder, 3)), (vec![11; 512], vec![14; 512]));
    assert_eq!((page(&folder, 4), page(&folder, 7)), (vec![255; 512], vec![255; 512]));
    assert_eq!(folder.state("card.img"), before);
}

/// A broken block of which nothing can be read may be newer than any other.
#[test]
fn a_block_that_cannot_be_read_makes_all_doubtful() {
    let folder = after_case_8();
    set_spare(&folder, 0, 0, &[0; 5]);
    let run = folder.on_card("salvage", "out");
    assert!(run.expect_done().text.starts_with("salvage: of 8 pages 0 are certain, 8 doubtful"));
    assert!(run
        .text
        .contains("pages 4 to 7     from block 1, data, number 6; block 0 may have a newer"));
    assert!(run.text.ends_with("Doubtful pages are left out: --doubtful takes them as well.\n"));
    assert_eq!(folder.bytes("out"), [255; 8 * 512]);
    folder.on_card("salvage", "out --doubtful").expect_done();
    assert_eq!((page(&folder, 0), page(&folder, 7)), (vec![11; 512], vec![23; 512]));
}

/// A broken block with a lower number is older.
#[test]
fn a_broken_block_that_is_older_makes_nothing_doubtful() {
    let folder = after_case_8();
    // A copy of logical block 0 out of order (W4), with number 1.
    set_spare(&folder, 0, 0, &[1, 0, 0, 0, 15, 255, 1, 0]);
    assert_eq!(folder.on_card("check", "").status, 5);
    salvage_tells(&folder, "salvage: of 8 pages 8 are certain");
    // With number 9 it may be newer, for its own logical block.
    set_spare(&folder, 0, 0, &[9]);
    salvage_tells(&folder, "salvage: of 8 pages 4 are certain, 4 doubtful");
    assert_eq!((page(&folder, 0), page(&folder, 4)), (vec![255; 512], vec![20; 512]));
}

#[test]
fn blocks_of_one_number_and_two_live_log_blocks_are_doubtful() {
    let folder = after_case_8();
    // Two live log blocks of logical block 0, both with page 1.
    set_spare(&folder, 0, 0, &[7, 0, 0, 0, 240, 255, 1, 0]);
    set_spare(&folder, 12, 0, &[8, 0, 0, 0, 240, 255, 1, 0]);
    let expected = "salvage: of 8 pages 7 are certain, 1 doubtful, 0 unknown\n\
                    page 0           from block 2, data, number 4\n\
                    page 1           from block 3, log, number 8; block 0 may have a newer content\n";
    salvage_tells(&folder, expected);
    // The same number in two logical blocks: each is certain of its own.
    set_spare(&folder, 0, 0, &[6, 0, 0, 0, 240, 255, 1, 0]);
    set_spare(&folder, 12, 0, &[255; 8]);
    assert_eq!(folder.on_card("check", "").status, 5);
    salvage_tells(&folder, "salvage: of 8 pages 8 are certain");
}

#[test]
fn a_well_formed_card_is_told_whole() {
    let folder = Folder::after_case_4();
    folder.on_card("dump", "dumped").expect_done();
    let run = folder.on_card("salvage", "out");
    assert!(run.expect_done().text.contains("page 3           from block 0, log, number 3\n"));
    assert!(run.text.contains("pages 4 to 7     never written\n"));
    assert_eq!(folder.bytes("out"), folder.bytes("dumped"));
}

#[test]
fn salvage_needs_a_card() {
    let folder = after_case_8();
    folder.card("salvage card.img out -P 5 -L 2 -K 1").expect_failure(1, &["whole blocks of 5"]);
    folder.card("salvage card.img out -P 4 -L 3 -K 1").expect_failure(4, &[]);
    folder.card("salvage card.img out -P 4 -L 9223372036854775808 -K 1").expect_failure(4, &[]);
    folder.card(&format!("salvage none out {SHAPE_ARGUMENTS}")).expect_failure(66, &["none"]);
    folder.put("short", &[255; 527]);
    folder.card(&format!("salvage short out {SHAPE_ARGUMENTS}")).expect_failure(65, &["no image"]);
    assert_eq!(folder.names(), ["card.img", "short"]);
}

#[test]
fn raw_names_the_spare_bytes() {
    let folder = after_case_8();
    let run = folder.card("raw card.img 9 -P 4");
    let lines: Vec<&str> = run.expect_done().text.lines().collect();
    assert_eq!(lines[0], "flash page 9: block 2, page 1");
    assert_eq!(lines[1], "0000  0c 0c 0c 0c 0c 0c 0c 0c 0c 0c 0c 0c 0c 0c 0c 0c  ................");
    let expected = [
        "spare bytes",
        "  0-3  04 00 00 00              sequence number 4",
        "    4  0f                       kind: copy",
        "    5  ff                       block status: no mark",
        "  6-7  01 00                    logical page 1",
        " 8-15  ff ff ff ff ff ff ff ff  not used",
    ];
    assert_eq!(lines[lines.len() - 6..], expected);
    let run = folder.card("raw card.img 0");
    assert!(run.expect_done().text.starts_with("flash page 0, erased: all 528 bytes are 255\n"));
}

#[test]
fn raw_says_what_is_wrong() {
    let folder = after_case_8();
    for (byte, value, words) in [
        (4, 99, "kind: WRONG: 99, neither 240 (log) nor 15 (copy)"),
        (5, 0, "block status: WRONG: 0, not 255"),
        (12, 7, "not used: WRONG: byte 12: 7, not 255"),
    ] {
        let before = folder.bytes("card.img");
        set_spare(&folder, 9, byte, &[value]);
        let run = folder.card("raw card.img 9");
        assert!(run.expect_done().text.contains(words), "{}", run.text);
        folder.put("card.img", &before);
    }
    set_spare(&folder, 9, 0, &[0; 4]);
    let words = "sequence number: WRONG: the sequence number is 0, and can be 1 to 4294967294";
    assert!(folder.card("raw card.img 9").expect_done().text.contains(words));
    set_spare(&folder, 9, 0, &[255; 16]);
    let words = "sequence number: WRONG: all spare bytes are 255, and the data are not";
    assert!(folder.card("raw card.img 9").expect_done().text.contains(words));
    // The maker's mark on a page that is erased but for it.
    set_spare(&folder, 0, 5, &[0]);
    let words = "    5  00                       block status: not 255\n";
    assert!(folder.card("raw card.img 0").expect_done().text.contains(words));
}
