//! A whole card out and in: dump, restore and renew.

mod common;

use common::{Folder, PAGE_IN_DUMP, SHAPE_ARGUMENTS};

/// The pages of the card after case 4, as dump gives them.
fn pages_of_case_4() -> Vec<u8> {
    [[11; 512], [12; 512], [13; 512], [14; 512], [255; 512], [255; 512], [255; 512], [255; 512]]
        .concat()
}

#[test]
fn dump_gives_all_pages_and_counts_those_never_written() {
    let folder = Folder::after_case_4();
    let before = folder.state("card.img");
    let run = folder.on_card("dump", "out");
    let said = "dump of pages 0 to 7: 4096 bytes, 4 of the pages never written\n";
    assert_eq!(run.expect_done().text, said);
    assert_eq!(folder.bytes("out"), pages_of_case_4());
    assert_eq!(folder.state("card.img"), before);
    // Over an older dump, and to standard output.
    folder.on_card("dump", "out").expect_done();
    let run = folder.on_card("dump", "-");
    assert_eq!((run.status, run.out, run.error.as_str()), (0, pages_of_case_4(), said));
    assert_eq!(folder.names(), ["card.img", "out"]);
}

#[test]
fn dump_gives_a_range() {
    let folder = Folder::after_case_4();
    let all = pages_of_case_4();
    for (range, expected) in [
        ("--from 2", &all[1024..]),
        ("--to 0", &all[..512]),
        ("--from 1 --to 4", &all[512..2560]),
        ("--from 7 --to 7", &all[3584..]),
    ] {
        folder.on_card("dump", &format!("out {range} --force")).expect_done();
        assert_eq!(folder.bytes("out"), expected, "{range}");
    }
    for range in ["--from 8", "--to 8", "--from 18446744073709551615", "--to 18446744073709551615"]
    {
        let run = folder.on_card("dump", &format!("none {range}"));
        run.expect_failure(3, &["is out of range: the card has pages 0 to 7"]);
    }
    assert_eq!(folder.names(), ["card.img", "out"]);
}

#[test]
fn restore_writes_what_dump_gave() {
    let folder = Folder::after_case_4();
    folder.on_card("dump", "out").expect_done();
    folder.on_card("format", "").expect_done();
    let run = folder.on_card("restore", "out");
    // Four pages are 255 already.
    let said = "restore of pages 0 to 7: 4 written, 4 as they were; 4 programs and 0 erases\n";
    assert_eq!(run.expect_done().text, said);
    folder.on_card("dump", "again").expect_done();
    assert_eq!(folder.bytes("again"), pages_of_case_4());
    // Once more there is nothing to do, and the file stays.
    let before = folder.state("card.img");
    folder.on_card("restore", "out").expect_done();
    assert_eq!(folder.state("card.img"), before);

    folder.put("two", &[9; 1024]);
    folder.on_card("restore", "two --from 5 --to 6").expect_done();
    for (number, fill) in [(3, 14), (4, 255), (5, 9), (6, 9), (7, 255)] {
        assert_eq!(folder.on_card("read", &number.to_string()).out, [fill; 512]);
    }
}

#[test]
fn restore_takes_a_stream_and_a_pair() {
    let folder = Folder::after_case_4();
    let line = format!("restore card.img - --from 4 {SHAPE_ARGUMENTS}");
    folder.card_with_input(&line, &[9; 512]).expect_done();
    folder.card("split card.img --data d --spare s").expect_done();
    folder.put("page", &[8; 512]);
    folder.card(&format!("restore page --data d --spare s {SHAPE_ARGUMENTS}")).expect_done();
    folder.card(&format!("dump out --data d --spare s {SHAPE_ARGUMENTS}")).expect_done();
    assert_eq!(folder.bytes("out")[..512], [8; 512]);
    assert_eq!(folder.bytes("out")[2048..2560], [9; 512]);
}

#[test]
fn restore_refuses_what_are_no_pages() {
    let folder = Folder::after_case_4();
    let before = folder.state("card.img");
    for (bytes, rest, status, words) in [
        (0, "", 65, "it is empty"),
        (1, "", 65, "its 1 bytes are not whole pages of 512 bytes"),
        (513, "", 65, "not whole pages"),
        (1024, "--from 1 --to 3", 65, "it has 2 pages, not those from --from to --to"),
        (4608, "", 3, "page 8 is out of range"),
        (1024, "--from 7", 3, "page 8 is out of range"),
        (512, "--from 18446744073709551615", 3, "is out of range"),
        (1024, "--from 18446744073709551615", 3, "is out of range"),
    ] {
        folder.put("pages", &vec![7; bytes]);
        folder.on_card("restore", &format!("pages {rest}")).expect_failure(status, &[words]);
        assert_eq!(folder.state("card.img"), before);
    }
    folder.on_card("restore", "none").expect_failure(66, &["none: cannot be read"]);
    folder.write(4, 15, "--cut 4").expect_failure(8, &[]);
    let before = folder.state("card.img");
    folder.put("pages", &[7; 512]);
    folder.on_card("restore", "pages").expect_failure(6, &["Run `card power-up` first"]);
    assert_eq!(folder.state("card.img"), before);
}

#[test]
fn dump_does_not_overwrite_a_card() {
    let folder = Folder::after_case_4();
    std::fs::copy(folder.path("card.img"), folder.path("other.img")).expect("a copy");
    let before = folder.state("other.img");
    for verb in ["dump", "salvage"] {
        let run = folder.on_card(verb, "other.img");
        run.expect_failure(73, &["other.img: this may be the image of a card", "--force"]);
        folder.on_card(verb, "none/out").expect_failure(73, &["none/out"]);
        folder.on_card(verb, "/dev/full").expect_failure(74, &["/dev/full", "No space left"]);
    }
    assert_eq!(folder.state("other.img"), before);
    folder.on_card("dump", "other.img --force").expect_done();
    assert_eq!(folder.bytes("other.img"), pages_of_case_4());
}

/// A card that answers 7 takes writes again, with the same content.
#[test]
fn renew_lets_the_numbers_begin_anew() {
    let folder = Folder::after_case_4();
    let mut image = folder.bytes("card.img");
    // The log block, block 0, has the last number that there is.
    image[512..516].copy_from_slice(&[254, 255, 255, 255]);
    folder.put("card.img", &image);
    let before = folder.on_card("dump", "-").out;
    folder.write(4, 15, "").expect_failure(7, &["Run `card renew`"]);
    let run = folder.on_card("renew", "");
    let said = "renew: 4 pages written again, 4 have no content; 4 programs and 2 erases\n";
    assert_eq!(run.expect_done().text, said);
    assert_eq!(folder.on_card("dump", "-").out, before);
    folder.write(4, 15, "").expect_done();
    assert_eq!(folder.on_card("read", "4").out, [15; 512]);
    assert_eq!(folder.names(), ["card.img"]);
}

#[test]
fn renew_is_refused_where_a_read_is() {
    let folder = Folder::after_case_4();
    let mut image = folder.bytes("card.img");
    image[516] = 99;
    folder.put("card.img", &image);
    let before = folder.state("card.img");
    folder.on_card("renew", "").expect_failure(5, &["`card salvage`"]);
    folder.on_card("dump", "out").expect_failure(5, &[]);
    folder.card("renew card.img -P 4 -L 3 -K 1").expect_failure(4, &[]);
    folder.card("dump card.img out -P 4 -L 9223372036854775808 -K 1").expect_failure(4, &[]);
    folder.card("dump card.img out -P 5 -L 2 -K 1").expect_failure(1, &[]);
    assert_eq!(folder.state("card.img"), before);
    assert_eq!(folder.names(), ["card.img"]);
}

/// The largest card, in one process.
#[test]
fn a_large_card_out_and_in() {
    let folder = Folder::new();
    folder.card("new card.img -P 32 -B 64 --bad 7").expect_done();
    let pages: Vec<u8> = (0..58 * 32 * 512).map(|i: usize| (i / 512 % 251) as u8).collect();
    folder.put("pages", &pages);
    folder.card("restore card.img pages -P 32 -L 58 -K 4").expect_done();
    folder.card("dump card.img out -P 32 -L 58 -K 4").expect_done();
    assert!(folder.bytes("out") == pages);
    assert_eq!(folder.bytes("card.img").len(), 64 * 32 * PAGE_IN_DUMP);
}
