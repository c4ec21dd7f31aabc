//! Looks at images: shape, diff, split and join, and what is said for programs.

mod common;

use common::{dump, run, Folder, PAGE_IN_DUMP, SHAPE_ARGUMENTS};
use std::io::{BufRead, BufReader};
use std::process::{Command, Stdio};

fn after_case_8() -> Folder {
    let folder = Folder::new();
    folder.card("demo card.img").expect_done();
    folder
}

#[test]
fn shape_tells_p_and_the_least_l_and_k() {
    let folder = after_case_8();
    let run = folder.card("shape card.img");
    assert_eq!(
        run.expect_done().text,
        "  P   B  L at least  K at least\n  4   4           2           1\n"
    );
    let json = folder.card("shape card.img --json");
    let expected = "{\"shapes\":[{\"pages_per_block\":4,\"blocks\":4,\
                    \"logical_blocks_at_least\":2,\"log_blocks_at_least\":1}]}\n";
    assert_eq!(json.expect_done().text, expected);
}

#[test]
fn shape_of_an_image_that_tells_little() {
    let folder = Folder::with_card();
    let run = folder.card("shape card.img");
    assert!(run.expect_done().text.contains("  2   8           1           1\n  4   4 "));
    assert!(run.text.ends_with("No block is used: the image tells nothing of its shape.\n"));
    folder.write(5, 1, "").expect_done();
    let run = folder.card("shape card.img");
    assert!(run
        .expect_done()
        .text
        .contains("  2   8           3           1\n  4   4           2"));
    assert!(run.text.ends_with("The image is too empty to tell which P is right.\n"));
    folder.put("junk", &[7; 16 * PAGE_IN_DUMP]);
    let run = folder.card("shape junk");
    // All blocks are bad.
    assert_eq!(run.expect_done().text, "The image is well-formed under no shape.\n");
    assert_eq!(folder.card("shape junk --json").text, "{\"shapes\":[]}\n");
    folder.put("short", &[255; 528]);
    folder.card("shape short").expect_failure(65, &["fewer pages than any card"]);
    folder.card("shape none").expect_failure(66, &["none: cannot be read"]);
}

/// One page written: with P 2 the image is as well-formed as with P 4.
#[test]
fn check_and_write_say_that_p_is_not_confirmed() {
    let folder = Folder::with_card();
    let said = "The image is too empty to tell a wrong P: it is as well-formed with -P 2.\n";
    // On an erased card nothing can be wrong yet.
    let run = folder.write(1, 1, "");
    assert_eq!(run.expect_done().text, "write of page 1: 1 program and 0 erases\n");
    assert!(folder.on_card("check", "").expect_done().text.ends_with(&format!("\n\n{said}")));
    let run = folder.write(0, 1, "");
    let done = "write of page 0: 1 program and 0 erases\n";
    assert_eq!(run.expect_done().text, format!("{done}{said}"));
    // A third page in the block: no block of 2 pages has it.
    folder.write(2, 1, "").expect_done();
    assert!(!folder.on_card("check", "").expect_done().text.contains("too empty"));
    assert!(!folder.write(3, 1, "").expect_done().text.contains("too empty"));
}

#[test]
fn load_says_so_too_and_confirms_p() {
    let folder = Folder::with_card();
    folder.write(1, 1, "").expect_done();
    let run = folder.load(1, &[2; 2048], "");
    let done = "load of logical block 1: 4 programs and 0 erases\n";
    let said = "The image is too empty to tell a wrong P: it is as well-formed with -P 2.\n";
    assert_eq!(run.expect_done().text, format!("{done}{said}"));
    assert!(!folder.on_card("check", "").expect_done().text.contains("too empty"));
}

#[test]
fn diff_says_what_differs() {
    let folder = after_case_8();
    std::fs::copy(folder.path("card.img"), folder.path("other.img")).expect("a copy");
    let line = format!("diff card.img other.img {SHAPE_ARGUMENTS}");
    let run = folder.card(&line);
    assert_eq!(run.expect_done().text, "no block differs\n\nno logical page differs\n");

    folder.write(5, 99, "").expect_done();
    let run = folder.card(&line);
    let expected = "block 0 differs\nblock 0, page 0: data and spare bytes\n\n\
                    logical page 5: another content\n";
    assert_eq!((run.status, run.text.as_str(), run.error.as_str()), (9, expected, ""));
    let json = folder.card(&format!("{line} --json"));
    let expected = "{\"same\":false,\"flash_pages\":[16,16],\"differing_flash_pages\":\
                    [{\"block\":0,\"page\":0,\"data\":true,\"spare\":true}],\
                    \"differing_logical_pages\":[{\"page\":5,\"written_in_first\":true,\
                    \"written_in_second\":true}]}\n";
    assert_eq!((json.status, json.text.as_str()), (9, expected));

    folder.card("new blank.img -P 4 -B 5").expect_done();
    let run = folder.card(&format!("diff blank.img other.img {SHAPE_ARGUMENTS}"));
    assert_eq!(run.status, 9);
    assert!(run.text.contains("the first image has 20 flash pages, the second 16\n"));
    assert!(run.text.contains("blocks 1 and 2 differ\n"));
    assert!(run.text.contains("logical page 7: only in the second image\n"));
    folder.card("split card.img --data d --spare s").expect_done();
    let run = folder.card(&format!("diff --data d --spare s card.img {SHAPE_ARGUMENTS}"));
    assert_eq!(run.expect_done().text, "no block differs\n\nno logical page differs\n");
}

#[test]
fn diff_of_what_cannot_be_read() {
    let folder = after_case_8();
    folder.put("junk", &[7; 16 * PAGE_IN_DUMP]);
    let run = folder.card(&format!("diff card.img junk {SHAPE_ARGUMENTS}"));
    assert_eq!(run.status, 9);
    assert!(run.text.contains("blocks 0, 1, 2 and 3 differ\n"));
    assert!(run.text.ends_with("one of the images cannot be read; `card check` says why\n"));
    folder.card("diff card.img junk -P 0 -L 0 -K 0").expect_status(9);
    folder.card(&format!("diff card.img none {SHAPE_ARGUMENTS}")).expect_failure(66, &["none"]);
    folder.put("odd", &[7; 100]);
    folder.card(&format!("diff odd card.img {SHAPE_ARGUMENTS}")).expect_failure(65, &["odd"]);
}

#[test]
fn split_and_join_lead_back() {
    let folder = after_case_8();
    let run = folder.card("split card.img --data d --spare s");
    assert_eq!(run.expect_done().text, "d and s: 16 pages, from card.img\n");
    assert_eq!(dump(&folder.bytes("d"), &folder.bytes("s")), folder.bytes("card.img"));
    let run = folder.card("join again.img --data d --spare s");
    assert_eq!(run.expect_done().text, "again.img: 16 pages, from d and s\n");
    assert_eq!(folder.bytes("again.img"), folder.bytes("card.img"));
    let run = folder.card("join - --data d --spare s");
    assert_eq!((run.status, run.out), (0, folder.bytes("card.img")));
    let input = folder.bytes("card.img");
    folder.card_with_input("split - --data d2 --spare s2", &input).expect_done();
    assert_eq!(folder.bytes("d2"), folder.bytes("d"));
}

#[test]
fn split_and_join_overwrite_nothing() {
    let folder = after_case_8();
    folder.card("split card.img --data d --spare s").expect_done();
    let before = (folder.state("d"), folder.state("card.img"));
    folder
        .card("split card.img --data d --spare s3")
        .expect_failure(73, &["d: ", "exists already"]);
    folder
        .card("split card.img --data d3 --spare s")
        .expect_failure(73, &["s: ", "exists already"]);
    folder.card("join card.img --data d --spare s").expect_failure(73, &["exists already"]);
    folder.card("join j --data d --spare none").expect_failure(66, &["none"]);
    folder.put("short", &[255; 240]);
    let words = ["the data image has 16 pages, the spare image 15"];
    folder.card("join j --data d --spare short").expect_failure(65, &words);
    folder.card("split short --data d3 --spare s3").expect_failure(65, &["no image"]);
    folder.card("split none --data d3 --spare s3").expect_failure(66, &["none"]);
    assert_eq!((folder.state("d"), folder.state("card.img")), before);
    assert_eq!(folder.names(), ["card.img", "d", "s", "short"]);
}

/// What is printed as JSON is read by another program, Python's.
#[test]
fn json_is_json() {
    let folder = after_case_8();
    folder.put("junk.img", &[240; 16 * PAGE_IN_DUMP]);
    std::fs::copy(folder.path("card.img"), folder.path("cut.img")).expect("a copy");
    folder.put("page", &[1; 512]);
    folder.card(&format!("write cut.img 5 page {SHAPE_ARGUMENTS}")).expect_done();
    folder.card(&format!("write cut.img 0 page --cut 4 {SHAPE_ARGUMENTS}")).expect_failure(8, &[]);
    for (line, keys) in [
        ("show cut.img", "blocks pages_per_block well_formed"),
        ("show junk.img", "blocks pages_per_block well_formed"),
        (
            "check cut.img",
            "answers bad blocks faults good_blocks highest_number obsolete other_pages_per_block",
        ),
        (
            "check junk.img",
            "answers bad blocks faults good_blocks highest_number obsolete other_pages_per_block",
        ),
        ("power-up cut.img", "erases programs table"),
        ("diff cut.img card.img", "differing_flash_pages differing_logical_pages flash_pages same"),
    ] {
        let json = folder.card(&format!("{line} --json {SHAPE_ARGUMENTS}"));
        assert!(json.status < 10, "{line}: {}", json.error);
        let mut python = Command::new("python3");
        let keys_of_it = "import json, sys; print(*sorted(json.load(sys.stdin)))";
        python.args(["-c", keys_of_it]);
        assert_eq!(run(python, &json.out).expect_done().text.trim_end(), keys, "{line}");
    }
    let text = folder.card(&format!("power-up cut.img --json {SHAPE_ARGUMENTS}")).text;
    let table = "[{\"data_block\":2,\"log_block\":null},{\"data_block\":3,\"log_block\":null}]";
    assert_eq!(text, format!("{{\"programs\":0,\"erases\":0,\"table\":{table}}}\n"));
}

#[test]
fn equal_faults_are_grouped_and_placed() {
    let folder = Folder::new();
    folder.card("new card.img -P 4 -B 16").expect_done();
    let mut image = folder.bytes("card.img");
    for block in 2..10 {
        let at = block * 4 * PAGE_IN_DUMP + 512;
        image[at..at + 8].copy_from_slice(&[1, 0, 0, 0, 99, 255, 0, 0]);
    }
    // A data byte without spare bytes, and three blocks of one number.
    image[10 * 4 * PAGE_IN_DUMP] = 0;
    for block in 11..14 {
        let at = block * 4 * PAGE_IN_DUMP + 512;
        image[at..at + 8].copy_from_slice(&[5, 0, 0, 0, 240, 255, 4 * (block - 11) as u8, 0]);
    }
    folder.put("card.img", &image);
    let run = folder.card("check card.img -P 4 -L 8 -K 4");
    assert_eq!(run.status, 5);
    for lines in [
        "blocks 2, 3, 4, 5, 6, 7, 8 and 9: spare bytes not as in the table, or not of one kind \
         and one number (W2)\n  page 0, spare byte 4: 99, neither 240 (log) nor 15 (copy)\n",
        "block 10: spare bytes not as in the table, or not of one kind and one number (W2)\n  \
         page 0, spare byte 0: all spare bytes are 255, and the data are not\n",
        "blocks 11, 12 and 13: the same sequence number (W5)\n",
    ] {
        assert!(run.text.contains(lines), "{lines:?} is missing in:\n{}", run.text);
    }
}

/// As wide as it gets: broken blocks and the longest numbers.
#[test]
fn the_map_fits_80_columns_when_something_is_wrong() {
    let folder = Folder::new();
    for (pages, blocks) in [(32, 64), (16, 17), (4, 64), (10, 8), (8, 5), (4, 4)] {
        std::fs::remove_file(folder.path("card.img")).ok();
        folder.card(&format!("new card.img -P {pages} -B {blocks} --bad 1")).expect_done();
        let mut image = folder.bytes("card.img");
        for block in 0..blocks {
            let at = block * pages * PAGE_IN_DUMP + 512;
            let kind = if block % 3 == 0 { 99 } else { 240 };
            let address = (30_000_u16 + block as u16).to_le_bytes();
            let number = (4_294_967_294 - block as u32).to_le_bytes();
            image[at..at + 4].copy_from_slice(&number);
            image[at + 4] = kind;
            image[at + 6..at + 8].copy_from_slice(&address);
        }
        folder.put("card.img", &image);
        for logical in [2, 30_000] {
            let line = format!("show card.img -P {pages} -L {logical} -K 1");
            let run = folder.card(&line);
            let widest = run.expect_done().text.lines().map(str::len).max();
            assert!(widest <= Some(80), "{line}: {widest:?}\n{}", run.text);
        }
    }
}

/// Two files of which one is older, far from what an interrupted write left.
#[test]
fn two_files_of_two_moments_are_named() {
    let folder = Folder::after_case_4();
    folder.card("split card.img --data d --spare s").expect_done();
    let old = folder.bytes("s");
    let pair = format!("--data d --spare s {SHAPE_ARGUMENTS}");
    folder.card_with_input(&format!("write 4 {pair}"), &[15; 512]).expect_done();
    folder.put("s", &old);
    let words = ["answer 5", "data without spare bytes", "Copy both again"];
    folder.card(&format!("read 4 {pair}")).expect_failure(5, &words);
    let check = folder.card(&format!("check {pair}"));
    assert!(check.text.contains("data without spare bytes"), "{}", check.text);
}

/// Who has to wait for long is told so.
#[test]
fn a_command_that_waits_says_so() {
    let folder = Folder::after_case_4();
    let held = std::fs::File::open(&folder).expect("the folder");
    held.lock().expect("a lock");
    let mut command = Command::new(env!("CARGO_BIN_EXE_card"));
    command.args(["show", "card.img", "-P4", "-L2", "-K1"]).current_dir(&folder);
    let mut child =
        command.stdout(Stdio::null()).stderr(Stdio::piped()).spawn().expect("the tool runs");
    let mut said = String::new();
    let error = child.stderr.take().expect("an output");
    BufReader::new(error).read_line(&mut said).expect("a line");
    assert!(said.contains("another command is at work in") && said.contains("waiting"), "{said}");
    held.unlock().expect("unlocked");
    assert!(child.wait().expect("the tool ends").success());
}

/// On a terminal there is colour, and a line of progress that is taken away.
#[test]
fn on_a_terminal() {
    let folder = Folder::after_case_4();
    folder.write(4, 15, "--cut 4").expect_failure(8, &[]);
    let on_terminal = |line: &str| {
        let mut python = Command::new("python3");
        python.args(["-c", "import pty, sys; pty.spawn(sys.argv[1:])"]);
        python.arg(env!("CARGO_BIN_EXE_card")).args(line.split_whitespace()).current_dir(&folder);
        python.env("TERM", "xterm").env_remove("NO_COLOR");
        run(python, &[]).text
    };
    let obsolete = "\x1b[30;43m";
    assert!(on_terminal(&format!("show card.img {SHAPE_ARGUMENTS}")).contains(obsolete));
    assert!(on_terminal(&format!("check card.img {SHAPE_ARGUMENTS}")).contains(obsolete));
    let dump = on_terminal(&format!("dump card.img out {SHAPE_ARGUMENTS}"));
    assert!(dump.contains("\r\x1b[Kdump of pages 0 to 7"), "{dump:?}");
}

#[test]
fn new_says_what_it_made() {
    let folder = Folder::new();
    let run = folder.card("new card.img -P 4 -B 5 --bad 4 --bad 1 --bad 4");
    let said = "card.img: 5 blocks of 4 pages, erased, 10560 bytes, block 1 bad, block 4 bad\n";
    assert_eq!(run.expect_done().text, said);
    let run = folder.card("new --data d --spare s -P 4 -B 5");
    assert_eq!(run.expect_done().text, "d and s: 5 blocks of 4 pages, erased, 10560 bytes\n");
}
