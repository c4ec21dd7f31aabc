//! Images in two files: data and spare bytes.

mod common;

use common::{dump, Folder, SHAPE_ARGUMENTS};
use std::fs;

const PAIR: &str = "--data d --spare s -P 4 -L 2 -K 1";

/// The card after case 4 of document 01, in `d` and `s`, and as a dump as well.
fn pair() -> Folder {
    let folder = Folder::with_card();
    folder.card("new --data d --spare s -P 4 -B 4").expect_done();
    for (number, fill) in [(1, 10), (0, 11), (1, 12), (2, 13), (3, 14)] {
        folder.card_with_input(&format!("write {number} {PAIR}"), &[fill; 512]).expect_done();
        folder.write(number, fill, "").expect_done();
    }
    folder
}

#[test]
fn a_pair_has_the_bytes_of_the_dump() {
    let folder = pair();
    assert_eq!(dump(&folder.bytes("d"), &folder.bytes("s")), folder.bytes("card.img"));
    assert_eq!(folder.names(), ["card.img", "d", "s"]);
}

#[test]
fn every_verb_takes_a_pair() {
    let folder = pair();
    for (verb, rest) in [("show", ""), ("check", "4"), ("read", "1"), ("power-up", "")] {
        let of_pair = folder.card(&format!("{verb} {rest} {PAIR}"));
        assert_eq!(of_pair.expect_done().out, folder.on_card(verb, rest).out);
    }
    let text = folder.card(&format!("lend 2 {PAIR}")).expect_done().text.clone();
    assert_eq!(text, "page 2 is in block 1, page 2\ndata image: bytes 3072 to 3583\n");
    folder.card_with_input(&format!("write 4 --cut 5 {PAIR}"), &[15; 512]).expect_failure(8, &[]);
    folder.card(&format!("power-up {PAIR}")).expect_done();
    folder.card_with_input(&format!("load 1 - {PAIR}"), &[9; 2048]).expect_done();
    assert_eq!(folder.card(&format!("read 6 {PAIR}")).expect_done().out, [9; 512]);
    folder.card(&format!("format {PAIR}")).expect_done();
    assert_eq!((folder.bytes("d"), folder.bytes("s")), (vec![255; 8192], vec![255; 256]));
}

#[test]
fn a_refusal_leaves_both_files() {
    let folder = pair();
    let before = (folder.state("d"), folder.state("s"));
    folder.card_with_input(&format!("write 8 {PAIR}"), &[15; 512]).expect_failure(3, &[]);
    assert_eq!((folder.state("d"), folder.state("s")), before);
}

#[test]
fn lengths_that_do_not_fit() {
    let folder = pair();
    // Not whole pages.
    folder.put("odd", &[255; 511]);
    let words = ["odd: no image: its 511 bytes are not whole pages of 512 bytes"];
    folder.card(&format!("show --data odd --spare s {SHAPE_ARGUMENTS}")).expect_failure(65, &words);
    let words = ["odd: no image: its 511 bytes are not whole pages of 16 bytes"];
    folder.card(&format!("show --data d --spare odd {SHAPE_ARGUMENTS}")).expect_failure(65, &words);
    // Whole pages, but not as many on both sides: for the card to answer.
    folder.put("short", &[255; 240]);
    let line = format!("read 0 --data d --spare short {SHAPE_ARGUMENTS}");
    folder.card(&line).expect_failure(1, &["the data image has 16 pages, the spare image 15"]);
    folder
        .card(&format!("read 0 --data d --spare none {SHAPE_ARGUMENTS}"))
        .expect_failure(66, &["none"]);
}

/// Files that only have the names of new ones, and no note beside them.
#[test]
fn files_of_somebody_else_stay_and_are_not_followed() {
    let folder = pair();
    let old = (folder.bytes("d"), folder.bytes("s"));
    for name in ["d.card-new", "s.card-new", "s.card-note"] {
        folder.put(name, &old.1);
        assert_eq!(folder.card(&format!("read 3 {PAIR}")).expect_done().out, [14; 512]);
        let run = folder.card_with_input(&format!("write 4 {PAIR}"), &[15; 512]);
        run.expect_failure(73, &[name, "is in the way", "move it away"]);
        assert_eq!((folder.bytes("d"), folder.bytes("s")), old);
        assert_eq!(folder.bytes(name), old.1);
        fs::remove_file(folder.path(name)).expect("still there");
    }
    folder.card_with_input(&format!("write 4 {PAIR}"), &[15; 512]).expect_done();
    assert_eq!(folder.names(), ["card.img", "d", "s"]);
}

/// A crash while the second new file was written, and the first one removed by hand.
#[test]
fn a_part_of_a_new_file_does_not_follow() {
    let folder = pair();
    let old = (folder.state("d"), folder.state("s"));
    folder.put("s.card-new", &[1; 16]);
    assert_eq!(folder.card(&format!("read 3 {PAIR}")).expect_done().out, [14; 512]);
    assert_eq!((folder.state("d"), folder.state("s")), old);
}

#[test]
fn what_somebody_left_does_not_follow_a_new_image() {
    let folder = pair();
    let old = folder.bytes("s");
    fs::rename(folder.path("s"), folder.path("s.card-new")).expect("renamed");
    fs::remove_file(folder.path("d")).expect("removed");
    let run = folder.card("new --data d --spare s -P 4 -B 4");
    run.expect_failure(73, &["s.card-new: is in the way"]);
    assert_eq!(folder.names(), ["card.img", "s.card-new"]);
    assert_eq!(folder.bytes("s.card-new"), old);
}

#[test]
fn a_second_file_that_cannot_be_made_leaves_both_old_ones() {
    let folder = pair();
    let before = (folder.state("d"), folder.state("s"));
    fs::create_dir(folder.path("s.card-new")).expect("a folder in the way");
    let run = folder.card_with_input(&format!("write 4 {PAIR}"), &[15; 512]);
    run.expect_failure(73, &["s.card-new: is in the way"]);
    assert_eq!((folder.state("d"), folder.state("s")), before);
    assert_eq!(folder.names(), ["card.img", "d", "s", "s.card-new"]);
}

/// The names are in two folders, and two commands go through them in either order.
#[test]
fn two_files_in_two_folders() {
    let folder = pair();
    fs::create_dir(folder.path("one")).expect("a folder");
    fs::create_dir(folder.path("two")).expect("a folder");
    folder.card("new --data one/d --spare two/s -P 4 -B 4").expect_done();
    let line = "write 5 --data one/d --spare two/s -P 4 -L 2 -K 1";
    folder.card_with_input(line, &[9; 512]).expect_done();
    let line = "read 5 --data one/d --spare two/s -P 4 -L 2 -K 1";
    assert_eq!(folder.card(line).expect_done().out, [9; 512]);
    for name in ["one", "two"] {
        assert_eq!(fs::read_dir(folder.path(name)).expect("a folder").count(), 1);
    }
}

/// Six writers and six who look, at once: nobody sees one file new and the other old.
#[test]
fn commands_on_two_files_wait_for_each_other() {
    let folder = pair();
    std::thread::scope(|scope| {
        for number in 0..6 {
            let folder = &folder;
            scope.spawn(move || {
                let line = format!("write {number} {PAIR}");
                // On a busy machine they may say that they wait.
                folder.card_with_input(&line, &[100 + number; 512]).expect_status(0);
            });
            scope.spawn(move || {
                folder.card(&format!("check {PAIR}")).expect_status(0);
            });
        }
    });
    for number in 0..6 {
        assert_eq!(folder.card(&format!("read {number} {PAIR}")).out, [100 + number; 512]);
    }
    assert_eq!(folder.names(), ["card.img", "d", "s"]);
}
