//! Standard input and output as `-`.

mod common;

use common::{Folder, DUMP_BYTES, SHAPE_ARGUMENTS};

#[test]
fn an_image_passes_through() {
    let folder = Folder::new();
    let new = folder.card("new - -P 4 -B 4");
    let said = "standard output: 4 blocks of 4 pages, erased, 8448 bytes\n";
    assert_eq!((new.status, new.error.as_str()), (0, said));
    let blank = new.out;
    assert_eq!(blank, [255; DUMP_BYTES]);

    folder.put("page", &[9; 512]);
    let line = format!("write - 5 page {SHAPE_ARGUMENTS}");
    let written = folder.card_with_input(&line, &blank);
    assert_eq!(written.status, 0);
    // The report does not mix with the image.
    assert_eq!(written.error, "write of page 5: 1 program and 0 erases\n");
    assert_eq!(written.out.len(), DUMP_BYTES);

    let read = folder.card_with_input(&format!("read - 5 {SHAPE_ARGUMENTS}"), &written.out);
    assert_eq!(read.expect_done().out, [9; 512]);
    let read = folder.card_with_input(&format!("read - 5 - {SHAPE_ARGUMENTS}"), &written.out);
    assert_eq!(read.expect_done().out, [9; 512]);

    for verb in ["show", "check", "lend - 5"] {
        let dash = if verb.contains('-') { "" } else { "-" };
        let run = folder.card_with_input(&format!("{verb} {dash} {SHAPE_ARGUMENTS}"), &written.out);
        assert!(!run.expect_done().text.is_empty());
    }
    let formatted = folder.card_with_input(&format!("format - {SHAPE_ARGUMENTS}"), &written.out);
    assert_eq!((formatted.status, formatted.out), (0, blank.clone()));
    // Nothing to erase: the image is passed on all the same.
    let recovered = folder.card_with_input(&format!("power-up - {SHAPE_ARGUMENTS}"), &blank);
    assert_eq!((recovered.status, recovered.out), (0, blank));
    assert_eq!(folder.names(), ["page"]);
}

#[test]
fn the_page_comes_from_standard_input() {
    let folder = Folder::with_card();
    let line = format!("write card.img 5 - {SHAPE_ARGUMENTS}");
    folder.card_with_input(&line, &[9; 512]).expect_done();
    assert_eq!(folder.on_card("read", "5").out, [9; 512]);
}

#[test]
fn a_block_is_loaded_on_the_way() {
    let folder = Folder::after_case_4();
    let image = folder.bytes("card.img");
    folder.put("block", &[9; 2048]);
    let line = format!("load - 1 block {SHAPE_ARGUMENTS}");
    let loaded = folder.card_with_input(&line, &image);
    let said = "load of logical block 1: 4 programs and 0 erases\n";
    assert_eq!((loaded.status, loaded.error.as_str()), (0, said));
    assert_eq!(folder.bytes("card.img"), image, "the stream alone is changed");
    folder.load(1, &[9; 2048], "").expect_done();
    assert_eq!(loaded.out, folder.bytes("card.img"));
    // What is refused is not passed on.
    folder.put("block", &[9; 2047]);
    assert_eq!(folder.card_with_input(&line, &image).expect_failure(2, &[]).out, []);
}

#[test]
fn a_cut_gives_the_image_and_a_refusal_gives_none() {
    let folder = Folder::after_case_4();
    folder.put("page", &[15; 512]);
    let image = folder.bytes("card.img");

    let line = format!("write - 4 page --cut 4 {SHAPE_ARGUMENTS}");
    let cut = folder.card_with_input(&line, &image);
    cut.expect_failure(8, &["4 programs and 0 erases"]);
    folder.write(4, 15, "--cut 4").expect_failure(8, &[]);
    assert_eq!(cut.out, folder.bytes("card.img"));

    let refused = folder.card_with_input(&format!("write - 8 page {SHAPE_ARGUMENTS}"), &image);
    assert_eq!(refused.expect_failure(3, &[]).out, []);
    let odd = folder.card_with_input(&format!("show - {SHAPE_ARGUMENTS}"), &image[1..]);
    assert_eq!(odd.expect_failure(65, &["standard input: no image"]).out, []);
}

#[test]
fn one_of_a_pair_may_be_a_stream() {
    let folder = Folder::new();
    folder.card("new --data d --spare s -P 4 -B 4").expect_done();
    folder.put("page", &[9; 512]);
    let line = format!("write 5 page --data - --spare s {SHAPE_ARGUMENTS}");
    let run = folder.card_with_input(&line, &folder.bytes("d"));
    assert_eq!(run.status, 0, "{}", run.error);
    let line = format!("read 5 --data - --spare s {SHAPE_ARGUMENTS}");
    assert_eq!(folder.card_with_input(&line, &run.out).expect_done().out, [9; 512]);
}
