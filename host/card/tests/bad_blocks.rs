//! Bad blocks: the pages on which the maker's mark stands, and what is said of a block
//! that was written all the same.

mod common;

use common::{set_spare, Folder};

/// A card of 9 blocks of 4 pages: block 0 has logical pages 0 to 3 under number 1, block
/// 1 logical page 5 under number 2. There are bad blocks of each kind.
fn with_marks() -> Folder {
    let folder = Folder::new();
    folder.card("new card.img -P 4 -B 9 --bad 4 --bad 7").expect_done();
    for number in [0, 1, 2, 3, 5] {
        folder.write(number, 9, "").expect_done();
    }
    mark(&folder, 3, 1);
    mark(&folder, 8, 0);
    mark(&folder, 8, 1);
    folder
}

/// Puts a mark on a page of a block of 4 pages.
fn mark(folder: &Folder, block: usize, page: usize) {
    set_spare(folder, block * 4 + page, 5, &[0]);
}

#[test]
fn show_names_the_marked_pages() {
    let expected = "  block  role      logical  number  pages
      0  data            0       1  0 1 2 3
      1  log             1       2  5 . . .
      2  free                       . . . .
!     3  BAD p1
!     4  BAD p0
      5  free                       . . . .
      6  free                       . . . .
!     7  BAD p0
!     8  BAD p0,1

9 blocks of 4 pages: 1 data, 1 log (at most 1), 3 free, 4 BAD
";
    assert_eq!(with_marks().on_card("show", "").expect_done().text, expected);
}

#[test]
fn show_names_them_in_two_columns() {
    let folder = Folder::new();
    folder.card("new card.img -P 32 -B 64 --bad 33 --bad 34").expect_done();
    set_spare(&folder, 32 + 1, 5, &[254]);
    set_spare(&folder, 33 * 32 + 1, 5, &[0]);
    let run = folder.card("show card.img -P 32 -L 58 -K 1");
    let lines: Vec<&str> = run.expect_done().text.lines().collect();
    assert_eq!(lines[0], "   b  role      l  number  fill          b  role      l  number  fill");
    assert_eq!(lines[2], "!  1  BAD p1                          ! 33  BAD p0,1");
    assert_eq!(lines[3], "   2  free                 ........   ! 34  BAD p0");
    assert_eq!(lines[34], "64 blocks of 32 pages: 0 data, 0 log (at most 1), 61 free, 3 BAD");
}

#[test]
fn show_gives_them_to_programs() {
    let text = with_marks().on_card("show", "--json").expect_done().text.clone();
    for (block, role, marked) in
        [(2, "free", "[]"), (3, "bad", "[1]"), (4, "bad", "[0]"), (8, "bad", "[0,1]")]
    {
        let start = format!("{{\"block\":{block},\"role\":\"{role}\",\"breaks\":null,");
        let fields = format!("{start}\"marked_pages\":{marked},\"logical_block\":null,");
        assert!(text.contains(&fields), "{fields} is missing in {text}");
    }
}

#[test]
fn check_names_them_equal_ones_together() {
    let folder = with_marks();
    let run = folder.on_card("check", "");
    let expected = "
5 of 9 blocks are good; the highest sequence number is 2 of 4294967294
block 3: bad, mark on page 1
blocks 4 and 7: bad, mark on page 0
block 8: bad, mark on pages 0 and 1
";
    assert!(run.expect_done().text.ends_with(expected), "{}", run.text);
    let text = folder.on_card("check", "--json").expect_done().text.clone();
    let bad = "\"highest_number\":2,\"bad\":[\
               {\"block\":3,\"marked_pages\":[1],\"holds\":null},\
               {\"block\":4,\"marked_pages\":[0],\"holds\":null},\
               {\"block\":7,\"marked_pages\":[0],\"holds\":null},\
               {\"block\":8,\"marked_pages\":[0,1],\"holds\":null}],\"faults\":[],";
    assert!(text.contains(bad), "{text}");
}

/// The block is no part of the card any more, and the answers do not tell.
#[test]
fn check_names_what_a_marked_block_holds() {
    let folder = with_marks();
    mark(&folder, 1, 1);
    let run = folder.on_card("check", "5");
    let expected = "
4 of 9 blocks are good; the highest sequence number is 1 of 4294967294
block 1: bad, mark on page 1; it holds logical page 5 (page 0, number 2) and no longer counts
block 3: bad, mark on page 1
";
    assert!(run.expect_done().text.contains(expected), "{}", run.text);
    assert_eq!(folder.on_card("read", "5").expect_done().out, [255; 512]);
    let text = folder.on_card("check", "--json").expect_done().text.clone();
    let bad = "\"bad\":[{\"block\":1,\"marked_pages\":[1],\"holds\":5},";
    assert!(text.contains(bad), "{text}");

    // With the mark on page 0, the next page tells what the block holds.
    let folder = with_marks();
    mark(&folder, 0, 0);
    let line = "\nblock 0: bad, mark on page 0; it holds logical page 1 (page 1, number 1) and no \
                longer counts\n";
    let run = folder.on_card("check", "");
    assert!(run.expect_done().text.contains(line), "{}", run.text);
}

#[test]
fn the_exit_status_is_the_answer_of_write() {
    let folder = with_marks();
    mark(&folder, 0, 1);
    mark(&folder, 2, 1);
    let run = folder.on_card("check", "");
    run.expect_status(4);
    assert!(run.text.contains("3 of 9 blocks are good, and 4 are needed, L + K + 1\n"));
    assert!(run.text.contains("blocks 2 and 3: bad, mark on page 1\n"), "{}", run.text);
}

#[test]
fn a_status_byte_on_page_2_is_no_mark() {
    let folder = with_marks();
    mark(&folder, 0, 2);
    let run = folder.on_card("check", "");
    let lines = "block 0: spare bytes not as in the table, or not of one kind and one number (W2)
  page 2, spare byte 5: 0, not 255\n";
    assert!(run.expect_status(5).text.contains(lines), "{}", run.text);
    assert!(folder.on_card("show", "").text.contains("!     0  BROKEN W2\n"));
    let text = folder.on_card("show", "--json").expect_done().text.clone();
    assert!(text.contains("\"role\":\"broken\",\"breaks\":\"W2\",\"marked_pages\":[],"), "{text}");
}

#[test]
fn a_long_list_is_broken_off() {
    let folder = Folder::new();
    folder.card("new card.img -P 4 -B 20").expect_done();
    for block in 0..14 {
        set_spare(&folder, block * 4, 0, &[block as u8 + 1, 0, 0, 0, 240, 255, 0, 0]);
        mark(&folder, block, 1);
    }
    let run = folder.on_card("check", "");
    let last = "\nblock 11: bad, mark on page 1; it holds logical page 0 (page 0, number 12)";
    let end = " and no longer counts\n.. and 2 more\n";
    assert!(run.expect_done().text.contains(&format!("{last}{end}")), "{}", run.text);
    let text = folder.on_card("check", "--json").expect_done().text.clone();
    assert_eq!(text.matches("\"holds\":0}").count(), 14);
}
