//! The worked card, as `card demo` runs it.

mod common;

use common::Folder;

#[test]
fn demo_leaves_the_card_after_case_8() {
    let folder = Folder::new();
    let run = folder.card("demo");
    assert!(run.expect_done().text.ends_with("The card did in all cases what document 01 says.\n"));
    assert_eq!(folder.names(), ["worked-card.img"]);
    for case in 1..=8 {
        assert!(run.text.contains(&format!("\nCase {case}. ")));
    }
    // After format, 13 writes and 7 cuts.
    assert_eq!(run.text.matches("  block  role ").count(), 1 + 13 + 7);
    assert!(!run.out.contains(&0x1b));

    let map = folder.card("show worked-card.img -P 4 -L 2 -K 1");
    let expected = "  block  role      logical  number  pages
      0  free                       . . . .
      1  data            1       6  4 5 6 7
      2  data            0       4  0 1 2 3
      3  free                       . . . .
";
    assert!(map.expect_done().text.starts_with(expected), "{}", map.text);
}

#[test]
fn demo_takes_another_name() {
    let folder = Folder::new();
    folder.card("demo other.img").expect_done();
    assert_eq!(folder.names(), ["other.img"]);
}
