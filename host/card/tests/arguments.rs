//! Wrong arguments, and help.

mod common;

use common::{Folder, SHAPE_ARGUMENTS};
use std::ffi::OsStr;
use std::os::unix::ffi::OsStrExt;

#[test]
fn wrong_arguments_are_said_to_be_wrong() {
    let folder = Folder::with_card();
    let before = folder.state("card.img");
    for (line, word) in [
        ("", "no verb is given"),
        ("erase card.img", "no verb is called erase"),
        ("format", "no image is given"),
        ("format card.img", "-P, --pages is not given, and CARD_SHAPE is not set"),
        ("format card.img -P 4 -K 1", "--logical is not given"),
        ("format card.img -P 4 -L 2", "--logs is not given"),
        ("format card.img -P four -L 2 -K 1", "--pages is a number from 0"),
        ("format card.img -P 4 -L 18446744073709551616 -K 1", "not 18446744073709551616"),
        ("format card.img -P 4 -L 2 -K 1.5", "not 1.5"),
        ("format card.img -P 4 -L 2 -K", "--logs needs a value"),
        ("format card.img -P 4 -L 2 -K 1 --cut -1", "--cut is a number from 0"),
        ("format card.img -P 4 -L 2 -K 1 --quick", "no option is called --quick"),
        ("format card.img -P 4 -L 2 -K 1 -x", "no option is called -x"),
        ("format card.img -P 4 -P 4 -L 2 -K 1", "--pages is given twice"),
        ("format card.img -P 4 --pages=5 -L 2 -K 1", "--pages is given twice"),
        ("format card.img other.img -P 4 -L 2 -K 1", "has no use for other.img"),
        ("format card.img -P 4 -L 2 -K 1 -B 4", "does not take -B, --blocks"),
        ("format card.img -P 4 -L 2 -K 1 --hex", "does not take --hex"),
        ("read card.img -P 4 -L 2 -K 1", "no page is given"),
        ("read card.img one -P 4 -L 2 -K 1", "PAGE is a number from 0"),
        ("read card.img 1 -P 4 -L 2 -K 1 --cut 1", "does not take --cut"),
        ("read card.img 1 card.img -P 4 -L 2 -K 1", "this is the image itself"),
        ("write card.img 1 page more -P 4 -L 2 -K 1", "has no use for more"),
        ("write card.img 1 page -P 4 -L 2 -K 1 --pad", "write does not take --pad"),
        ("load card.img -P 4 -L 2 -K 1", "no block is given"),
        ("load card.img one block -P 4 -L 2 -K 1", "BLOCK is a number from 0"),
        ("load card.img 1 -P 4 -L 2 -K 1", "no file is given"),
        ("load card.img 1 block more -P 4 -L 2 -K 1", "has no use for more"),
        ("load card.img 1 block -P 4 -L 2", "-K, --logs is not given"),
        ("load card.img 1 block -P 4 -L 2 -K 1 --json", "does not take --json"),
        ("load - 1 - -P 4 -L 2 -K 1", "the image and FILE cannot both be standard input"),
        ("lend card.img 1 2 -P 4 -L 2 -K 1", "has no use for 2"),
        ("show --data card.img -P 4 -L 2 -K 1", "given together"),
        ("show --spare card.img -P 4 -L 2 -K 1", "given together"),
        ("show --data - --spare - -P 4 -L 2 -K 1", "cannot both be -"),
        ("new --data other --spare other -P 4 -B 4", "cannot both be other"),
        ("write - 1 -P 4 -L 2 -K 1", "cannot both be standard input"),
        ("new other.img -P 4", "--blocks is not given"),
        ("new other.img -P 1 -B 4", "3 to 64 blocks of 2 to 32 pages, not 4 of 1"),
        ("new other.img -P 4 -B 65", "not 65 of 4"),
        ("new other.img -P 4 -B 18446744073709551615", "3 to 64 blocks"),
        ("new other.img -P 4 -B 4 --bad 4", "the last block is 3"),
        ("demo -", "demo needs a file"),
        ("dump card.img -P 4 -L 2 -K 1", "no file is given"),
        ("dump card.img out", "-P, --pages is not given"),
        ("dump card.img card.img -P 4 -L 2 -K 1", "this is the image itself"),
        ("dump card.img out -P 4 -L 2 -K 1 --from 3 --to 2", "--to 2 comes before --from 3"),
        ("dump card.img out -P 4 -L 2 -K 1 --from x", "--from is a number from 0"),
        ("dump card.img out -P 4 -L 2 -K 1 --cut 1", "does not take --cut"),
        ("restore card.img -P 4 -L 2 -K 1", "no file is given"),
        ("restore - - -P 4 -L 2 -K 1", "cannot both be standard input"),
        ("restore card.img in -P 4 -L 2 -K 1 --from 3 --to 2", "--to 2 comes before --from 3"),
        ("renew card.img extra -P 4 -L 2 -K 1", "has no use for extra"),
        ("renew card.img -P 4 -L 2", "-K, --logs is not given"),
        ("salvage card.img -P 4 -L 2 -K 1", "no file is given"),
        ("salvage card.img card.img -P 4 -L 2 -K 1", "this is the image itself"),
        ("read card.img 0 -P 4 -L 2 -K 1 --doubtful", "does not take --doubtful"),
        ("raw card.img", "no page is given"),
        ("raw card.img 16", "PAGE is a flash page, 0 to 15, not 16"),
        ("raw card.img 18446744073709551615 -P 4", "0 to 15, not 18446744073709551615"),
        ("raw card.img 0 -L 2", "does not take -L, --logical"),
        ("shape", "no image is given"),
        ("shape card.img -P 4", "does not take -P, --pages"),
        ("diff card.img -P 4 -L 2 -K 1", "no second image is given"),
        ("diff - - -P 4 -L 2 -K 1", "cannot both be standard input"),
        ("split card.img", "--data and --spare are not given"),
        ("split --data d --spare s", "no image is given"),
        ("split - --data - --spare s", "cannot both be -"),
        ("join card.img --data d", "given together"),
        ("join other.img more --data d --spare s", "has no use for more"),
        ("read card.img 0 -P 4 -L 2 -K 1 --json", "does not take --json"),
        ("help erase", "no verb is called erase"),
        ("help read write", "help has no use for write"),
        ("demo other.img -P 4", "does not take -P, --pages"),
    ] {
        let run = folder.card(line);
        run.expect_failure(64, &[word, "--help"]);
        assert_eq!(run.out, [], "{line}");
    }
    assert_eq!(folder.state("card.img"), before);
    assert_eq!(folder.names(), ["card.img"]);
}

#[test]
fn each_verb_has_help() {
    let folder = Folder::new();
    let verbs = [
        "new", "format", "power-up", "read", "write", "load", "lend", "show", "check", "dump",
        "restore", "renew", "salvage", "raw", "shape", "diff", "split", "join", "demo",
    ];
    for verb in verbs {
        let run = folder.card(&format!("{verb} --help"));
        assert_eq!(folder.card(&format!("help {verb}")).text, run.text);
        assert!(run.text.lines().all(|line| line.len() <= 90), "{}", run.text);
        assert!(run.expect_done().text.starts_with(&format!("card {verb} ")), "{}", run.text);
        assert!(run.text.contains("Exit status: 0"));
        assert!(run.text.contains("64 wrong arguments"));
        assert_eq!(folder.card(&format!("-h {verb} what ever")).text, run.text);
    }
    let run = folder.card("--help");
    for verb in verbs {
        assert!(run.expect_done().text.contains(&format!("  card {verb} ")));
    }
    assert!(run.text.lines().all(|line| line.len() <= 90));
    assert_eq!(folder.card("help").text, run.text);
    assert_eq!(folder.card("--version").text, "card 1.0.0\n");
    assert_eq!(folder.names(), [""; 0]);
}

/// The manual page has what help has.
#[test]
fn the_manual_page_is_made_of_the_same_text() {
    let folder = Folder::new();
    let manual = folder.card("--manual").expect_done().text.clone();
    assert!(
        manual.starts_with(".TH CARD 1 \"\" \"card 1.0.0\" \"Hamutsigra\"\n.SH NAME\ncard \\- ")
    );
    let plain = manual.replace("\\-", "-").replace("\\&", "").replace("\\e", "\\");
    for verb in ["new", "load", "salvage", "diff", "join"] {
        let help = folder.card(&format!("help {verb}")).text;
        for line in help.lines() {
            assert!(plain.contains(line), "{line:?} is missing");
        }
    }
    let text = |line: &str| line.is_empty() || !line.starts_with(['.', '\'']);
    let words = [".TH", ".SH", ".SS", ".nf", ".fi"];
    assert!(manual.lines().all(|line| text(line) || words.contains(&&line[..3])));
}

/// P, L and K where they are not given.
#[test]
fn the_shape_may_come_from_the_environment() {
    let folder = Folder::after_case_4();
    let card = |shape: &str, line: &str| {
        let mut command = std::process::Command::new(env!("CARGO_BIN_EXE_card"));
        command.args(line.split_whitespace()).current_dir(&folder).env("CARD_SHAPE", shape);
        common::run(command, &[])
    };
    let expected = folder.on_card("read", "1").out;
    assert_eq!(card("4,2,1", "read card.img 1").expect_done().out, expected);
    assert_eq!(card(" 4, 2, 1 ", "read card.img 1").expect_done().out, expected);
    // What is given goes before it.
    assert_eq!(card("9,2,1", "read card.img 1 -P 4").expect_done().out, expected);
    card("4,2,1", "read card.img 1 -P 9").expect_failure(1, &["blocks of 9"]);
    assert_eq!(card("rubbish", "read card.img 1 -P 4 -L 2 -K 1").expect_done().out, expected);
    card("4,2,1", "new other.img -B 4").expect_done();
    for wrong in ["4,2", "4,2,1,1", "4,2,x", "4 2 1", "-4,2,1", ","] {
        let words = ["CARD_SHAPE is P,L,K", wrong];
        card(wrong, "read card.img 1").expect_failure(64, &words);
    }
    card("", "read card.img 1").expect_failure(64, &["CARD_SHAPE is not set"]);
}

#[test]
fn options_may_stand_anywhere() {
    let folder = Folder::after_case_4();
    let expected = folder.on_card("read", "1").out;
    for line in [
        "-P 4 read -L 2 card.img -K 1 1",
        "read --pages=4 --logical=2 --logs=1 card.img 1",
        "read card.img 1 -P4 -L2 -K1",
    ] {
        assert_eq!(folder.card(line).expect_done().out, expected);
    }
    folder.card(&format!("show card.img {SHAPE_ARGUMENTS}")).expect_done();
}

#[test]
fn names_may_have_spaces_and_need_not_be_text() {
    let folder = Folder::new();
    for (data, spare) in [(&b"the data"[..], &b"the spare"[..]), (b"d\xff", b"s\xff")] {
        let joined = [&b"--data="[..], data].concat();
        let image = [&joined[..], b"--spare", spare].map(OsStr::from_bytes);
        let card = |words: &str, input: &[u8]| {
            let words = words.split_whitespace().map(OsStr::new);
            folder.card_with_words(words.chain(image), input)
        };
        card("new -P 4 -B 4", &[]).expect_done();
        card("write 1 -P 4 -L 2 -K 1", &[9; 512]).expect_done();
        assert_eq!(card("read 1 -P 4 -L 2 -K 1", &[]).expect_done().out, [9; 512]);
        for name in [data, spare] {
            std::fs::remove_file(folder.as_ref().join(OsStr::from_bytes(name))).expect("made");
        }
    }
    assert_eq!(folder.names(), [""; 0]);
    let missing = [&b"show"[..], b"none\xff", b"-P4", b"-L2", b"-K1"].map(OsStr::from_bytes);
    folder.card_with_words(missing, &[]).expect_failure(66, &["cannot be read"]);
}
