//! The comparison as it is run: that it compares, finds what is planted, and can
//! be replayed.

use std::process::Command;

/// The five mistakes that document 01 names, one of the block write, one of bad blocks,
/// and one of the erased test.
const FAULTS: [&str; 8] = [
    "first-copy",
    "early-erase",
    "half-copy",
    "erased-by-data",
    "complete-out-of-order",
    "data-left",
    "first-page-alone",
    "last-group-not-looked-at",
];

struct Run {
    status: Option<i32>,
    text: String,
    error: String,
}

fn compare(line: &str) -> Run {
    let mut command = Command::new(env!("CARGO_BIN_EXE_compare"));
    let output = command.args(line.split_whitespace()).output().expect("compare runs");
    Run {
        status: output.status.code(),
        text: String::from_utf8(output.stdout).expect("text"),
        error: String::from_utf8(output.stderr).expect("text"),
    }
}

#[test]
fn the_layers_do_not_differ() {
    let run = compare("--cards 60 --seed 7");
    assert_eq!((run.status, run.error.as_str()), (Some(0), ""));
    let last = run.text.lines().last().expect("a last line");
    assert!(
        last.starts_with("compare: ") && last.ends_with(" commands on 60 cards, 0 differences")
    );
    // Block writes of each kind are among the commands.
    let block_writes = run.text.lines().find(|line| line.starts_with("block writes "));
    let mut words = block_writes.expect("their counts").split(' ');
    assert!(words.all(|word| word != "0"), "{}", run.text);
}

/// 66 cards with 8 near misses each are one for each place.
#[test]
fn near_misses_are_at_every_place() {
    let run = compare("--cards 66 --seed 30 --near-misses");
    assert_eq!(run.status, Some(0), "{}", run.text);
    let near_misses =
        "\nnear misses  528 on 66 cards, at 528 of the 528 places, 1 or more at each; ";
    assert!(run.text.contains(near_misses), "{}", run.text);
    assert!(run.text.ends_with(" commands on 66 cards, 0 differences\n"), "{}", run.text);
}

#[test]
fn one_card_in_eight_has_near_misses() {
    let run = compare("--cards 24 --seed 3");
    let near_misses = "\nnear misses  24 on 3 cards, at 24 of the 528 places, ";
    assert!(run.text.contains(near_misses), "{}", run.text);
}

#[test]
fn a_seed_gives_the_same_run_again() {
    assert_eq!(compare("--cards 20 --seed 5").text, compare("--cards 20 --seed 5").text);
    assert_ne!(compare("--cards 20 --seed 5").text, compare("--cards 20 --seed 6").text);
}

#[test]
fn a_run_can_be_bounded_by_time() {
    let run = compare("--seconds 0");
    assert_eq!(run.status, Some(0));
    assert!(run.text.ends_with("compare: 0 commands on 0 cards, 0 differences\n"));
}

/// Every planted fault is found, from whatever seed.
#[test]
fn planted_faults_are_found() {
    for fault in FAULTS {
        for seed in [1, 1000] {
            let run = compare(&format!("--cards 200 --seed {seed} --fault {fault}"));
            assert_eq!(run.status, Some(1), "{fault} from seed {seed}:\n{}", run.text);
            assert!(run.text.contains(&format!("\n  {fault}: ")), "{}", run.text);
            assert!(run.text.contains("\n  the second program: "), "{}", run.text);
            assert!(run.text.contains(", 1 difference, with seed "), "{}", run.text);
        }
    }
}

/// No other command can show this one.
#[test]
fn the_fault_of_the_block_write_is_found_by_a_block_write() {
    let run = compare("--cards 200 --seed 1 --fault data-left");
    assert!(run.text.starts_with("block write of block "), "{}", run.text);
}

#[test]
fn a_difference_can_be_replayed() {
    replays("--cards 200 --seed 2000 --fault early-erase");
    replays("--cards 200 --seed 2000 --fault last-group-not-looked-at");
    replays("--cards 200 --seed 2000 --fault last-group-not-looked-at --near-misses");
}

fn replays(line: &str) {
    let run = compare(line);
    let program = concat!("replay: ", env!("CARGO_BIN_EXE_compare"), " ");
    let replay = run.text.lines().find_map(|line| line.strip_prefix(program));
    let again = compare(replay.expect("a command that replays it"));
    assert_eq!(again.status, Some(1));
    let difference = |text: &str| text.split("replay: ").next().map(str::to_string);
    assert_eq!(difference(&again.text), difference(&run.text));
}

#[test]
fn arguments_that_are_wrong() {
    for (line, words) in [
        ("--cards", "--cards needs a value"),
        ("--cards many", "--cards is a number"),
        ("--seed -1", "--seed is a number"),
        ("--fault none", "no fault is called none"),
        ("--speed 1", "no option is called --speed"),
        ("5", "no option is called 5"),
    ] {
        let run = compare(line);
        assert_eq!(run.status, Some(64));
        assert!(run.error.starts_with(&format!("compare: {words}")), "{}", run.error);
    }
    let run = compare("--help");
    assert_eq!(run.status, Some(0));
    assert!(FAULTS.iter().all(|fault| run.text.contains(fault)));
}
