//! `compare`: the proved layer and the second program in lockstep over random
//! cards, until a number of cards or of seconds is reached or they differ.

#![forbid(unsafe_code)]

mod chip;
mod command;
mod faults;
mod guarded;
mod history;
mod layer;
mod lockstep;
mod near_miss;
mod odd;
mod options;
mod progress;
mod random;
mod tally;

use lockstep::{Difference, Lockstep};
use options::Options;
use progress::Progress;
use std::env;
use std::io::{self, Write};
use std::process::ExitCode;
use std::time::Instant;

/// The exit status when they differ.
const DIFFERENT: u8 = 1;
/// The exit status for wrong arguments, as in `sysexits.h`.
const WRONG_ARGUMENTS: u8 = 64;

fn main() -> ExitCode {
    let arguments = env::args_os().map(|argument| argument.to_string_lossy().into_owned());
    match options::parse(arguments.skip(1)) {
        Ok(Some(options)) => compare(&options),
        Ok(None) => {
            say(options::HELP);
            ExitCode::SUCCESS
        }
        Err(message) => {
            eprintln!("compare: {message}");
            eprintln!("         `compare --help` says how.");
            ExitCode::from(WRONG_ARGUMENTS)
        }
    }
}

fn compare(options: &Options) -> ExitCode {
    let started = Instant::now();
    let mut lockstep = Lockstep::new(options.tested(), layer::SECOND);
    let mut progress = Progress::new(options.cards);
    // Each card has a seed of its own, so that it can be replayed by itself.
    for card in 0..options.cards.unwrap_or(u64::MAX) {
        if options.seconds.is_some_and(|seconds| started.elapsed() >= seconds) {
            break;
        }
        let seed = options.seed.wrapping_add(card);
        let played = history::play(&mut lockstep, seed, options.near_misses);
        lockstep.tally.cards += 1;
        if let Err(difference) = played {
            progress.clear();
            report(options, &lockstep, seed, &difference);
            return ExitCode::from(DIFFERENT);
        }
        progress.show(&lockstep.tally);
    }
    progress.clear();
    let size = lockstep.tally.size();
    say(&format!("{}\ncompare: {size}, 0 differences\n", lockstep.tally));
    ExitCode::SUCCESS
}

fn report(options: &Options, lockstep: &Lockstep, seed: u64, difference: &Difference) {
    // By the name under which it was run, so that the line can be given to the shell.
    let program = env::args_os().next().unwrap_or_else(|| "compare".into());
    let (program, arguments) = (program.display(), options.replay(seed));
    let size = lockstep.tally.size();
    say(&format!("{}\nreplay: {program} {arguments}\n", difference.0));
    say(&format!("compare: {size}, 1 difference, with seed {seed}\n"));
}

/// Writes a text to standard output. The exit status says the same, so that it is no
/// failure if nobody reads on.
fn say(text: &str) {
    let _ = io::stdout().write_all(text.as_bytes());
}
