//! `card`, the technician's tool: the proved layer on image files of a chip.

#![forbid(unsafe_code)]

mod arguments;
mod bad;
mod check;
mod commands;
mod demo;
mod diff;
mod failure;
mod faults;
mod files;
mod flash;
mod given;
mod help;
mod hex;
mod image;
mod inspect;
mod json;
mod manual;
mod map;
mod out;
mod paint;
mod progress;
#[cfg(test)]
mod random_calls;
mod salvage;
mod shapes;
mod spare;
mod store;
mod stream;
mod texts;
mod verbs;
mod whole;
mod words;

use failure::Failure;
use std::env;
use std::process::ExitCode;
use stream::complain;

fn main() -> ExitCode {
    let shape = env::var_os(given::SHAPE_VARIABLE).filter(|shape| !shape.is_empty());
    let done = arguments::parse(env::args_os().skip(1), shape).and_then(verbs::run);
    match done {
        Ok(status) => ExitCode::from(status),
        Err(failure) => {
            complain(&format!("card: {failure}\n"));
            if let Failure::Usage(_) = failure {
                complain("      `card --help` and `card VERB --help` say how.\n");
            }
            ExitCode::from(failure.exit_status())
        }
    }
}
