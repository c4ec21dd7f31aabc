//! What `compare` is asked to do.

use crate::layer::{Layer, FAULTY, PROVED};
use std::time::Duration;

pub const HELP: &str = "\
compare [--cards N] [--seconds S] [--seed X] [--near-misses] [--fault NAME]

Runs the proved layer and the second program in lockstep over random cards and
compares all that they answer and leave behind. Without a number of cards it runs for
30 seconds. On a difference it prints the first command that differs and how to replay
it, and ends with exit status 1; for wrong arguments 64.

  --cards N      stop after N cards
  --seconds S    stop after S seconds
  --seed X       the seed of the first card (1); the next one has the next seed
  --near-misses  near misses on every card, and not on one in eight: a page is erased
                 but for one byte, which takes each of the 528 places in turn
  --fault NAME   test, in the place of the proved layer, the second program with a
                 fault planted: first-copy, early-erase, half-copy, erased-by-data,
                 complete-out-of-order, data-left, first-page-alone or
                 last-group-not-looked-at
";

const SECONDS: Duration = Duration::from_secs(30);

pub struct Options {
    /// If given, at most so many cards ..
    pub cards: Option<u64>,
    /// .. and no longer than this.
    pub seconds: Option<Duration>,
    pub seed: u64,
    /// Near misses on every card.
    pub near_misses: bool,
    fault: Option<Layer>,
}

/// Reads the arguments that follow the name of the program; none if help is wanted.
pub fn parse(arguments: impl IntoIterator<Item = String>) -> Result<Option<Options>, String> {
    let (mut cards, mut seconds, mut seed, mut fault) = (None, None, 1, None);
    let mut near_misses = false;
    let mut arguments = arguments.into_iter();
    while let Some(name) = arguments.next() {
        if name == "--help" || name == "-h" {
            return Ok(None);
        }
        let mut value = || arguments.next().ok_or(format!("{name} needs a value"));
        match name.as_str() {
            "--cards" => cards = Some(number(&name, &value()?)?),
            "--seconds" => seconds = Some(Duration::from_secs(number(&name, &value()?)?)),
            "--seed" => seed = number(&name, &value()?)?,
            "--near-misses" => near_misses = true,
            "--fault" => fault = Some(planted(&value()?)?),
            _ => return Err(format!("no option is called {name}")),
        }
    }
    if cards.is_none() && seconds.is_none() {
        seconds = Some(SECONDS);
    }
    Ok(Some(Options { cards, seconds, seed, near_misses, fault }))
}

impl Options {
    /// The layer that is tested.
    pub fn tested(&self) -> Layer {
        self.fault.unwrap_or(PROVED)
    }

    /// The arguments that play the one card with this seed again.
    pub fn replay(&self, seed: u64) -> String {
        let near_misses = if self.near_misses { " --near-misses" } else { "" };
        let fault = self.fault.map_or(String::new(), |fault| format!(" --fault {}", fault.name));
        format!("--cards 1 --seed {seed}{near_misses}{fault}")
    }
}

fn number(name: &str, value: &str) -> Result<u64, String> {
    value.parse().map_err(|_| format!("{name} is a number from 0 to {}, not {value}", u64::MAX))
}

fn planted(name: &str) -> Result<Layer, String> {
    let fault = FAULTY.into_iter().find(|fault| fault.name == name);
    fault.ok_or_else(|| format!("no fault is called {name}"))
}
