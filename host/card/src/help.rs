//! The verbs of the tool, and the text of `--help` for each. The manual page is made of
//! the same text: see `manual`.

use crate::texts;

/// What the tool can be asked to do.
#[derive(Clone, Copy, Debug, PartialEq, Eq)]
pub enum Verb {
    New,
    Format,
    PowerUp,
    Read,
    Write,
    Load,
    Lend,
    Show,
    Check,
    Dump,
    Restore,
    Renew,
    Salvage,
    Raw,
    Shape,
    Diff,
    Split,
    Join,
    Demo,
    Help,
}

/// A verb and what is said of it.
pub struct About {
    pub verb: Verb,
    pub name: &'static str,
    /// What follows the name.
    pub takes: &'static str,
    /// What it does, in a few words.
    pub brief: &'static str,
    /// What it does, and its own options.
    pub text: &'static str,
}

/// All verbs, in the order in which help has them.
pub const VERBS: [About; 20] = [
    about(Verb::New, "new", "IMAGE -P P -B B [--bad BLOCK]..", "make an erased chip", texts::NEW),
    about(Verb::Format, "format", "IMAGE SHAPE [--cut N]", "make an empty card", texts::FORMAT),
    about(
        Verb::PowerUp,
        "power-up",
        "IMAGE SHAPE [--cut N] [--json]",
        "recover a card that was pulled out",
        texts::POWER_UP,
    ),
    about(
        Verb::Read,
        "read",
        "IMAGE PAGE [FILE] SHAPE [--hex]",
        "read a logical page",
        texts::READ,
    ),
    about(
        Verb::Write,
        "write",
        "IMAGE PAGE [FILE] SHAPE [--cut N]",
        "write a logical page",
        texts::WRITE,
    ),
    about(
        Verb::Load,
        "load",
        "IMAGE BLOCK FILE SHAPE [--cut N]",
        "write a logical block, all or none",
        texts::LOAD,
    ),
    about(Verb::Lend, "lend", "IMAGE PAGE SHAPE", "say where a page lies", texts::LEND),
    about(Verb::Show, "show", "IMAGE SHAPE [--json]", "draw a map of the chip", texts::SHOW),
    about(
        Verb::Check,
        "check",
        "IMAGE [PAGE] SHAPE [--json]",
        "say what the card would answer, and why",
        texts::CHECK,
    ),
    about(
        Verb::Dump,
        "dump",
        "IMAGE FILE SHAPE [--from A] [--to A]",
        "read all logical pages out",
        texts::DUMP,
    ),
    about(
        Verb::Restore,
        "restore",
        "IMAGE FILE SHAPE [--from A] [--to A]",
        "write them again",
        texts::RESTORE,
    ),
    about(Verb::Renew, "renew", "IMAGE SHAPE", "let the sequence numbers begin anew", texts::RENEW),
    about(
        Verb::Salvage,
        "salvage",
        "IMAGE FILE SHAPE [--doubtful]",
        "read out what is certain",
        texts::SALVAGE,
    ),
    about(Verb::Raw, "raw", "IMAGE PAGE [-P P]", "show a flash page byte by byte", texts::RAW),
    about(Verb::Shape, "shape", "IMAGE [--json]", "tell the shapes that fit", texts::SHAPES),
    about(Verb::Diff, "diff", "A B SHAPE [--json]", "compare two images", texts::DIFF),
    about(
        Verb::Split,
        "split",
        "IMAGE --data FILE --spare FILE",
        "make two files of a dump",
        texts::SPLIT,
    ),
    about(
        Verb::Join,
        "join",
        "IMAGE --data FILE --spare FILE",
        "make a dump of two files",
        texts::JOIN,
    ),
    about(Verb::Demo, "demo", "[IMAGE]", "run the worked card of document 01", texts::DEMO),
    about(Verb::Help, "help", "[VERB]", "say more of a verb", texts::HELP),
];

const fn about(
    verb: Verb,
    name: &'static str,
    takes: &'static str,
    brief: &'static str,
    text: &'static str,
) -> About {
    About { verb, name, takes, brief, text }
}

impl Verb {
    pub fn named(name: &str) -> Option<Verb> {
        VERBS.iter().find(|about| about.name == name).map(|about| about.verb)
    }

    pub fn name(self) -> &'static str {
        self.about().name
    }

    fn about(self) -> &'static About {
        // Every verb has its entry: a test goes through all of them.
        VERBS.iter().find(|about| about.verb == self).unwrap_or(&VERBS[0])
    }

    /// The text of `card VERB --help` and `card help VERB`.
    pub fn help(self) -> String {
        let about = self.about();
        let shape = if about.takes.contains("SHAPE") { texts::SHAPE } else { "" };
        let image = if about.takes.contains("IMAGE") && self != Verb::Demo || self == Verb::Diff {
            texts::IMAGE
        } else {
            ""
        };
        format!("{}\n{}{shape}{image}{}", about.usage(), about.text, texts::STATUS)
    }
}

impl About {
    pub fn usage(&self) -> String {
        format!("card {} {}\n", self.name, self.takes)
    }
}

/// The text of `card --help`.
pub fn help() -> String {
    let verbs = VERBS.iter().map(|about| {
        let usage = about.usage();
        format!("  {:<47} {}\n", usage.trim_end(), about.brief)
    });
    let verbs: String = verbs.collect();
    format!("{}\n{verbs}\n{}{}{}", texts::CARD, texts::ABOUT_SHAPE, texts::IMAGE, texts::STATUS)
}

#[cfg(test)]
mod tests {
    use super::*;

    #[test]
    fn every_verb_has_its_own_entry() {
        for about in &VERBS {
            assert_eq!(about.verb.name(), about.name);
            assert_eq!(Verb::named(about.name), Some(about.verb));
        }
    }
}
