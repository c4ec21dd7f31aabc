//! The answers of the card in words: what a refusal means, and what to do.

use crate::failure::Failure;
use crate::files::MOST_BYTES;
use crate::help::Verb;
use crate::image::Image;
use crate::inspect;
use hamutsigra::{Refusal, Shape, Steps, DATA_BYTES, SPARE_BYTES};
use second::shape::PAGES;

/// A command as it was asked, for the words of a refusal.
pub struct Asked<'a> {
    pub verb: Verb,
    pub image: &'a Image,
    pub shape: Shape,
    pub subject: Subject,
}

/// What a command is about.
#[derive(Clone, Copy, Debug, PartialEq, Eq)]
pub enum Subject {
    /// The card as a whole.
    Card,
    /// A logical page.
    Page(usize),
    /// A logical block, for which so many bytes are given.
    Block { number: usize, bytes: usize },
}

/// A refusal, and what the command was about.
pub struct Refused {
    pub subject: Subject,
    pub refusal: Refusal,
}

impl Subject {
    /// Makes a refusal one of a command about this.
    pub fn refused(self) -> impl Fn(Refusal) -> Refused {
        move |refusal| Refused { subject: self, refusal }
    }
}

impl Asked<'_> {
    /// The failure that a refusal of this command is.
    pub fn refused(&self, refusal: Refusal) -> Failure {
        let (meaning, remedy) = (self.meaning(refusal), self.remedy(refusal));
        let more = if refusal == Refusal::IllFormed { " `card check` says where." } else { "" };
        Failure::Refused(refusal, format!("{meaning}.{more}\n      {remedy}."))
    }

    /// What a refusal means, in a sentence.
    pub fn meaning(&self, refusal: Refusal) -> String {
        let logical = self.shape.logical;
        match refusal {
            Refusal::OutsideLimits => {
                let limit = self.limit();
                format!("the shape or the length of the image is outside the limits: {limit}")
            }
            Refusal::WrongBuffer if self.verb == Verb::PowerUp => {
                format!("there is no table for as many as {logical} logical blocks")
            }
            Refusal::WrongBuffer => self.wrong_length(),
            Refusal::OutOfRange => self.out_of_range(),
            Refusal::TooFewBlocks => self.good_blocks(),
            Refusal::IllFormed => "the image is not well-formed".into(),
            Refusal::NeedsPowerUp => "an obsolete block exists, as after a cut".into(),
            Refusal::OutOfNumbers => "the sequence numbers that are left do not suffice".into(),
            Refusal::Cut(steps) => {
                let (count, left) = (count(steps), self.left_by_a_cut(steps));
                format!("the card was pulled out after {count}, before the last step{left}")
            }
        }
    }

    /// What to do about a refusal.
    pub fn remedy(&self, refusal: Refusal) -> &'static str {
        match refusal {
            Refusal::OutsideLimits => "Check -P, -L and -K, and that the whole chip was read",
            Refusal::WrongBuffer if self.verb == Verb::PowerUp => "Check -L",
            Refusal::WrongBuffer => match self.subject {
                Subject::Block { bytes, .. } if bytes < self.shape.pages * DATA_BYTES => {
                    "Give exactly so many bytes, or --pad to fill up with 255"
                }
                Subject::Block { .. } => "Give exactly so many bytes",
                _ => "Give exactly 512 bytes",
            },
            Refusal::OutOfRange => match self.subject {
                Subject::Block { .. } => "Check the block and -L",
                _ => "Check the page, -P and -L",
            },
            Refusal::TooFewBlocks => {
                "Check -P, -L and -K. If they are right, take another chip, or a smaller L or K"
            }
            Refusal::IllFormed if self.is_of_two_moments() => {
                "There are data without spare bytes, as in two files of which one is older: copied \
                 while they were written, for one. Copy both again"
            }
            // A wrong shape is the likelier cause, and a format cannot be undone.
            Refusal::IllFormed => {
                "Check -P, -L and -K. `card shape` tells which fit. If they are right, `card \
                 salvage` reads out what is certain; then only `card format` helps: all content is \
                 lost"
            }
            Refusal::NeedsPowerUp => "Run `card power-up` first",
            Refusal::OutOfNumbers => {
                "Run `card renew`: it reads the pages out, formats the card and writes them again"
            }
            Refusal::Cut(_) if self.verb == Verb::Format => "Run `card format` again",
            Refusal::Cut(_) => "Run `card power-up`",
        }
    }

    /// How long what is given is, and must be.
    fn wrong_length(&self) -> String {
        let Subject::Block { bytes, .. } = self.subject else {
            return "the page is not 512 bytes long".into();
        };
        // 2 is given only where 1 does not apply, so that P is within its limits.
        let whole = self.shape.pages * DATA_BYTES;
        let more = if bytes as u64 > MOST_BYTES { "more than " } else { "" };
        let bytes = MOST_BYTES.min(bytes as u64);
        format!("the block is {more}{bytes} bytes long, and must be {whole}, P x {DATA_BYTES}")
    }

    /// What the card has not, and what it has.
    fn out_of_range(&self) -> String {
        let Shape { pages, logical, .. } = self.shape;
        match self.subject {
            Subject::Block { number, .. } => {
                let last = logical - 1;
                format!("logical block {number} is out of range: the card has 0 to {last}")
            }
            Subject::Page(number) => {
                // L is any number, so that the product may need a wider one.
                let last = logical as u128 * pages as u128 - 1;
                format!("page {number} is out of range: the card has pages 0 to {last}")
            }
            Subject::Card => Refusal::OutOfRange.to_string(),
        }
    }

    /// What is to be said of a block that is written all or none.
    fn left_by_a_cut(&self, steps: Steps) -> &'static str {
        match self.subject {
            Subject::Block { .. } if steps.programs as usize == self.shape.pages => {
                "; the block is the new one already"
            }
            Subject::Block { .. } => "; the block is still the old one",
            _ => "",
        }
    }

    /// Whether two files look as if a write had come between the copies of them: a page
    /// has its data and not yet its spare bytes.
    fn is_of_two_moments(&self) -> bool {
        let Image { data, spare, two_files } = self.image;
        let mut pages = data.as_chunks().0.iter().zip(spare.as_chunks().0);
        *two_files
            && pages.any(|(data, spare)| *spare == [255; SPARE_BYTES] && *data != [255; DATA_BYTES])
    }

    /// The first limit that is not kept. A file has whole pages, so that it is enough
    /// to count them.
    fn limit(&self) -> String {
        let Shape { pages, logical, logs } = self.shape;
        let of_data = self.image.data.len() / DATA_BYTES;
        let of_spare = self.image.spare.len() / SPARE_BYTES;
        if !PAGES.contains(&pages) {
            format!("P is {pages}, and can be 2 to 32")
        } else if logical == 0 {
            "L is 0, and must be at least 1".into()
        } else if logs == 0 {
            "K is 0, and must be at least 1".into()
        } else if of_data != of_spare {
            format!("the data image has {of_data} pages, the spare image {of_spare}")
        } else if !of_data.is_multiple_of(pages) {
            format!("the image has {of_data} pages, which are not whole blocks of {pages}")
        } else {
            let blocks = of_data / pages;
            format!("the image has {blocks} blocks of {pages} pages, and can have 3 to 64")
        }
    }

    /// How many good blocks there are, and how many are needed.
    fn good_blocks(&self) -> String {
        // 4 is given only where 1 does not apply, so that there is a card.
        let Some(card) = inspect::card(self.image, self.shape) else {
            return "there are too few good blocks".into();
        };
        let (good, blocks) = (card.good_blocks(), card.blocks);
        let needed = card.shape.good_blocks_needed();
        format!("{good} of {blocks} blocks are good, and {needed} are needed, L + K + 1")
    }
}

/// The steps done, in words.
pub fn count(steps: Steps) -> String {
    let Steps { programs, erases } = steps;
    let s = |number: u32| if number == 1 { "" } else { "s" };
    format!("{programs} program{} and {erases} erase{}", s(programs), s(erases))
}
