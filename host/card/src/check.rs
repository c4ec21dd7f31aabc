//! What the card would answer, and why: `check`.
//!
//! The answers are those of the layer, each command tried on a copy of the image;
//! the reasons are what the second program sees (see `inspect`).

use crate::bad::{self, Bad};
use crate::commands;
use crate::faults::{self, Fault};
use crate::help::Verb;
use crate::image::Image;
use crate::inspect;
use crate::json::Json;
use crate::paint::Paint;
use crate::shapes;
use crate::words::{count, Asked, Subject};
use hamutsigra::{Answer, Refusal, Shape, Steps, DATA_BYTES};
use second::block::{Block, Used};
use second::blocks::{Blocks, Role};
use second::card::Card;
use second::spare::{Kind, HIGHEST_NUMBER};

/// A list of reasons longer than this is broken off.
const MOST_REASONS: usize = 12;

/// What was found out about a card.
pub struct Checked<'a> {
    answered: [Answered<'a>; 4],
    reasons: Option<Reasons>,
    /// Other values of P with which the image is as well-formed.
    doubt: Option<String>,
    other_pages: Vec<usize>,
}

/// A command and what it answers.
type Answered<'a> = (Asked<'a>, Answer);

/// What the answers come from.
struct Reasons {
    good: usize,
    blocks: usize,
    highest_number: u32,
    bad: Vec<Bad>,
    faults: Vec<Fault>,
    /// The obsolete blocks, and how they came to be so.
    obsolete: Vec<(usize, &'static str)>,
}

pub fn check(image: &Image, number: usize, shape: Shape) -> Checked<'_> {
    let page = Subject::Page(number);
    let commands = [
        (Verb::Format, Subject::Card),
        (Verb::PowerUp, Subject::Card),
        (Verb::Read, page),
        (Verb::Write, page),
    ];
    let answered = commands.map(|(verb, subject)| {
        let answer = attempt(verb, image, number, shape);
        (Asked { verb, image, shape, subject }, answer)
    });
    // Without a card there are no blocks to speak of; the answer says it all.
    let reasons = inspect::card(image, shape).map(|card| Reasons::of(&card));
    let doubt = shapes::doubt(image, shape);
    Checked { answered, reasons, doubt, other_pages: shapes::other_pages(image, shape) }
}

/// What a command answers, tried on a copy.
fn attempt(verb: Verb, image: &Image, number: usize, shape: Shape) -> Answer {
    let mut copy = image.clone();
    let mut card = copy.card_mut(shape);
    match verb {
        Verb::Format => card.format(None),
        Verb::PowerUp => card.power_up(&mut commands::table(shape), None),
        Verb::Read => card.read(number).map(|_| Steps::default()),
        _ => card.write(number, &[0; DATA_BYTES], None),
    }
}

impl Checked<'_> {
    /// The number with which a write of the page would be answered.
    pub fn status(&self) -> u8 {
        number(&self.answered[3].1)
    }

    pub fn in_words(&self, paint: Paint) -> String {
        let mut lines: Vec<String> = self.answered.iter().map(in_words).collect();
        if let Some(reasons) = &self.reasons {
            lines.extend(reasons.in_words(paint));
        }
        let mut remedies = self.remedies();
        remedies.extend(self.doubt.clone());
        if !remedies.is_empty() {
            lines.push(String::new());
        }
        lines.extend(remedies);
        lines.join("\n") + "\n"
    }

    /// What to do about the refusals. Most have a cause in common, so each remedy is
    /// named once.
    fn remedies(&self) -> Vec<String> {
        let mut remedies = Vec::new();
        for (asked, answer) in &self.answered {
            let remedy = answer.err().map(|refusal| format!("{}.", asked.remedy(refusal)));
            remedies.extend(remedy.filter(|remedy| !remedies.contains(remedy)));
        }
        remedies
    }

    pub fn to_json(&self) -> Json {
        let answers = self.answered.iter().map(|(asked, answer)| {
            let steps = answer.unwrap_or_else(Refusal::steps);
            let meaning = answer.err().map_or(Json::Null, |of| Json::text(asked.meaning(of)));
            Json::Object(vec![
                ("command", Json::text(asked.verb.name())),
                ("answer", Json::number(number(answer).into())),
                ("programs", Json::number(steps.programs as usize)),
                ("erases", Json::number(steps.erases as usize)),
                ("meaning", meaning),
            ])
        });
        let mut fields = vec![("answers", Json::List(answers.collect()))];
        if let Some(reasons) = &self.reasons {
            fields.extend(reasons.to_json());
        }
        fields.push(("other_pages_per_block", Json::numbers(self.other_pages.iter().copied())));
        Json::Object(fields)
    }
}

fn number(answer: &Answer) -> u8 {
    answer.map_or_else(Refusal::number, |_| 0)
}

fn in_words((asked, answer): &Answered) -> String {
    let command = match asked.subject {
        Subject::Page(number) => format!("{} {number}", asked.verb.name()),
        _ => asked.verb.name().to_string(),
    };
    match answer {
        Ok(steps) => format!("{command:<10} answers 0: all done, with {}", count(*steps)),
        Err(refusal) => {
            let (number, meaning) = (refusal.number(), asked.meaning(*refusal));
            format!("{command:<10} answers {number}: {meaning}")
        }
    }
}

impl Reasons {
    fn of(card: &Card) -> Reasons {
        let blocks = Blocks::on(card);
        Reasons {
            good: card.good_blocks(),
            blocks: card.blocks,
            highest_number: blocks.highest_number(),
            bad: bad::of(card),
            faults: faults::of(card, &blocks),
            obsolete: obsolete(card, &blocks),
        }
    }

    /// Lines, set off by an empty one, in the colours of `show`.
    fn in_words(&self, paint: Paint) -> Vec<String> {
        let mut lines = vec![String::new()];
        lines.push(format!(
            "{} of {} blocks are good; the highest sequence number is {} of {HIGHEST_NUMBER}",
            self.good, self.blocks, self.highest_number
        ));
        let bad = bad::in_words(&self.bad);
        lines.extend(broken_off(bad.iter().map(|line| paint.role(Role::Bad, line)).collect()));
        let faults = self.faults.iter().map(|fault| paint.role(Role::Broken, &fault.in_words()));
        lines.extend(broken_off(faults.collect()));
        let obsolete = self.obsolete.iter().map(|(block, origin)| {
            paint.role(Role::Obsolete, &format!("block {block}: obsolete, {origin}"))
        });
        lines.extend(broken_off(obsolete.collect()));
        lines
    }

    fn to_json(&self) -> Vec<(&'static str, Json)> {
        let faults = self.faults.iter().map(|fault| {
            let place = fault.place.as_ref();
            Json::Object(vec![
                ("rule", Json::text(fault.rule.to_string())),
                ("blocks", Json::numbers(fault.blocks.iter().copied())),
                ("page", Json::number_if_any(place.map(|place| place.page))),
                ("spare_byte", Json::number_if_any(place.and_then(|place| place.byte))),
                ("what", place.map_or(Json::Null, |place| Json::text(place.what.clone()))),
            ])
        });
        let obsolete = self.obsolete.iter().map(|(block, _)| *block);
        vec![
            ("good_blocks", Json::number(self.good)),
            ("blocks", Json::number(self.blocks)),
            ("highest_number", Json::number(self.highest_number as usize)),
            ("bad", Json::List(self.bad.iter().map(Bad::to_json).collect())),
            ("faults", Json::List(faults.collect())),
            ("obsolete", Json::numbers(obsolete)),
        ]
    }
}

fn broken_off(mut reasons: Vec<String>) -> Vec<String> {
    let more = reasons.len().saturating_sub(MOST_REASONS);
    if more > 0 {
        reasons.truncate(MOST_REASONS);
        reasons.push(format!(".. and {more} more"));
    }
    reasons
}

fn obsolete(card: &Card, blocks: &Blocks) -> Vec<(usize, &'static str)> {
    let obsolete = blocks.iter().filter(|block| blocks.role(block) == Role::Obsolete);
    let used = obsolete.filter_map(|block| match block {
        Block::Used(used) => Some(used),
        _ => None,
    });
    used.map(|used| (used.block, origin(card, used))).collect()
}

/// How an obsolete block came to be so.
fn origin(card: &Card, used: &Used) -> &'static str {
    match used.kind {
        _ if used.is_complete(card.shape.pages) => "a data block that has been replaced",
        Kind::Copy => "a copy that was not finished",
        Kind::Log => "a log block that has been merged or replaced",
    }
}

#[cfg(test)]
mod tests {
    use super::*;
    use second::spare::STATUS;

    #[test]
    fn bad_blocks_faults_and_obsolete_blocks_have_the_colours_of_the_map() {
        let mut image = Image::erased(16);
        image.spare[..8].copy_from_slice(&[1, 0, 0, 0, 99, 255, 0, 0]);
        image.spare[64..72].copy_from_slice(&[2, 0, 0, 0, 15, 255, 0, 0]);
        image.spare[144 + STATUS] = 0;
        let checked = check(&image, 0, Shape { pages: 4, logical: 2, logs: 1 });
        let coloured = checked.in_words(Paint::Colour);
        assert!(coloured.contains("\x1b[37;45mblock 0: spare bytes not as in the table"));
        assert!(coloured.contains("\x1b[30;43mblock 1: obsolete, a copy"));
        assert!(coloured.contains("\x1b[37;41mblock 2: bad, mark on page 1"));
        assert!(!checked.in_words(Paint::Plain).contains('\x1b'));
    }
}
