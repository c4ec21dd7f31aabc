//! A whole card out and in: all its logical pages, ascending, one after the other.

use crate::arguments::Pages;
use crate::image::Image;
use crate::progress::Progress;
use crate::words::{Refused, Subject};
use hamutsigra::{Refusal, Shape, Steps, DATA_BYTES};
use std::ops::RangeInclusive;

/// Pages read out.
pub struct Dumped {
    pub pages: RangeInclusive<usize>,
    pub bytes: Vec<u8>,
    /// How many of them were never written.
    pub never_written: usize,
}

/// What was written of pages.
#[derive(Default)]
pub struct Written {
    pub steps: Steps,
    pub written: usize,
    /// How many read so already.
    pub left: usize,
}

/// Reads pages out. Pages never written are 255.
pub fn dump(image: &Image, shape: Shape, pages: Pages) -> Result<Dumped, Refused> {
    let card = image.card(shape);
    let pages = in_range(image, shape, pages)?;
    let mut progress = Progress::new("dump", *pages.end());
    let mut dumped = Dumped { pages: pages.clone(), bytes: Vec::new(), never_written: 0 };
    for number in pages {
        let page = card.read(number).map_err(at(number))?;
        dumped.bytes.extend_from_slice(&page);
        dumped.never_written += usize::from(card.lend(number).is_none());
        progress.show(number);
    }
    Ok(dumped)
}

/// Writes pages from the first on.
pub fn restore(
    image: &mut Image,
    shape: Shape,
    first: usize,
    pages: &[[u8; DATA_BYTES]],
) -> Result<Written, Refused> {
    // All of them or none.
    let last = first.saturating_add(pages.len().saturating_sub(1));
    in_range(image, shape, Pages { from: Some(first), to: Some(last) })?;
    let numbered = pages.iter().enumerate().map(|(i, page)| (first + i, *page));
    write(image, shape, "restore", numbered)
}

/// Reads the pages out, formats the card and writes them again: the sequence numbers
/// begin anew.
pub fn renew(image: &mut Image, shape: Shape) -> Result<Written, Refused> {
    let pages = in_range(image, shape, Pages { from: None, to: None })?;
    let in_all = pages.clone().count();
    let card = image.card(shape);
    let held = pages.filter_map(|number| card.lend(number).map(|lent| (number, *lent.bytes)));
    let held: Vec<(usize, [u8; DATA_BYTES])> = held.collect();
    let formatted = image.card_mut(shape).format(None).map_err(Subject::Card.refused())?;
    let renewed = write(image, shape, "renew", held.into_iter())?;
    let steps = sum(formatted, renewed.steps);
    Ok(Written { steps, left: in_all - renewed.written, ..renewed })
}

/// Writes pages; those that read so already are left.
fn write(
    image: &mut Image,
    shape: Shape,
    what: &'static str,
    pages: impl ExactSizeIterator<Item = (usize, [u8; DATA_BYTES])>,
) -> Result<Written, Refused> {
    let mut card = image.card_mut(shape);
    let mut progress = Progress::new(what, pages.len());
    let mut done = Written::default();
    for (number, page) in pages {
        if card.read(number).map_err(at(number))? == page {
            done.left += 1;
            continue;
        }
        let steps = card.write(number, &page, None).map_err(at(number))?;
        done.steps = sum(done.steps, steps);
        done.written += 1;
        progress.show(done.written);
    }
    Ok(done)
}

/// The pages asked for, if the card has them: a card that answers to its last page has
/// no more pages than fit a chip.
fn in_range(image: &Image, shape: Shape, pages: Pages) -> Result<RangeInclusive<usize>, Refused> {
    let card = image.card(shape);
    let first = pages.from.unwrap_or(0);
    card.read(first).map_err(at(first))?;
    let last = pages.to.unwrap_or_else(|| (shape.logical * shape.pages).saturating_sub(1));
    card.read(last).map_err(at(last))?;
    Ok(first..=last)
}

fn at(number: usize) -> impl Fn(Refusal) -> Refused {
    Subject::Page(number).refused()
}

fn sum(one: Steps, other: Steps) -> Steps {
    Steps { programs: one.programs + other.programs, erases: one.erases + other.erases }
}
