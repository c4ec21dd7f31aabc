//! Two images beside each other, by block and by logical page: `diff`.

use crate::faults::named;
use crate::image::Image;
use crate::json::Json;
use hamutsigra::{Shape, DATA_BYTES, SPARE_BYTES};

/// The exit status where the two differ: no answer of the card.
pub const DIFFERENT: u8 = 9;

/// In what two images differ.
pub struct Diff {
    /// The flash pages of each.
    lengths: [usize; 2],
    /// The flash pages that differ: block, page, and whether in data and in spare bytes.
    flash: Vec<(usize, usize, bool, bool)>,
    /// The logical pages that differ, and whether each image has them; none where one of
    /// the images cannot be read.
    logical: Option<Vec<(usize, bool, bool)>>,
}

pub fn diff(one: &Image, other: &Image, shape: Shape) -> Diff {
    let pages = |image: &Image| image.spare.len() / SPARE_BYTES;
    let lengths = [pages(one), pages(other)];
    let in_both = 0..lengths[0].min(lengths[1]);
    let flash = in_both.filter_map(|page| {
        let data = part(&one.data, page, DATA_BYTES) != part(&other.data, page, DATA_BYTES);
        let spare = part(&one.spare, page, SPARE_BYTES) != part(&other.spare, page, SPARE_BYTES);
        let per_block = shape.pages.max(1);
        (data || spare).then_some((page / per_block, page % per_block, data, spare))
    });
    Diff { lengths, flash: flash.collect(), logical: by_logical_page(one, other, shape) }
}

fn part(image: &[u8], page: usize, bytes: usize) -> Option<&[u8]> {
    image.get(page * bytes..(page + 1) * bytes)
}

fn by_logical_page(one: &Image, other: &Image, shape: Shape) -> Option<Vec<(usize, bool, bool)>> {
    let (one, other) = (one.card(shape), other.card(shape));
    // A card that answers to page 0 has no more pages than fit a chip.
    one.read(0).and(other.read(0)).ok()?;
    let differ = (0..shape.logical * shape.pages).filter_map(|number| {
        let same = one.read(number) == other.read(number);
        let held = (one.lend(number).is_some(), other.lend(number).is_some());
        (!same).then_some((number, held.0, held.1))
    });
    Some(differ.collect())
}

impl Diff {
    pub fn is_same(&self) -> bool {
        let logical = self.logical.as_ref().is_none_or(Vec::is_empty);
        self.lengths[0] == self.lengths[1] && self.flash.is_empty() && logical
    }

    pub fn status(&self) -> u8 {
        if self.is_same() {
            0
        } else {
            DIFFERENT
        }
    }

    pub fn in_words(&self) -> String {
        let mut lines = Vec::new();
        let [one, other] = self.lengths;
        if one != other {
            lines.push(format!("the first image has {one} flash pages, the second {other}"));
        }
        let mut blocks: Vec<usize> = self.flash.iter().map(|(block, ..)| *block).collect();
        blocks.dedup();
        lines.push(match &blocks[..] {
            [] => "no block differs".into(),
            [block] => format!("block {block} differs"),
            blocks => format!("{} differ", named(blocks)),
        });
        for (block, page, data, spare) in &self.flash {
            let what = match (data, spare) {
                (true, true) => "data and spare bytes",
                (true, false) => "data",
                _ => "spare bytes",
            };
            lines.push(format!("block {block}, page {page}: {what}"));
        }
        lines.push(String::new());
        lines.extend(self.logical_in_words());
        lines.join("\n") + "\n"
    }

    fn logical_in_words(&self) -> Vec<String> {
        match &self.logical {
            None => {
                let check = "`card check` says why";
                vec![format!("by logical page: one of the images cannot be read; {check}")]
            }
            Some(pages) if pages.is_empty() => vec!["no logical page differs".into()],
            Some(pages) => pages.iter().map(|page| of_page(*page)).collect(),
        }
    }

    pub fn to_json(&self) -> Json {
        let flash = self.flash.iter().map(|(block, page, data, spare)| {
            Json::Object(vec![
                ("block", Json::number(*block)),
                ("page", Json::number(*page)),
                ("data", Json::Flag(*data)),
                ("spare", Json::Flag(*spare)),
            ])
        });
        let of_page = |(number, one, other): &(usize, bool, bool)| {
            Json::Object(vec![
                ("page", Json::number(*number)),
                ("written_in_first", Json::Flag(*one)),
                ("written_in_second", Json::Flag(*other)),
            ])
        };
        let logical = self.logical.as_ref();
        let logical =
            logical.map_or(Json::Null, |pages| Json::List(pages.iter().map(of_page).collect()));
        Json::Object(vec![
            ("same", Json::Flag(self.is_same())),
            ("flash_pages", Json::numbers(self.lengths)),
            ("differing_flash_pages", Json::List(flash.collect())),
            ("differing_logical_pages", logical),
        ])
    }
}

fn of_page((number, one, other): (usize, bool, bool)) -> String {
    match (one, other) {
        (true, false) => format!("logical page {number}: only in the first image"),
        (false, true) => format!("logical page {number}: only in the second image"),
        _ => format!("logical page {number}: another content"),
    }
}
