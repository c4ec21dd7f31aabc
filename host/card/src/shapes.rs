//! The shapes under which an image is well-formed: `shape`, and what `check`, `write`
//! and `load` say of a P that the image does not confirm.

use crate::image::Image;
use crate::inspect;
use hamutsigra::Shape;
use second::block::Block;
use second::blocks::Blocks;
use second::shape::PAGES;

/// A P under which the image is well-formed, with the least L and K.
#[derive(Clone, Copy, Debug, PartialEq, Eq)]
pub struct Fit {
    pub shape: Shape,
    pub blocks: usize,
}

/// More logical blocks and log blocks than any card has: W3 and W7 ask nothing then.
const ANY: usize = 1 << 16;

/// All of them, by P. The good blocks suffice for the least L and K.
pub fn fitting(image: &Image) -> Vec<Fit> {
    PAGES.filter_map(|pages| fit(image, pages)).collect()
}

fn fit(image: &Image, pages: usize) -> Option<Fit> {
    let card = inspect::card(image, Shape { pages, logical: ANY, logs: ANY })?;
    let blocks = Blocks::on(&card);
    if !blocks.breaches().is_empty() {
        return None;
    }
    let logical = blocks.iter().filter_map(|block| match block {
        Block::Used(used) => Some(used.logical_block + 1),
        _ => None,
    });
    let shape =
        Shape { pages, logical: logical.max().unwrap_or(1), logs: blocks.live_logs().len().max(1) };
    let enough = card.good_blocks() > shape.logical + shape.logs;
    enough.then_some(Fit { shape, blocks: card.blocks })
}

/// Whether any block is used.
pub fn is_used(image: &Image) -> bool {
    let used = |spare: &[u8; 16]| *spare != [255; 16];
    image.spare.as_chunks().0.iter().any(used)
}

/// Other values of P under which the image, though not empty, is as well-formed as
/// under this one: it is too empty to tell a wrong P.
pub fn other_pages(image: &Image, shape: Shape) -> Vec<usize> {
    if !is_used(image) {
        return Vec::new();
    }
    let fits: Vec<usize> = fitting(image).iter().map(|fit| fit.shape.pages).collect();
    if !fits.contains(&shape.pages) {
        return Vec::new();
    }
    fits.into_iter().filter(|pages| *pages != shape.pages).collect()
}

/// The same in words.
pub fn doubt(image: &Image, shape: Shape) -> Option<String> {
    let others = other_pages(image, shape);
    let (last, rest) = others.split_last()?;
    let rest: String = rest.iter().map(|pages| format!("{pages}, ")).collect();
    let and = if rest.is_empty() { "" } else { "or " };
    Some(format!(
        "The image is too empty to tell a wrong P: it is as well-formed with -P {rest}{and}{last}."
    ))
}

/// The report of `shape`.
pub fn report(image: &Image) -> String {
    let fits = fitting(image);
    if fits.is_empty() {
        return "The image is well-formed under no shape.\n".into();
    }
    let mut lines = vec!["  P   B  L at least  K at least".to_string()];
    lines.extend(fits.iter().map(|fit| {
        let Shape { pages, logical, logs } = fit.shape;
        format!("{pages:>3} {:>3} {logical:>11} {logs:>11}", fit.blocks)
    }));
    if !is_used(image) {
        lines.push("No block is used: the image tells nothing of its shape.".into());
    } else if fits.len() > 1 {
        lines.push("The image is too empty to tell which P is right.".into());
    }
    lines.join("\n") + "\n"
}
