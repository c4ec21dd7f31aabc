//! A look at a card, for `show`, `check` and `demo`, and for the words of a refusal.
//!
//! The layer tells nobody what a block is, and nothing of the layer is repeated on
//! the host side but in the second program. So what is said of blocks, their roles
//! and the rules that they break is what the second program sees; `compare` holds
//! the second program to the layer.

use crate::image::Image;
use hamutsigra::Shape;
use second::card::Card;

/// The card as the second program sees it: none where the shape or the length of the
/// image is outside the limits.
pub fn card(image: &Image, shape: Shape) -> Option<Card<'_>> {
    let Shape { pages, logical, logs } = shape;
    Card::new(&image.data, &image.spare, second::Shape { pages, logical, logs })
}
