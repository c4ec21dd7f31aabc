//! Near misses: chips on which one page is erased but for one byte. In a row of near
//! misses that byte takes every place of a page, and the page every place of the chip.

use crate::chip::Chip;
use crate::command::Lent;
use crate::random::Random;
use second::card::Card;
use second::shape::{DATA_BYTES, SPARE_BYTES};
use std::ops::Range;

/// The places of a byte in a page: those of the data bytes, then those of the spare
/// bytes.
pub const PLACES: usize = DATA_BYTES + SPARE_BYTES;

/// One card in so many has near misses, unless every card has.
const ONE_CARD_IN: u64 = 8;
/// So many near misses are tried on a card, one after the other.
const ON_A_CARD: u64 = 8;

/// From a near miss to the next one the place moves by so many, round and round. It
/// has no divisor in common with 528, so that 528 in a row take every place; and no
/// part of a page is left out for long.
const PLACE_STEP: usize = 197;
/// From a place to the next one the page moves by so many, so that it is soon
/// anywhere, on a large chip too.
const PAGE_STEP: usize = 1009;

/// A byte that is not 255, in a page that is erased but for it.
#[derive(Clone, Copy, Debug, PartialEq)]
pub struct NearMiss {
    /// The flash page.
    page: usize,
    /// The place in the page.
    pub place: usize,
}

impl NearMiss {
    /// Puts near miss `number` on a chip with an erased page.
    pub fn put(chip: &mut Chip, number: u64, random: &mut Random) -> NearMiss {
        let erased = erased_pages(chip);
        let (place, nth) = turn(number, erased.len());
        let page = erased[nth];
        *chip.byte_of(page, place) = not_255(random);
        NearMiss { page, place }
    }

    /// Whether the byte is there in what is lent. (Format takes it away.)
    pub fn is_in(&self, lent: &Lent) -> bool {
        let byte = match self.place.checked_sub(DATA_BYTES) {
            None => lent.data.part().get(self.page * DATA_BYTES + self.place),
            Some(place) => lent.spare.part().get(self.page * SPARE_BYTES + place),
        };
        byte.is_some_and(|byte| *byte != 255)
    }
}

/// The numbers of the near misses on the card with this seed; none if it has no near
/// misses. They follow those of the card with near misses before it.
pub fn numbers(seed: u64, on_every_card: bool) -> Option<impl Iterator<Item = u64>> {
    let one_card_in = if on_every_card { 1 } else { ONE_CARD_IN };
    let first = (seed / one_card_in).wrapping_mul(ON_A_CARD);
    seed.is_multiple_of(one_card_in).then(|| (0..ON_A_CARD).map(move |next| first + next))
}

/// The place of near miss `number`, and which of so many pages it is on. Each time
/// that all places have been taken, the page of each is the next one.
fn turn(number: u64, pages: usize) -> (usize, usize) {
    let in_round = (number % PLACES as u64) as usize;
    let round = (number / PLACES as u64 % pages as u64) as usize;
    let place = in_round * PLACE_STEP % PLACES;
    (place, (place * PAGE_STEP + round) % pages)
}

/// A byte that is not 255: mostly one with one bit off.
fn not_255(random: &mut Random) -> u8 {
    match random.below(8) {
        0..3 => 254,
        3..6 => 127,
        6 => 0,
        _ => random.below(255) as u8,
    }
}

/// A chip for near misses: erased or made up, with an erased page in a good block.
pub fn chip(random: &mut Random) -> Chip {
    loop {
        let mut chip = Chip::erased_or_made_up(random);
        if !erased_pages(&chip).is_empty() {
            blank_a_page(&mut chip, random);
            return chip;
        }
    }
}

/// The opposite of a near miss: the last written page of a block, if there is one,
/// gets the data of an erased page and keeps its spare bytes.
fn blank_a_page(chip: &mut Chip, random: &mut Random) {
    let last_written = last_written(chip);
    if !last_written.is_empty() {
        let page = random.one_of(&last_written);
        chip.data[page * DATA_BYTES..(page + 1) * DATA_BYTES].fill(255);
    }
}

/// The erased pages of the good blocks, ascending.
fn erased_pages(chip: &Chip) -> Vec<usize> {
    let card = chip.card().expect("a chip of its shape");
    good_blocks(card).flatten().filter(|page| card.is_erased(*page)).collect()
}

/// The last written page of each good block that has one.
fn last_written(chip: &Chip) -> Vec<usize> {
    let card = chip.card().expect("a chip of its shape");
    let last = |mut pages: Range<usize>| pages.rfind(|page| !card.is_erased(*page));
    good_blocks(card).filter_map(last).collect()
}

/// The pages of each good block.
fn good_blocks(card: Card<'_>) -> impl Iterator<Item = Range<usize>> + '_ {
    let good = (0..card.blocks).filter(move |block| !card.is_bad(*block));
    good.map(move |block| card.pages_of(block))
}

#[cfg(test)]
mod tests {
    use super::*;
    use std::collections::BTreeSet;

    /// A near miss, the chip with it, and the chip without it.
    struct Tried {
        near_miss: NearMiss,
        spoiled: Chip,
        unspoiled: Chip,
    }

    /// The near misses of the cards with these seeds, if every card has them.
    fn tried(seeds: Range<u64>) -> Vec<Tried> {
        let mut tried = Vec::new();
        for seed in seeds {
            let mut random = Random::new(seed);
            let unspoiled = chip(&mut random);
            for number in numbers(seed, true).into_iter().flatten() {
                let (mut spoiled, unspoiled) = (unspoiled.clone(), unspoiled.clone());
                let near_miss = NearMiss::put(&mut spoiled, number, &mut random);
                tried.push(Tried { near_miss, spoiled, unspoiled });
            }
        }
        tried
    }

    /// The places at which two chips differ, each with its page.
    fn differences(one: &Chip, other: &Chip) -> Vec<NearMiss> {
        let images = [
            (&one.data, &other.data, DATA_BYTES, 0),
            (&one.spare, &other.spare, SPARE_BYTES, DATA_BYTES),
        ];
        let mut found = Vec::new();
        for (one, other, bytes, first) in images {
            let differ = (0..one.len()).filter(|at| one[*at] != other[*at]);
            found.extend(differ.map(|at| NearMiss { page: at / bytes, place: first + at % bytes }));
        }
        found
    }

    #[test]
    fn one_byte_of_an_erased_page_of_a_good_block_is_not_255() {
        for Tried { near_miss, spoiled, unspoiled } in tried(1..20) {
            assert_eq!(differences(&spoiled, &unspoiled), [near_miss]);
            let card = unspoiled.card().expect("a card");
            assert!(card.is_erased(near_miss.page));
            assert!(!card.is_bad(near_miss.page / card.shape.pages));
        }
    }

    /// 66 cards with 8 near misses each, or 528 cards of which one in eight has them.
    #[test]
    fn every_place_is_taken_once_in_528_near_misses() {
        for first in [1, 1000, u64::MAX / 16] {
            for (cards, on_every_card) in [(66, true), (528, false)] {
                let numbers = (first..first + cards)
                    .filter_map(|seed| numbers(seed, on_every_card))
                    .flatten();
                let places: Vec<usize> = numbers.map(|number| turn(number, 1).0).collect();
                assert_eq!(places.len(), PLACES);
                assert_eq!(BTreeSet::from_iter(places), BTreeSet::from_iter(0..PLACES));
            }
        }
    }

    /// The same on the chips themselves.
    #[test]
    fn the_chips_of_66_cards_have_a_byte_at_every_place() {
        let tried = tried(1..67);
        let places = tried.iter().map(|tried| tried.near_miss.place);
        assert_eq!(BTreeSet::from_iter(places), BTreeSet::from_iter(0..PLACES));
    }

    #[test]
    fn every_place_is_taken_on_every_page() {
        for pages in [1, 6, 23, 32] {
            let turns = (0..(PLACES * pages) as u64).map(|number| turn(number, pages));
            assert_eq!(BTreeSet::from_iter(turns).len(), PLACES * pages);
        }
    }

    /// In the near misses of nine cards in a row.
    #[test]
    fn every_group_of_8_bytes_is_met_soon() {
        for first in 0..PLACES as u64 {
            let numbers = first..first + 9 * ON_A_CARD;
            let groups = numbers.map(|number| turn(number, 1).0 / 8);
            assert_eq!(BTreeSet::from_iter(groups), BTreeSet::from_iter(0..PLACES / 8));
        }
    }

    /// On the first page of a free block and on others, and after the written pages of
    /// a block; but not on the first page of a block that is written.
    #[test]
    fn near_misses_are_on_every_kind_of_page() {
        let kinds = tried(1..67).into_iter().map(|Tried { near_miss, unspoiled, .. }| {
            let card = unspoiled.card().expect("a card");
            let pages = card.shape.pages;
            (card.is_free(near_miss.page / pages), near_miss.page % pages == 0)
        });
        let expected = [(true, true), (true, false), (false, false)];
        assert_eq!(BTreeSet::from_iter(kinds), BTreeSet::from(expected));
    }

    #[test]
    fn on_a_chip_that_is_made_up_a_written_page_has_the_data_of_an_erased_one() {
        let mut random = Random::new(1);
        let chips: Vec<Chip> = (0..40).map(|_| chip(&mut random)).collect();
        let made_up = chips.iter().filter(|chip| !last_written(chip).is_empty());
        for chip in made_up.clone() {
            let card = chip.card().expect("a card");
            let is_blank = |page: &usize| *card.data(*page) == [255; DATA_BYTES];
            assert!(last_written(chip).iter().any(is_blank));
        }
        assert!(made_up.count() > 10);
    }
}
