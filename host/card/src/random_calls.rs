//! A hundred thousand random calls of what the verbs do, on small cards that are whole,
//! spoilt or junk: none panics. (Files are another matter: see the tests of the tool.)

use crate::arguments::{self, Pages};
use crate::help::Verb;
use crate::image::Image;
use crate::paint::Paint;
use crate::words::{count, Asked, Subject};
use crate::{check, diff, flash, inspect, map, salvage, shapes, whole};
use hamutsigra::Shape;
use std::ffi::OsString;

/// The generator of the comparison.
#[allow(dead_code)]
#[path = "../../compare/src/random.rs"]
mod random;

use random::Random;

const WORDS: &str =
    "new format power-up read write load lend show check dump restore renew salvage raw \
                     shape diff split join demo help a.img - -- 0 7 -P4 -L -K=1 --logs=1 --data \
                     --spare=s --json --force --doubtful --pad --from --to=3 --bad=1 -é";

impl Random {
    fn number(&mut self) -> usize {
        self.one_of(&[0, 1, 2, 3, 4, 5, 7, 8, 12, 32, 33, 65_536, 1 << 32, 1 << 63, usize::MAX])
    }

    fn shape(&mut self) -> Shape {
        let mut usual = |number: usize| match self.below(20) {
            0 => self.number(),
            _ => number,
        };
        Shape { pages: usual(3), logical: usual(2), logs: usual(1) }
    }

    /// A chip of 4 blocks of 3 pages with some history, and something wrong with it.
    fn image(&mut self) -> Image {
        let shape = Shape { pages: 3, logical: 2, logs: 1 };
        let mut image = Image::erased(12);
        image.two_files = self.below(2) == 0;
        for _ in 0..self.below(12) {
            let (number, fill) = (self.below(6), [self.one_of(&[1, 2, 255]); 512]);
            let cut = self.one_of(&[None, None, None, Some(2)]);
            let _ = image.card_mut(shape).write(number, &fill, cut);
        }
        for _ in 0..self.one_of(&[0, 0, 1, 2, 40]) {
            let value = self.one_of(&[0, 1, 2, 3, 15, 99, 240, 255]);
            let at = self.below(image.spare.len());
            image.spare[at] = value;
        }
        if self.below(20) == 0 {
            let at = self.below(image.data.len());
            image.data[at] = 0;
        }
        image
    }

    fn pages(&mut self) -> Pages {
        let mut end = || match self.below(2) {
            0 => None,
            _ => Some(self.number()),
        };
        Pages { from: end(), to: end() }
    }

    fn words(&mut self) -> Vec<OsString> {
        let words: Vec<&str> = WORDS.split(' ').collect();
        (0..self.below(9)).map(|_| self.one_of(&words).into()).collect()
    }
}

/// Does one of the things that the verbs do; says whether anything came of it.
fn call(random: &mut Random, image: &mut Image, other: &Image) -> bool {
    let (shape, number) = (random.shape(), random.number());
    let card = inspect::card(image, shape);
    let text = match random.below(13) {
        0 => check::check(image, number, shape).in_words(Paint::Colour),
        1 => check::check(image, number, shape).to_json().to_string(),
        2 => card.map_or(String::new(), |card| map::draw_with_summary(&card, Paint::Plain)),
        3 => card.map_or(String::new(), |card| map::to_json(&card).to_string()),
        4 => shapes::report(image) + &shapes::doubt(image, shape).unwrap_or_default(),
        5 => diff::diff(image, other, shape).in_words(),
        6 => diff::diff(image, other, shape).to_json().to_string(),
        7 => flash::page(image, number, Some(shape.pages)).unwrap_or_default(),
        8 => match card.filter(|card| card.shape.good_blocks_needed() <= card.blocks as u128) {
            Some(card) => {
                let told = salvage::salvage(&card);
                assert_eq!(salvage::bytes(&card, &told, true).len(), told.len() * 512);
                salvage::report(&card, &told, false)
            }
            None => String::new(),
        },
        9 => whole::dump(image, shape, random.pages()).map_or(String::new(), |_| "done".into()),
        10 => {
            let pages = [[random.one_of(&[3, 255]); 512]; 2];
            let restored = whole::restore(image, shape, random.number(), &pages);
            restored.map_or(String::new(), |_| "done".into())
        }
        11 => {
            let bytes = random.one_of(&[0, 1, 512, 1024, 1536, 1536, 1536, 2048]);
            let cut = random.one_of(&[None, Some(2), Some(3)]);
            let answer = image.card_mut(shape).block_write(number, &vec![4; bytes], cut);
            let subject = Subject::Block { number, bytes };
            let asked = Asked { verb: Verb::Load, image, shape, subject };
            answer.map_or_else(|refusal| asked.meaning(refusal) + asked.remedy(refusal), count)
        }
        _ => whole::renew(image, shape).map_or(String::new(), |_| "done".into()),
    };
    !text.is_empty()
}

#[test]
fn random_calls_do_not_panic() {
    let mut random = Random::new(1);
    let mut fruitful = 0;
    let mut other = random.image();
    let mut image = random.image();
    for round in 0..100_000 {
        if round % 8 == 0 {
            (other, image) = (image, random.image());
        }
        fruitful += usize::from(call(&mut random, &mut image, &other));
        let variable = random.one_of(&[None, Some("4,2,1"), Some("x")]).map(OsString::from);
        let _ = arguments::parse(random.words(), variable);
    }
    assert!(fruitful > 50_000, "{fruitful} calls gave anything");
}
