//! Where the time of a read goes, told by reads that are refused on the way.

use crate::card::{self, Image, Named, DATA_BYTES, K, L, P};
use crate::measure::{self, Deed};
use hamutsigra::{Card, Refusal, Shape};
use std::hint::black_box;

const SHAPE: Shape = Shape { pages: P, logical: L, logs: K };
const NUMBER: usize = card::IN_DATA_BLOCK;

/// The parts, in the order in which a read does them.
const PARTS: [&str; 4] = [
    "the call",
    "scan and records",
    "passes over the records, pairs of W5",
    "finding and copying the page",
];

pub fn print() {
    let cards = card::from_empty_to_full();
    println!("Where the time of a read goes, proved");
    println!();
    println!("{:<38}{:>15}{:>11}{:>11}", "", cards[0].name, cards[1].name, cards[2].name);
    let columns = cards.map(|card| Reads::timed(&card));
    for (part, name) in PARTS.into_iter().enumerate() {
        row(name, columns.each_ref().map(|reads| reads.parts()[part]));
    }
    row("all", columns.each_ref().map(|reads| Some(reads.done)));
    println!();
    println!("A read of a page out of range is refused with 3: the call alone. One with L 60 is");
    println!("refused with 4, after the scan and the count of good blocks. One with a K below the");
    println!("live log blocks is refused with 5, by W7, after all but finding and copying the");
    println!("page; a card just formatted has no log block, and the last two are not told apart");
    println!("there. The parts are the differences of these times.");
}

fn row(name: &str, times: [Option<f64>; 3]) {
    let [formatted, half_full, full] =
        times.map(|time| time.map_or("-".to_string(), |time| format!("{time:.2}")));
    println!("{name:<38}{formatted:>15}{half_full:>11}{full:>11}");
}

/// The least times of reads, each of which gets further than the one before.
struct Reads {
    /// Refused with 3, by the call.
    called: f64,
    /// Refused with 4, once the blocks have been scanned.
    scanned: f64,
    /// Refused with 5 by W7, the last rule; where there are live log blocks.
    judged: Option<f64>,
    /// Answered 0.
    done: f64,
}

impl Reads {
    fn timed(card: &Named) -> Reads {
        let called = |image: &mut Image| expect(Some(3), image, SHAPE, L * P);
        let one_more = Shape { logical: L + 1, ..SHAPE };
        let scanned = |image: &mut Image| expect(Some(4), image, one_more, NUMBER);
        let one_less = Shape { logs: card.live.saturating_sub(1), ..SHAPE };
        let judged = |image: &mut Image| expect(Some(5), image, one_less, NUMBER);
        let done = |image: &mut Image| expect(None, image, SHAPE, NUMBER);
        if one_less.logs > 0 {
            let deeds: [Deed; 4] = [&called, &scanned, &judged, &done];
            let [called, scanned, judged, done] = measure::in_turn(&card.image, deeds);
            Reads { called, scanned, judged: Some(judged), done }
        } else {
            let deeds: [Deed; 3] = [&called, &scanned, &done];
            let [called, scanned, done] = measure::in_turn(&card.image, deeds);
            Reads { called, scanned, judged: None, done }
        }
    }

    /// What each part takes; none where two parts are not told apart.
    fn parts(&self) -> [Option<f64>; 4] {
        let from = |start: f64, end: f64| (end - start).max(0.0);
        [
            Some(self.called),
            Some(from(self.called, self.scanned)),
            self.judged.map(|judged| from(self.scanned, judged)),
            self.judged.map(|judged| from(judged, self.done)),
        ]
    }
}

/// Reads a page and sees to it that this is refused, or not, as expected.
fn expect(refusal: Option<u8>, image: &Image, shape: Shape, number: usize) {
    let mut page = [7; DATA_BYTES];
    let card = Card::new(&image.data, &image.spare, black_box(shape));
    let answer = card.read_into(black_box(number), &mut page);
    assert_eq!(answer.err().map(Refusal::number), refusal);
}
