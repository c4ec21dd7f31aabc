//! A hundred thousand random calls of the methods: none panics, and each answers as
//! the functions below it.

use hamutsigra::{raw, Answer, Card, Refusal, Shape, Steps, TableEntry};

/// The generator of the comparison.
#[allow(dead_code)]
#[path = "../../compare/src/random.rs"]
mod random;

use random::Random;

impl Random {
    /// Mostly of the small card, else anything.
    fn shape(&mut self) -> Shape {
        let mut number = |usual: usize| match self.below(30) {
            0 => self.one_of(&[0, 1, 2, 3, 5, 32, 33, 1 << 63, usize::MAX]),
            _ => usual,
        };
        Shape { pages: number(3), logical: number(2), logs: number(1) }
    }

    /// A blank chip of 4 blocks of 3 pages, now and then cut short or spoilt.
    fn chip(&mut self) -> (Vec<u8>, Vec<u8>) {
        let (mut data, mut spare) = (vec![255; 12 * 512], vec![255; 12 * 16]);
        match self.below(6) {
            0 => data.truncate(self.below(12 * 512)),
            1 => spare.truncate(self.below(12 * 16)),
            2 => (0..4).for_each(|_| spare[self.below(12 * 16)] = self.one_of(&[0, 1, 15, 240])),
            _ => (),
        }
        (data, spare)
    }
}

/// The same chip twice: one for the methods, one for the functions below them.
struct Twice {
    data: [Vec<u8>; 2],
    spare: [Vec<u8>; 2],
}

impl Twice {
    fn new((data, spare): (Vec<u8>, Vec<u8>)) -> Twice {
        Twice { data: [data.clone(), data], spare: [spare.clone(), spare] }
    }

    /// Does a command both ways, and gives what both answer.
    fn call(&mut self, random: &mut Random) -> Answer {
        let shape = random.shape();
        let number = random.one_of(&[0, 1, 2, 3, 4, 5, 5, 6, usize::MAX]);
        let cut = random.one_of(&[None, None, None, Some(0), Some(1), Some(3)]);
        let page = [random.byte(); 512];
        let [data, below] = &mut self.data;
        let [spare, below_spare] = &mut self.spare;
        let mut card = Card::new(&mut data[..], &mut spare[..], shape);
        let no_cut = cut.unwrap_or(raw::NO_CUT);
        let (answer, expected) = match random.below(12) {
            0 => (card.format(cut), raw::format(below, below_spare, shape, no_cut)),
            1..3 => {
                let mut table = vec![TableEntry::default(); random.one_of(&[2, 2, 2, 0, 1, 3])];
                let mut numbers = vec![raw::NO_BLOCK; 2 * table.len()];
                let answer = card.power_up(&mut table, cut);
                let expected = raw::power_up(below, below_spare, &mut numbers, shape, no_cut);
                assert_eq!(numbers_of(&table), numbers);
                (answer, expected)
            }
            3..5 => {
                let mut page = [1; 512];
                let read = card.read(number);
                let expected = raw::read(below, below_spare, &mut page, shape, number);
                assert_eq!(read, expected.map(|_| page));
                let lent = card.lend(number).map(|lent| (lent.at, &lent.bytes[..]));
                let expected_lent = raw::lend(below, below_spare, shape, number);
                assert_eq!(lent, expected_lent.map(|lent| (lent.at, lent.bytes)));
                (read.map(|_| Steps::default()), expected)
            }
            5..7 => {
                let bytes = random.one_of(&[1536, 1536, 1536, 1536, 0, 512, 1535, 1537]);
                let block = vec![random.byte(); bytes];
                let answer = card.block_write(number, &block, cut);
                (answer, raw::block_write(below, below_spare, &block, shape, number, no_cut))
            }
            _ => {
                let answer = card.write(number, &page, cut);
                (answer, raw::write(below, below_spare, &page, shape, number, no_cut))
            }
        };
        assert_eq!(answer, expected);
        assert!(self.data[0] == self.data[1] && self.spare[0] == self.spare[1]);
        answer
    }
}

/// A table as the functions below fill it.
fn numbers_of(table: &[TableEntry]) -> Vec<u16> {
    let number = |block: Option<usize>| block.map_or(raw::NO_BLOCK, |block| block as u16);
    table.iter().flat_map(|of| [number(of.data_block()), number(of.log_block())]).collect()
}

#[test]
fn random_calls_do_not_panic() {
    let mut random = Random::new(7);
    let mut answers = [0; 9];
    let mut chip = Twice::new(random.chip());
    for call in 0..100_000 {
        if call % 50 == 0 {
            chip = Twice::new(random.chip());
        }
        let answer = chip.call(&mut random);
        answers[usize::from(answer.map_or_else(Refusal::number, |_| 0))] += 1;
    }
    for number in [0, 1, 2, 3, 4, 5, 6, 8] {
        assert!(answers[number] > 0, "no answer {number}: {answers:?}");
    }
}
