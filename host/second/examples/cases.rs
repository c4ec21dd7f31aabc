//! Cases 1 to 11 of document 01 by the second program, one line for each command, to
//! be held against the lines of another program that runs them.
//!
//! A line starts with a word of six letters: the case (two), `f` format, `p` power-up,
//! `r` read or `w` write, the page, the letter that the written page is filled with (or
//! a dash for a read into 511 bytes), and the cut number. It goes on with the answer,
//! its programs and erases, what power-up or read gave (the table; the sum of the page),
//! and the sums of the image (data bytes, spare bytes). A sum is of each byte times its
//! place, from 1 on.

use second::spare::{Kind, Spare};
use second::{Answer, Shape};

/// A cut number that no list reaches.
const NO_CUT: usize = usize::MAX;

fn main() {
    cases_1_to_9();
    case_10();
    case_11();
}

#[derive(Clone)]
struct Chip {
    data: Vec<u8>,
    spare: Vec<u8>,
    shape: Shape,
}

impl Chip {
    /// P 4, L 2, all blocks free.
    fn new(blocks: usize, logs: usize) -> Chip {
        let shape = Shape { pages: 4, logical: 2, logs };
        Chip { data: vec![255; blocks * 4 * 512], spare: vec![255; blocks * 4 * 16], shape }
    }

    /// The same with a log block of logical block 0 that has one page, of 255s.
    fn with_log(blocks: usize, logs: usize, number: u32) -> Chip {
        let mut chip = Chip::new(blocks, logs);
        let spare = Spare { number, kind: Kind::Log, logical_page: 0 };
        chip.spare[..16].copy_from_slice(&spare.to_bytes());
        chip
    }

    fn format(&mut self, case: u32) {
        let answer = second::format(&mut self.data, &mut self.spare, self.shape, NO_CUT);
        self.say(&format!("{case:2}f"), answer, "");
    }

    fn power_up(&mut self, case: u32) {
        let mut table = [0; 4];
        let answer =
            second::power_up(&mut self.data, &mut self.spare, &mut table, self.shape, NO_CUT);
        let [d0, l0, d1, l1] = table;
        self.say(&format!("{case:2}p"), answer, &format!(" {d0} {l0} {d1} {l1}"));
    }

    /// Writes a page filled with one letter.
    fn write(&mut self, case: u32, number: usize, fill: char, cut: usize) {
        let page = [fill as u8; 512];
        let (data, spare) = (&mut self.data, &mut self.spare);
        let answer = second::write(data, spare, &page, self.shape, number, cut);
        let cut = if cut == NO_CUT { String::new() } else { cut.to_string() };
        self.say(&format!("{case:2}w{number}{fill}{cut}"), answer, "");
    }

    /// Reads into a buffer of this many bytes, all 0.
    fn read(&self, case: u32, number: usize, bytes: usize) {
        let mut page = vec![0; bytes];
        let answer = second::read(&self.data, &self.spare, &mut page, self.shape, number);
        let dash = if bytes == 511 { "-" } else { "" };
        self.say(&format!("{case:2}r{number}{dash}"), answer, &format!(" {}", sum(&page)));
    }

    fn say(&self, word: &str, answer: Answer, given: &str) {
        let Answer { number, programs, erases } = answer;
        let (data, spare) = (sum(&self.data), sum(&self.spare));
        println!("{word:6} {number} {programs} {erases}{given} {data} {spare}");
    }
}

fn sum(bytes: &[u8]) -> u64 {
    (1..).zip(bytes).map(|(place, byte)| place * u64::from(*byte)).sum()
}

/// On one card. Case 6 starts, as case 5 does, from the card of case 4.
fn cases_1_to_9() {
    let mut chip = Chip::new(4, 1);
    chip.format(1);
    chip.read(1, 3, 512);
    chip.write(2, 1, 'a', NO_CUT);
    for (number, fill) in [(0, 'b'), (1, 'c'), (2, 'd')] {
        chip.write(3, number, fill, NO_CUT);
    }
    chip.read(3, 1, 512);
    chip.write(4, 3, 'e', NO_CUT);
    for cut in 0..=7 {
        let mut copy = chip.clone();
        copy.write(6, 4, 'f', cut);
        copy.power_up(6);
        copy.read(6, 4, 512);
    }
    chip.write(5, 4, 'f', NO_CUT);
    chip.power_up(7);
    for (number, fill) in [(5, 'g'), (6, 'h'), (7, 'i')] {
        chip.write(7, number, fill, NO_CUT);
    }
    chip.power_up(7);
    for (number, fill) in [(4, 'j'), (5, 'k'), (6, 'l'), (7, 'm')] {
        chip.write(8, number, fill, NO_CUT);
    }
    chip.read(9, 7, 512);
    chip.read(9, 8, 512);
    chip.read(9, 8, 511);
}

/// Page 4 is written first: where that is refused, nothing has changed.
fn case_10() {
    for (blocks, logs, number) in
        [(4, 1, 4_294_967_294), (4, 1, 4_294_967_293), (5, 2, 4_294_967_293)]
    {
        let mut chip = Chip::with_log(blocks, logs, number);
        chip.write(10, 4, 'n', NO_CUT);
        chip.write(10, 0, 'o', NO_CUT);
    }
}

fn case_11() {
    for blocks in [64, 65, 0] {
        Chip::new(blocks, 1).format(11);
    }
    let mut one_bad = Chip::new(4, 1);
    one_bad.spare[5] = 0;
    one_bad.format(11);
}
