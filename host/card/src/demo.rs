//! The worked card of document 01, cases 1 to 8, on a new image file. All that is
//! said of the layer has been held to the document before.

use crate::commands;
use crate::failure::Failure;
use crate::image::Image;
use crate::inspect;
use crate::map;
use crate::paint::Paint;
use crate::store::Store;
use crate::stream::say;
use crate::words::count;
use hamutsigra::{Answer, Refusal, Shape, Steps, TableEntry, DATA_BYTES, SPARE_BYTES};
use std::fmt::Debug;

/// P 4, L 2, K 1; B is 4, all blocks good.
const SHAPE: Shape = Shape { pages: 4, logical: 2, logs: 1 };
const BLOCKS: usize = 4;

/// Runs the cases on an image that is not there yet.
pub fn run(store: &Store, paint: Paint) -> Result<(), Failure> {
    let demo = Demo { store, paint };
    demo.case_1()?;
    demo.case_2()?;
    demo.case_3()?;
    demo.case_4()?;
    let after_case_4 = store.load()?;
    demo.case_5()?;
    demo.case_6(&after_case_4)?;
    demo.case_7()?;
    demo.case_8()?;
    say("\nThe card did in all cases what document 01 says.\n")
}

struct Demo<'a> {
    store: &'a Store,
    paint: Paint,
}

impl Demo<'_> {
    fn case_1(&self) -> Result<(), Failure> {
        commands::new(self.store, SHAPE.pages, BLOCKS, &[])?;
        title("Case 1. Format of 4 free blocks: no steps, answer 0. Page 3 reads 255.")?;
        let steps = commands::format(self.store, SHAPE, None)?;
        expect("format", steps, done(0, 0))?;
        let image = self.store.load()?;
        expect("page 3", content(&image, 3), Ok(255))?;
        self.show(&format!("format: {}", count(steps)), &image)
    }

    fn case_2(&self) -> Result<(), Failure> {
        title("Case 2. Write page 1: page 0 of block 0 gets spare 1 0 0 0 240 255 1 0.")?;
        self.write(1, 10, done(1, 0), (0, 0))?;
        let mut spare = [255; SPARE_BYTES];
        spare[..8].copy_from_slice(&[1, 0, 0, 0, 240, 255, 1, 0]);
        expect("spare bytes", &self.store.load()?.spare[..SPARE_BYTES], &spare)
    }

    fn case_3(&self) -> Result<(), Failure> {
        title("Case 3. Then writes of 0, 1, 2 fill block 0. Page 1 is the third write.")?;
        self.write(0, 11, done(1, 0), (0, 1))?;
        self.write(1, 12, done(1, 0), (0, 2))?;
        self.write(2, 13, done(1, 0), (0, 3))?;
        self.expect_contents(&[11, 12, 13, 255])
    }

    fn case_4(&self) -> Result<(), Failure> {
        title("Case 4. Write page 3: the full log block is merged into block 1 first.")?;
        self.write(3, 14, done(5, 1), (0, 0))?;
        self.expect_contents(&[11, 12, 13, 14])
    }

    fn case_5(&self) -> Result<(), Failure> {
        title("Case 5. Write page 4: the only log block is merged into block 2 first.")?;
        self.write(4, 15, done(5, 2), (0, 0))?;
        self.expect_contents(&[11, 12, 13, 14, 15])
    }

    fn case_6(&self, after_case_4: &Image) -> Result<(), Failure> {
        title("Case 6. Case 5 on copies, with the card pulled out after each step.")?;
        let erased_by_power_up: [&[usize]; 7] = [&[], &[2], &[2], &[2], &[0, 1], &[1], &[]];
        for (cut, erased) in erased_by_power_up.into_iter().enumerate() {
            self.pull_out(after_case_4, cut, erased)?;
        }
        let mut copy = after_case_4.clone();
        expect("cut at 7", write_on(&mut copy, 4, 15, 7), Ok(done(5, 2)))?;
        expect("image cut at 7", copy, self.store.load()?)?;
        say("\nwrite 4, cut at 7: answer 0\n")
    }

    fn case_7(&self) -> Result<(), Failure> {
        title("Case 7. Writes of 5, 6, 7 complete block 0: no erase, a new data block.")?;
        self.expect_table([(Some(2), None), (None, Some(0))])?;
        self.write(5, 16, done(1, 0), (0, 1))?;
        self.write(6, 17, done(1, 0), (0, 2))?;
        self.write(7, 18, done(1, 0), (0, 3))?;
        self.expect_table([(Some(2), None), (Some(0), None)])
    }

    fn case_8(&self) -> Result<(), Failure> {
        title("Case 8. Then 4, 5, 6, 7 again go to block 1; the last erases block 0.")?;
        self.write(4, 20, done(1, 0), (1, 0))?;
        self.write(5, 21, done(1, 0), (1, 1))?;
        self.write(6, 22, done(1, 0), (1, 2))?;
        self.write(7, 23, done(1, 1), (1, 3))?;
        self.expect_contents(&[11, 12, 13, 14, 20, 21, 22, 23])
    }

    /// Writes a page filled with one byte: so many steps, to this block and page.
    fn write(
        &self,
        number: usize,
        fill: u8,
        steps: Steps,
        (block, page): (usize, usize),
    ) -> Result<(), Failure> {
        let what = format!("write {number}");
        let bytes = [fill; DATA_BYTES];
        expect(&what, commands::write(self.store, number, &bytes, SHAPE, None)?.0, steps)?;
        let at = commands::lend(self.store, number, SHAPE)?;
        expect(&what, at, Some((block * SHAPE.pages + page) * DATA_BYTES))?;
        let said = format!("{what}: {}; it is in block {block}, page {page}", count(steps));
        self.show(&said, &self.store.load()?)
    }

    /// Case 5 on a copy, pulled out after `cut` steps and powered up, which erases
    /// these blocks.
    fn pull_out(&self, image: &Image, cut: usize, erased: &[usize]) -> Result<(), Failure> {
        let what = format!("write 4, cut at {cut}");
        let mut copy = image.clone();
        let steps = done(cut.min(4) as u32, cut.saturating_sub(4) as u32);
        expect(&what, write_on(&mut copy, 4, 15, cut), Err(Refusal::Cut(steps)))?;
        expect(&what, copy == *image, cut == 0)?;
        self.show(&format!("{what}: answer 8, {}", count(steps)), &copy)?;

        let mut recovered = copy.clone();
        let mut table = [TableEntry::default(); SHAPE.logical];
        let answer = recovered.card_mut(SHAPE).power_up(&mut table, None);
        expect(&what, answer, Ok(done(0, erased.len() as u32)))?;
        expect(&what, &changed_blocks(&copy, &recovered)[..], erased)?;
        expect(&what, content(&recovered, 4), Ok(255))?;
        say(&match erased {
            [] => "  power-up: nothing to erase; page 4 reads 255\n".to_string(),
            blocks => format!("  power-up: erases {blocks:?}; page 4 reads 255\n"),
        })
    }

    /// The first pages, each filled with one byte.
    fn expect_contents(&self, fills: &[u8]) -> Result<(), Failure> {
        let image = self.store.load()?;
        for (number, fill) in fills.iter().enumerate() {
            expect(&format!("page {number}"), content(&image, number), Ok(*fill))?;
        }
        Ok(())
    }

    /// The table of power-up, where there is nothing to erase.
    fn expect_table(&self, expected: [(Option<usize>, Option<usize>); 2]) -> Result<(), Failure> {
        let (steps, table) = commands::power_up(self.store, SHAPE, None)?;
        expect("power-up", steps, done(0, 0))?;
        let table: Vec<_> = table.iter().map(|of| (of.data_block(), of.log_block())).collect();
        expect("table of power-up", &table[..], &expected)?;
        // 65,535 for none, as document 01 has it.
        let number = |block: Option<usize>| block.unwrap_or(65_535).to_string();
        let numbers = table.into_iter().flat_map(|(data, log)| [number(data), number(log)]);
        let numbers: Vec<String> = numbers.collect();
        say(&format!("\npower-up: nothing to erase; table {}\n", numbers.join(", ")))
    }

    fn show(&self, what: &str, image: &Image) -> Result<(), Failure> {
        let card = inspect::card(image, SHAPE);
        let map = card.map_or(String::new(), |card| map::draw(&card, self.paint));
        say(&format!("\n{what}\n{map}"))
    }
}

fn title(text: &str) -> Result<(), Failure> {
    say(&format!("\n{text}\n{}\n", "=".repeat(text.len())))
}

fn done(programs: u32, erases: u32) -> Steps {
    Steps { programs, erases }
}

/// Holds what the layer did to what the document says.
fn expect<T: PartialEq + Debug>(what: &str, is: T, should_be: T) -> Result<(), Failure> {
    if is == should_be {
        return Ok(());
    }
    Err(Failure::Surprise(format!("{what}: {is:?}, where document 01 has {should_be:?}")))
}

fn write_on(image: &mut Image, number: usize, fill: u8, cut: usize) -> Answer {
    image.card_mut(SHAPE).write(number, &[fill; DATA_BYTES], Some(cut))
}

/// The byte with which a page is filled; 0, which is never written here, if it is
/// not filled with one byte.
fn content(image: &Image, number: usize) -> Result<u8, Refusal> {
    let page = image.card(SHAPE).read(number)?;
    let filled = page.iter().all(|byte| *byte == page[0]);
    Ok(if filled { page[0] } else { 0 })
}

/// The blocks in which two images differ.
fn changed_blocks(one: &Image, other: &Image) -> Vec<usize> {
    let differs = |block: &usize| {
        let pages = block * SHAPE.pages..(block + 1) * SHAPE.pages;
        let data = pages.start * DATA_BYTES..pages.end * DATA_BYTES;
        let spare = pages.start * SPARE_BYTES..pages.end * SPARE_BYTES;
        one.data[data.clone()] != other.data[data] || one.spare[spare.clone()] != other.spare[spare]
    };
    (0..BLOCKS).filter(differs).collect()
}
