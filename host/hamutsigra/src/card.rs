//! A card: the bytes of a chip, owned or lent, and its shape.

use crate::raw::{self, NO_CUT};
use crate::{Answer, Refusal, Shape, TableEntry, DATA_BYTES};

/// A chip and its shape, with the commands of the layer.
///
/// The data image has B x P x 512 bytes and the spare image B x P x 16, pages end to
/// end. They are owned (`Vec<u8>`, `[u8; N]`) or lent (`&mut [u8]`; `&[u8]` to look at
/// a card only):
///
/// ```
/// # use hamutsigra::{Card, Refusal, Shape};
/// # let shape = Shape { pages: 4, logical: 2, logs: 1 };
/// let (mut data, mut spare) = ([255; 4 * 4 * 512], [255; 4 * 4 * 16]);
/// Card::new(&mut data[..], &mut spare[..], shape).write(0, &[7; 512], None)?;
/// assert_eq!(Card::new(&data, &spare, shape).read(0)?, [7; 512]);
/// # Ok::<(), Refusal>(())
/// ```
///
/// Commands that change the card take a cut number: the steps after which the card is
/// pulled out, `None` for never.
#[derive(Clone, Copy, Debug, PartialEq, Eq, Hash)]
pub struct Card<D, S = D> {
    data: D,
    spare: S,
    shape: Shape,
}

/// A page lent back: a part of the data image.
#[derive(Clone, Copy, Debug, PartialEq, Eq, Hash)]
pub struct Lent<'a> {
    /// The byte of the data image at which the page starts.
    pub at: usize,
    /// Its bytes.
    pub bytes: &'a [u8; DATA_BYTES],
}

impl<D, S> Card<D, S> {
    /// A card of these bytes. Nothing is tested here: every command does.
    #[must_use]
    pub const fn new(data: D, spare: S, shape: Shape) -> Card<D, S> {
        Card { data, spare, shape }
    }

    /// The shape.
    #[must_use]
    pub const fn shape(&self) -> Shape {
        self.shape
    }

    /// The same chip under another shape. Nothing is promised between commands of
    /// different shape.
    #[must_use]
    pub fn with_shape(self, shape: Shape) -> Card<D, S> {
        Card { shape, ..self }
    }

    /// The data image and the spare image.
    #[must_use]
    pub fn into_parts(self) -> (D, S) {
        (self.data, self.spare)
    }
}

impl<D: AsRef<[u8]>, S: AsRef<[u8]>> Card<D, S> {
    /// The data image.
    #[must_use]
    pub fn data(&self) -> &[u8] {
        self.data.as_ref()
    }

    /// The spare image.
    #[must_use]
    pub fn spare(&self) -> &[u8] {
        self.spare.as_ref()
    }

    /// The same card, lent to look at it.
    #[must_use]
    pub fn lent(&self) -> Card<&[u8]> {
        Card::new(self.data(), self.spare(), self.shape)
    }

    /// The content of logical page `number`: bytes of 255 where it was never written.
    ///
    /// It needs no power-up before it: obsolete blocks have no part in the content.
    ///
    /// # Errors
    ///
    /// 1 [`OutsideLimits`](Refusal::OutsideLimits), 3 [`OutOfRange`](Refusal::OutOfRange),
    /// 4 [`TooFewBlocks`](Refusal::TooFewBlocks), 5 [`IllFormed`](Refusal::IllFormed).
    pub fn read(&self, number: usize) -> Result<[u8; DATA_BYTES], Refusal> {
        let mut page = [0; DATA_BYTES];
        self.read_into(number, &mut page)?;
        Ok(page)
    }

    /// Puts the content of logical page `number` into `page`, which a refusal leaves as
    /// it was.
    ///
    /// # Errors
    ///
    /// Those of [`read`](Card::read).
    pub fn read_into(&self, number: usize, page: &mut [u8; DATA_BYTES]) -> Result<(), Refusal> {
        raw::read(self.data(), self.spare(), page, self.shape, number).map(|_| ())
    }

    /// Lends back the bytes of the image that are the content of logical page `number`.
    ///
    /// None when [`read`](Card::read) would refuse, or when no flash page holds the
    /// content, which is then 512 bytes of 255.
    #[must_use]
    pub fn lend(&self, number: usize) -> Option<Lent<'_>> {
        let lent = raw::lend(self.data(), self.spare(), self.shape, number)?;
        // The library lends whole pages.
        Some(Lent { at: lent.at, bytes: lent.bytes.try_into().ok()? })
    }
}

impl<D: AsMut<[u8]>, S: AsMut<[u8]>> Card<D, S> {
    /// Makes an empty card: erases each good block that is not free, whatever is in it.
    ///
    /// # Errors
    ///
    /// 1 [`OutsideLimits`](Refusal::OutsideLimits), 4
    /// [`TooFewBlocks`](Refusal::TooFewBlocks), 8 [`Cut`](Refusal::Cut): after it,
    /// format again.
    pub fn format(&mut self, cut: Option<usize>) -> Answer {
        let (data, spare) = (self.data.as_mut(), self.spare.as_mut());
        raw::format(data, spare, self.shape, cut.unwrap_or(NO_CUT))
    }

    /// Erases each obsolete block. Run it whenever the card gets power, before the
    /// first write. The table has an entry for each logical block; a refusal leaves it
    /// as it was.
    ///
    /// ```
    /// # use hamutsigra::{Card, Refusal, Shape, TableEntry};
    /// # let shape = Shape { pages: 4, logical: 2, logs: 1 };
    /// # let mut card = Card::new(vec![255; 4 * 4 * 512], vec![255; 4 * 4 * 16], shape);
    /// # card.write(5, &[7; 512], None)?;
    /// let mut table = [TableEntry::default(); 2];
    /// card.power_up(&mut table, None)?;
    /// assert_eq!((table[1].data_block(), table[1].log_block()), (None, Some(0)));
    /// # Ok::<(), Refusal>(())
    /// ```
    ///
    /// # Errors
    ///
    /// 1 [`OutsideLimits`](Refusal::OutsideLimits), 2
    /// [`WrongBuffer`](Refusal::WrongBuffer) if the table has not L entries, 4
    /// [`TooFewBlocks`](Refusal::TooFewBlocks), 5 [`IllFormed`](Refusal::IllFormed), 8
    /// [`Cut`](Refusal::Cut): after it, run it again.
    pub fn power_up(&mut self, table: &mut [TableEntry], cut: Option<usize>) -> Answer {
        let (data, spare) = (self.data.as_mut(), self.spare.as_mut());
        let numbers = TableEntry::numbers(table);
        raw::power_up(data, spare, numbers, self.shape, cut.unwrap_or(NO_CUT))
    }

    /// Makes `page` the content of logical page `number`, with P + 1 programs and 2
    /// erases at most.
    ///
    /// # Errors
    ///
    /// 1 [`OutsideLimits`](Refusal::OutsideLimits), 3 [`OutOfRange`](Refusal::OutOfRange),
    /// 4 [`TooFewBlocks`](Refusal::TooFewBlocks), 5 [`IllFormed`](Refusal::IllFormed), 6
    /// [`NeedsPowerUp`](Refusal::NeedsPowerUp), 7
    /// [`OutOfNumbers`](Refusal::OutOfNumbers), 8 [`Cut`](Refusal::Cut): the write has
    /// happened exactly if the program of its own page was done.
    pub fn write(&mut self, number: usize, page: &[u8; DATA_BYTES], cut: Option<usize>) -> Answer {
        let (data, spare) = (self.data.as_mut(), self.spare.as_mut());
        raw::write(data, spare, page, self.shape, number, cut.unwrap_or(NO_CUT))
    }

    /// Makes the P x 512 bytes of `block` the content of logical block `number`, all or
    /// none, with P programs and 2 erases at most: its o-th page gets the o-th 512 bytes.
    ///
    /// ```
    /// # use hamutsigra::{Card, Refusal, Shape};
    /// # let shape = Shape { pages: 4, logical: 2, logs: 1 };
    /// # let mut card = Card::new(vec![255; 4 * 4 * 512], vec![255; 4 * 4 * 16], shape);
    /// let block = [[1; 512], [2; 512], [3; 512], [4; 512]];
    /// card.block_write(1, block.as_flattened(), None)?;
    /// assert_eq!(card.read(6)?, [3; 512]);
    /// # Ok::<(), Refusal>(())
    /// ```
    ///
    /// # Errors
    ///
    /// 1 [`OutsideLimits`](Refusal::OutsideLimits), 2
    /// [`WrongBuffer`](Refusal::WrongBuffer) if the block has not P x 512 bytes, 3
    /// [`OutOfRange`](Refusal::OutOfRange) if `number` is not below L, 4
    /// [`TooFewBlocks`](Refusal::TooFewBlocks), 5 [`IllFormed`](Refusal::IllFormed), 6
    /// [`NeedsPowerUp`](Refusal::NeedsPowerUp), 7
    /// [`OutOfNumbers`](Refusal::OutOfNumbers), 8 [`Cut`](Refusal::Cut): the block write
    /// has happened exactly if its programs are P.
    pub fn block_write(&mut self, number: usize, block: &[u8], cut: Option<usize>) -> Answer {
        let (data, spare) = (self.data.as_mut(), self.spare.as_mut());
        raw::block_write(data, spare, block, self.shape, number, cut.unwrap_or(NO_CUT))
    }
}
