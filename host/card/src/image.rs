//! An image in memory, and as a raw dump.

use hamutsigra::{Card, Shape, DATA_BYTES, SPARE_BYTES};

/// A page in a raw dump: its data bytes, then its spare bytes.
pub const DUMP_BYTES: usize = DATA_BYTES + SPARE_BYTES;

/// The data image and the spare image of a chip.
#[derive(Clone, Debug, PartialEq, Eq)]
pub struct Image {
    pub data: Vec<u8>,
    pub spare: Vec<u8>,
    /// Whether they are kept in two files, which may be of two moments.
    pub two_files: bool,
}

impl Image {
    /// This many pages, erased.
    pub fn erased(pages: usize) -> Image {
        Image {
            data: vec![255; pages * DATA_BYTES],
            spare: vec![255; pages * SPARE_BYTES],
            two_files: false,
        }
    }

    /// The card of this shape, to look at it.
    pub fn card(&self, shape: Shape) -> Card<&[u8]> {
        Card::new(&self.data, &self.spare, shape)
    }

    /// The card of this shape, to change it.
    pub fn card_mut(&mut self, shape: Shape) -> Card<&mut [u8]> {
        Card::new(&mut self.data, &mut self.spare, shape)
    }

    /// The image in a dump of whole pages.
    pub fn from_dump(dump: &[u8]) -> Image {
        let mut image = Image::erased(0);
        for page in dump.chunks_exact(DUMP_BYTES) {
            let (data, spare) = page.split_at(DATA_BYTES);
            image.data.extend_from_slice(data);
            image.spare.extend_from_slice(spare);
        }
        image
    }

    /// The dump of the image.
    pub fn to_dump(&self) -> Vec<u8> {
        let pages = self.data.chunks(DATA_BYTES).zip(self.spare.chunks(SPARE_BYTES));
        pages.flat_map(|(data, spare)| [data, spare].concat()).collect()
    }
}

#[cfg(test)]
mod tests {
    use super::*;

    #[test]
    fn a_dump_has_data_then_spare_of_each_page() {
        let dump: Vec<u8> = [[1; 512].as_slice(), &[2; 16], &[3; 512], &[4; 16]].concat();
        let image = Image::from_dump(&dump);
        assert_eq!(image.data, [[1; 512], [3; 512]].concat());
        assert_eq!(image.spare, [[2; 16], [4; 16]].concat());
        assert_eq!(image.to_dump(), dump);
    }
}
