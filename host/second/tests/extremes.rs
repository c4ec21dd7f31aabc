//! Numbers at the ends of their types, and images of any length: an answer,
//! never a panic.

mod common;

use common::{refused, small_card, Chip, NO_CUT};
use second::Shape;

/// 2^55 as P makes P x 512 a 0 in 64 bits, and 2^63 as L makes 2 x L one.
const EXTREMES: [usize; 11] =
    [0, 1, 2, 4, 1 << 31, 1 << 32, 1 << 55, 1 << 62, 1 << 63, usize::MAX - 1, usize::MAX];

#[test]
fn huge_l_has_no_table_and_too_few_blocks() {
    for logical in [1 << 62, 1 << 63, usize::MAX] {
        let Chip { mut data, mut spare, shape } = small_card();
        let shape = Shape { logical, ..shape };
        // 2 x 2^63 must not be taken for 0.
        for entries in [0, 4] {
            let mut table = vec![7; entries];
            let answer = second::power_up(&mut data, &mut spare, &mut table, shape, NO_CUT);
            assert_eq!(answer, refused(2));
        }
        assert_eq!(second::read(&data, &spare, &mut [7; 512], shape, usize::MAX), refused(4));
        assert_eq!(second::write(&mut data, &mut spare, &[7; 512], shape, 0, 0), refused(4));
        assert_eq!(second::format(&mut data, &mut spare, shape, 0), refused(4));
        assert_eq!(second::lend(&data, &spare, shape, 0), None);
        // The last logical block: its pages are beyond 2^64, but it is below L.
        for (number, answer) in [(0, 4), (logical - 1, 4), (logical, 3), (usize::MAX, 3)] {
            let block = [7; 2048];
            let given = second::block_write(&mut data, &mut spare, &block, shape, number, 0);
            assert_eq!(given, refused(answer));
        }
    }
}

#[test]
fn huge_k_leaves_too_few_blocks() {
    let mut chip = small_card();
    for logs in [2, 1 << 63, usize::MAX] {
        // L + K + 1 must not be taken for 2 where K is 2^64 - 1.
        chip.shape.logs = logs;
        assert_eq!(chip.answers(), [4; 5]);
    }
}

#[test]
fn p_whose_block_is_no_number_of_bytes() {
    let Chip { mut data, mut spare, shape } = small_card();
    // In 64 bits P x 512 is the length given, but for the last; P is refused before that
    // is asked.
    for (pages, bytes) in [(0, 0), (1 << 55, 0), ((1 << 55) + 4, 2048), (usize::MAX, 0)] {
        let shape = Shape { pages, ..shape };
        for number in EXTREMES {
            let block = vec![7; bytes];
            let given = second::block_write(&mut data, &mut spare, &block, shape, number, 0);
            assert_eq!(given, refused(1));
        }
    }
}

#[test]
fn every_combination_of_extremes_has_an_answer() {
    let Chip { mut data, mut spare, .. } = small_card();
    let blocks_written = [0, 512, 1024, 2048].map(|bytes| vec![7; bytes]);
    for pages in EXTREMES {
        // The image of the small card is also one of 8 blocks of 2 pages.
        let blocks = [(2, 8), (4, 4)].into_iter().find(|(p, _)| *p == pages).map_or(0, |(_, b)| b);
        for logical in EXTREMES {
            for logs in EXTREMES {
                let shape = Shape { pages, logical, logs };
                let is_card = logical > 0 && logs > 0 && logical.saturating_add(logs) < blocks;
                for number in EXTREMES {
                    // Cut at 0, so that the image stays as it is.
                    let answer = second::write(&mut data, &mut spare, &[7; 512], shape, number, 0);
                    assert_eq!(answer.number == 8, is_card && number / pages < logical);
                    assert_eq!(second::lend(&data, &spare, shape, number), None);
                    for block in &blocks_written {
                        let answer =
                            second::block_write(&mut data, &mut spare, block, shape, number, 0);
                        let fits = pages.checked_mul(512) == Some(block.len());
                        assert_eq!(answer.number == 8, is_card && fits && number < logical);
                    }
                }
            }
        }
    }
}

#[test]
fn images_of_any_length_have_an_answer() {
    let shape = small_card().shape;
    for data_bytes in [0, 1, 511, 512, 513, 2048, 6144, 8191, 8192, 8193] {
        for spare_bytes in [0, 1, 15, 16, 17, 64, 192, 255, 256, 257] {
            let (mut data, mut spare) = (vec![255; data_bytes], vec![255; spare_bytes]);
            // Three blocks and four; on three there are too few for L 2 and K 1.
            let expected = match (data_bytes, spare_bytes) {
                (6144, 192) => 4,
                (8192, 256) => 0,
                _ => 1,
            };
            assert_eq!(second::format(&mut data, &mut spare, shape, 0).number, expected);
        }
    }
}

#[test]
fn any_byte_value_has_an_answer() {
    for byte in 0..=254 {
        let mut chip = small_card();
        chip.data.fill(byte);
        chip.spare.fill(byte);
        // Byte 5 is not 255 anywhere: all blocks are bad.
        assert_eq!(chip.answers(), [4; 5]);
    }
}
