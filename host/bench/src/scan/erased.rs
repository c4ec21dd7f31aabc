//! The erased test of a page, in two ways.

use crate::card::{DATA_BYTES, SPARE_BYTES};

/// The bytes that are looked at together.
const AT_A_TIME: usize = 64;

/// By the plain loop: byte by byte up to the first that is not 255, spare bytes first.
pub fn plain(data: &[u8; DATA_BYTES], spare: &[u8; SPARE_BYTES]) -> bool {
    spare.iter().all(|byte| *byte == 255) && data.iter().all(|byte| *byte == 255)
}

/// By words: the spare bytes as one, the data bytes up to the first 64 of which one is
/// not 255.
pub fn quick(data: &[u8; DATA_BYTES], spare: &[u8; SPARE_BYTES]) -> bool {
    let (parts, _) = data.as_chunks::<AT_A_TIME>();
    u128::from_le_bytes(*spare) == u128::MAX && parts.iter().all(all_255)
}

fn all_255(part: &[u8; AT_A_TIME]) -> bool {
    let (words, _) = part.as_chunks();
    words.iter().fold(u64::MAX, |all, word| all & u64::from_le_bytes(*word)) == u64::MAX
}
