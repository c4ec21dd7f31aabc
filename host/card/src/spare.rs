//! Spare bytes in words: what stands where, and what is wrong with it.

use hamutsigra::SPARE_BYTES;
use second::spare::{Kind, Spare, HIGHEST_NUMBER, STATUS};

/// What is wrong in a place of the spare bytes.
#[derive(Clone, Debug, PartialEq, Eq)]
pub struct Wrong {
    /// The first byte of the place.
    pub byte: usize,
    pub what: String,
}

/// The parts of the table: the first byte, the last, and what it is.
pub const PARTS: [(usize, usize, &str); 5] = [
    (0, 3, "sequence number"),
    (4, 4, "kind"),
    (STATUS, STATUS, "block status"),
    (6, 7, "logical page"),
    (8, 15, "not used"),
];

/// The sequence number as it stands there.
pub fn number(spare: &[u8; SPARE_BYTES]) -> u32 {
    u32::from_le_bytes([spare[0], spare[1], spare[2], spare[3]])
}

/// The logical page as it stands there.
pub fn logical_page(spare: &[u8; SPARE_BYTES]) -> u16 {
    u16::from_le_bytes([spare[6], spare[7]])
}

/// The first thing that is not as in the table of a programmed page; none for what
/// can be read as an entry.
pub fn wrong(spare: &[u8; SPARE_BYTES]) -> Option<Wrong> {
    if Spare::from_bytes(spare).is_some() {
        return None;
    }
    let number = number(spare);
    let (byte, what) = if *spare == [255; SPARE_BYTES] {
        (0, "all spare bytes are 255, and the data are not".to_string())
    } else if !(1..=HIGHEST_NUMBER).contains(&number) {
        (0, format!("the sequence number is {number}, and can be 1 to {HIGHEST_NUMBER}"))
    } else if ![240, 15].contains(&spare[4]) {
        (4, format!("{}, neither 240 (log) nor 15 (copy)", spare[4]))
    } else {
        let rest = |byte: &usize| spare[*byte] != 255;
        let byte = [STATUS].into_iter().chain(8..SPARE_BYTES).find(rest).unwrap_or(STATUS);
        (byte, format!("{}, not 255", spare[byte]))
    };
    Some(Wrong { byte, what })
}

pub fn kind_name(kind: Kind) -> &'static str {
    match kind {
        Kind::Log => "log",
        Kind::Copy => "copy",
    }
}

#[cfg(test)]
mod tests {
    use super::*;

    #[test]
    fn each_wrong_byte_is_named() {
        let good = Spare { number: 7, kind: Kind::Log, logical_page: 3 }.to_bytes();
        assert_eq!(wrong(&good), None);
        for byte in [4, 5, 8, 15] {
            let mut spare = good;
            spare[byte] = 99;
            let wrong = wrong(&spare).expect("it is wrong");
            assert_eq!(wrong.byte, byte);
            assert!(wrong.what.starts_with("99, "), "{}", wrong.what);
        }
        let mut spare = good;
        spare[..4].fill(0);
        assert!(wrong(&spare).expect("no number").what.contains("is 0, and can be 1 to"));
        assert!(wrong(&[255; 16]).expect("no entry").what.starts_with("all spare bytes"));
    }
}
