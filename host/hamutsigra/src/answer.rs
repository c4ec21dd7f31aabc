//! What the card replies, taken out of the number that the library gives.

use core::error::Error;
use core::fmt;

/// What a command gives: the steps done if all were done (answer 0), else the
/// refusal.
pub type Answer = Result<Steps, Refusal>;

/// The steps that a command has done.
#[derive(Clone, Copy, Debug, Default, PartialEq, Eq, Hash)]
pub struct Steps {
    /// The pages programmed.
    pub programs: u32,
    /// The blocks erased.
    pub erases: u32,
}

/// Why a command has not done all. The lowest number that applies is given; 1 to
/// 7 have changed nothing.
#[derive(Clone, Copy, Debug, PartialEq, Eq, Hash)]
pub enum Refusal {
    /// 1: shape or image length outside the limits.
    OutsideLimits,
    /// 2: page buffer not 512 long, block buffer not P x 512, table not 2 x L.
    WrongBuffer,
    /// 3: logical page or logical block out of range.
    OutOfRange,
    /// 4: fewer good blocks than L + K + 1. A block is bad when spare byte 5 of its
    /// page 0 or page 1 is not 255, the maker's mark.
    TooFewBlocks,
    /// 5: W1 to W7 not all true.
    IllFormed,
    /// 6: an obsolete block exists: run power-up.
    NeedsPowerUp,
    /// 7: highest number plus new numbers needed above 4,294,967,294.
    OutOfNumbers,
    /// 8: cut number below the list's length; these steps are done.
    Cut(Steps),
}

impl Refusal {
    /// The number of the answer, 1 to 8.
    #[must_use]
    pub const fn number(self) -> u8 {
        match self {
            Refusal::OutsideLimits => 1,
            Refusal::WrongBuffer => 2,
            Refusal::OutOfRange => 3,
            Refusal::TooFewBlocks => 4,
            Refusal::IllFormed => 5,
            Refusal::NeedsPowerUp => 6,
            Refusal::OutOfNumbers => 7,
            Refusal::Cut(_) => 8,
        }
    }

    /// The steps done all the same.
    #[must_use]
    pub const fn steps(self) -> Steps {
        match self {
            Refusal::Cut(steps) => steps,
            _ => Steps { programs: 0, erases: 0 },
        }
    }
}

impl fmt::Display for Refusal {
    fn fmt(&self, out: &mut fmt::Formatter) -> fmt::Result {
        out.write_str(match self {
            Refusal::OutsideLimits => "shape or image length outside the limits",
            Refusal::WrongBuffer => {
                "page buffer not 512 long, block buffer not P x 512, or table not 2 x L"
            }
            Refusal::OutOfRange => "logical page or logical block out of range",
            Refusal::TooFewBlocks => "fewer good blocks than L + K + 1",
            Refusal::IllFormed => "the image is not well-formed",
            Refusal::NeedsPowerUp => "an obsolete block exists",
            Refusal::OutOfNumbers => "the sequence numbers do not suffice",
            Refusal::Cut(_) => "the card was pulled out before the last step",
        })
    }
}

impl Error for Refusal {}

/// The answer is in bits 0 to 7, programs in bits 8 to 31, erases in bits 32 to
/// 63.
pub(crate) fn unpack(result: u64) -> Answer {
    let programs = (result >> 8 & 0xff_ffff) as u32;
    let erases = (result >> 32) as u32;
    let steps = Steps { programs, erases };
    let refusal = match result & 0xff {
        0 => return Ok(steps),
        1 => Refusal::OutsideLimits,
        2 => Refusal::WrongBuffer,
        3 => Refusal::OutOfRange,
        4 => Refusal::TooFewBlocks,
        5 => Refusal::IllFormed,
        6 => Refusal::NeedsPowerUp,
        7 => Refusal::OutOfNumbers,
        8 => Refusal::Cut(steps),
        number => panic!("the linked library is not Hamutsigra: it answers {number}"),
    };
    // 1 to 7 report zero counts.
    assert_eq!(steps, refusal.steps(), "the linked library is not Hamutsigra: {refusal:?}");
    Err(refusal)
}

#[cfg(test)]
mod tests {
    use super::*;

    #[test]
    fn each_answer_has_its_number() {
        for number in 1..=8 {
            let refusal = unpack(number).expect_err("a refusal");
            assert_eq!(u64::from(refusal.number()), number);
        }
        assert_eq!(unpack(0), Ok(Steps::default()));
    }

    #[test]
    fn the_counts_are_taken_from_their_bits() {
        let steps = |programs, erases| Steps { programs, erases };
        assert_eq!(unpack(33 << 8), Ok(steps(33, 0)));
        assert_eq!(unpack(2 << 32), Ok(steps(0, 2)));
        assert_eq!(unpack(0xffff_ff00), Ok(steps(0xff_ffff, 0)));
        assert_eq!(unpack(0xffff_ffff_0000_0000), Ok(steps(0, u32::MAX)));
        assert_eq!(unpack(2 << 32 | 4 << 8 | 8), Err(Refusal::Cut(steps(4, 2))));
    }

    #[test]
    #[should_panic(expected = "it answers 9")]
    fn an_answer_that_there_is_not_is_noticed() {
        let _ = unpack(9);
    }

    #[test]
    #[should_panic(expected = "OutOfNumbers")]
    fn a_refusal_with_counts_is_noticed() {
        let _ = unpack(1 << 8 | 7);
    }
}
