//! Why a call was refused.

use std::fmt;

/// Why a call was refused. The checks run in this order, and the first that fails answers.
#[derive(Clone, Copy, Debug, PartialEq, Eq, PartialOrd, Ord, Hash)]
pub enum Refusal {
    /// The share count (the length of `shares`, or the stated n) is not 2 to 8.
    ShareCount,
    /// `out` has another length than the new shares: n words, or 256·n in [`sample_polynomial`](crate::sample_polynomial). Never
    /// from [`verdict`](crate::verdict), which has no `out`.
    OutputLength,
    /// A parameter is out of its range.
    Parameter,
    /// A share is not below its modulus or, if Boolean, 2 to its width. Never from a sampler.
    Share,
    /// The tape ended before the last draw.
    TapeEnded,
}

impl Refusal {
    /// The number that the C face answers, from 1 to 5.
    pub fn number(self) -> u32 {
        match self {
            Refusal::ShareCount => 1,
            Refusal::OutputLength => 2,
            Refusal::Parameter => 3,
            Refusal::Share => 4,
            Refusal::TapeEnded => 5,
        }
    }

    /// What an answer's number says. Another number is proved not to come, so the archive would not be the one that this crate
    /// was written for.
    pub(crate) fn check(number: u32) -> Result<(), Refusal> {
        match number {
            0 => Ok(()),
            1 => Err(Refusal::ShareCount),
            2 => Err(Refusal::OutputLength),
            3 => Err(Refusal::Parameter),
            4 => Err(Refusal::Share),
            5 => Err(Refusal::TapeEnded),
            _ => panic!("the archive answered {number}, which this crate does not know"),
        }
    }
}

impl fmt::Display for Refusal {
    fn fmt(&self, f: &mut fmt::Formatter) -> fmt::Result {
        f.write_str(match self {
            Refusal::ShareCount => "the share count is not 2 to 8",
            Refusal::OutputLength => "the output slice has another length than the new shares",
            Refusal::Parameter => "a parameter is out of its range",
            Refusal::Share => "a share is not below its modulus or 2 to its width",
            Refusal::TapeEnded => "the tape ended before the last draw",
        })
    }
}

impl std::error::Error for Refusal {}
