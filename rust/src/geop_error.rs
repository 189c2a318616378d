//! Why a call is refused. geop's error is a text with its context; the archive's is a number.

use std::error::Error;
use std::fmt::{self, Display, Formatter};

/// A refusal, by what was wrong.
#[derive(Clone, Copy, Debug, PartialEq, Eq)]
pub enum GeopError {
    /// A count is above its limit.
    TooMany = 1,
    /// A slice has the wrong length.
    WrongLength = 2,
    /// An end is not finite, is beyond 2^400, or the ends are inverted; or the longest step is not above 0.
    OutsideDomain = 3,
    /// No question is open, or no call leaves such a run.
    NoOpenQuestion = 4,
    /// The root of an interval that is definitely negative.
    SqrtOfNegative = 5,
    /// A division by an interval that holds 0.
    DivisorContainsZero = 6,
    /// A sheet's line is missing, surplus or malformed, or a sheet has too many bytes.
    Malformed = 7,
    /// A sheet's number is outside its range.
    OutOfRange = 8,
    /// A sheet's rule has equal points or one that is not present.
    NoSuchPoint = 9,
}

/// A value, or the refusal.
pub type GeopResult<T> = Result<T, GeopError>;

impl GeopError {
    /// The archive's number of it.
    pub fn number(self) -> usize {
        self as usize
    }

    /// The refusal of that number, 1 to 9.
    pub(crate) fn numbered(number: usize) -> Self {
        match number {
            1 => GeopError::TooMany,
            2 => GeopError::WrongLength,
            3 => GeopError::OutsideDomain,
            4 => GeopError::NoOpenQuestion,
            5 => GeopError::SqrtOfNegative,
            6 => GeopError::DivisorContainsZero,
            7 => GeopError::Malformed,
            8 => GeopError::OutOfRange,
            _ => GeopError::NoSuchPoint,
        }
    }

    /// What was wrong, in words.
    pub fn root_message(&self) -> &str {
        match self {
            GeopError::TooMany => "a count is above its limit",
            GeopError::WrongLength => "a slice has the wrong length",
            GeopError::OutsideDomain => "an end is outside the domain",
            GeopError::NoOpenQuestion => "no question is open",
            GeopError::SqrtOfNegative => "the root of a negative interval",
            GeopError::DivisorContainsZero => "a division by an interval that holds 0",
            GeopError::Malformed => "a line of a sheet is missing, surplus or malformed",
            GeopError::OutOfRange => "a number of a sheet is outside its range",
            GeopError::NoSuchPoint => {
                "a rule of a sheet has equal points or one that is not present"
            }
        }
    }
}

impl Display for GeopError {
    fn fmt(&self, f: &mut Formatter<'_>) -> fmt::Result {
        write!(f, "refusal {}: {}", self.number(), self.root_message())
    }
}

impl Error for GeopError {}
