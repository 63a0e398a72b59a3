//! Why a call is refused.

use std::fmt;

/// Why a call is refused. The numbers are those of document 01, 'Numbers a call may give back'.
#[derive(Clone, Copy, Debug, PartialEq, Eq)]
pub enum Refusal {
    /// The values' length in bytes is not a multiple of eight (2). Only the calls of
    /// [`bytes`](crate::bytes) answer so.
    Length,
    /// A value or a limit is not finite; of a root, also that `x` is below zero (3).
    NotFinite,
    /// The rule set's number is over 511 (4).
    SetTooLarge,
    /// There are more than 4,096 values (5).
    TooMany,
    /// The slice for the answer is shorter than the answer (6).
    TooShort,
    /// The bytes are no sheet (9).
    Form {
        /// The first byte of the number that is at fault, or the first of the bytes left over.
        at: usize,
    },
    /// The sheet is about another number of points or another set (10).
    Differs,
    /// The sheet states marks that are not the right ones (11).
    Wrong {
        /// The first point, counted from 0, whose marks are wrong.
        at: usize,
        /// Its right marks.
        right: u16,
        /// The marks that the sheet states of it.
        stated: u16,
    },
    /// The library's answer has a number that this package does not know: the library that is linked is
    /// not the one that the package is for. It says nothing about what was passed.
    Unknown {
        /// The whole answer, with its number in bits 0 to 7.
        answer: u64,
    },
}

impl Refusal {
    /// The refusal's number in document 01; of [`Unknown`](Refusal::Unknown), the one that was answered.
    ///
    /// ```
    /// assert_eq!(dramulenz::Refusal::Form { at: 4 }.number(), 9);
    /// ```
    pub fn number(self) -> u8 {
        match self {
            Refusal::Length => 2,
            Refusal::NotFinite => 3,
            Refusal::SetTooLarge => 4,
            Refusal::TooMany => 5,
            Refusal::TooShort => 6,
            Refusal::Form { .. } => 9,
            Refusal::Differs => 10,
            Refusal::Wrong { .. } => 11,
            Refusal::Unknown { answer } => answer as u8,
        }
    }
}

impl fmt::Display for Refusal {
    fn fmt(&self, to: &mut fmt::Formatter<'_>) -> fmt::Result {
        match self {
            Refusal::Length => write!(to, "the length of the values is not a multiple of eight bytes"),
            Refusal::NotFinite => {
                write!(to, "a value or limit is not finite, or a root is asked of a number below zero")
            }
            Refusal::SetTooLarge => write!(to, "the rule set is over 511"),
            Refusal::TooMany => write!(to, "there are more than 4,096 values"),
            Refusal::TooShort => write!(to, "the slice for the answer is too short"),
            Refusal::Form { at } => write!(to, "the bytes are no sheet, at byte {at}"),
            Refusal::Differs => write!(to, "the sheet is about other points or another rule set"),
            Refusal::Wrong { at, right, stated } => {
                write!(to, "wrong marks at position {at}: {stated} stated, {right} right")
            }
            Refusal::Unknown { answer } => {
                write!(to, "the answer {answer:#x} is not known: another library is linked")
            }
        }
    }
}

impl std::error::Error for Refusal {}
