//! Run-test marks and mark sheets, worked out by a library whose every answer is proved.
//!
//! A station on the floor watches a series of values against the limits of its control chart and
//! sends a *mark sheet*: which points show which of the nine run tests. [`mark`] gives the marks of
//! a series, [`write`](fn@write) the one true sheet, and [`check`] accepts exactly that sheet and tells of any
//! other where it is wrong. This package only hands slices on to the library and reads its answers;
//! document 01 of the repository says what each answer is, to the bit.
//!
//! ```
//! use dramulenz::{check, mark, write, Limits, Refusal, RuleSet};
//!
//! let limits = Limits { ucl: 28.0, cl: 25.0, lcl: 22.0 };
//! let values = [25.5, 24.0, 28.5];
//!
//! let mut marks = [0; 3];
//! mark(&values, limits, RuleSet::SHEWHART, &mut marks)?;
//! assert_eq!(marks, [0, 0, 1]); // the last value lies beyond a limit: test 0
//!
//! let mut room = [0; 16];
//! let length = write(&values, limits, RuleSet::SHEWHART, &mut room)?;
//! let sheet = &room[..length];
//! assert_eq!(sheet, [3, 1, 1, 2, 1]); // 3 points, set 1, 1 marked: 2 skipped, then marks 1
//! check(&values, limits, RuleSet::SHEWHART, sheet)?;
//!
//! let silent = [3, 1, 0]; // the same, with no point marked
//! let answer = check(&values, limits, RuleSet::SHEWHART, &silent);
//! assert_eq!(answer, Err(Refusal::Wrong { at: 2, right: 1, stated: 0 }));
//! # Ok::<(), Refusal>(())
//! ```
//!
//! # Refusals
//!
//! No call panics, and each answers for every input. A call that is refused says why by the first
//! [`Refusal`] that applies, in this order, and leaves every slice as it came:
//!
//! | call | order |
//! |---|---|
//! | [`mark`], [`write`](fn@write) | `TooMany`, `SetTooLarge`, `NotFinite`, `TooShort` |
//! | [`check`] | `TooMany`, `SetTooLarge`, `NotFinite`, `Form`, `Differs`, `Wrong` |
//! | those of [`bytes`] | `Length`, then the same |
//! | [`root`] | `NotFinite` |
//!
//! [`Refusal::Unknown`] stands in no row: it says that another library is linked.
//!
//! # The floating-point mode
//!
//! The library is proved for the default mode of floating-point arithmetic: round to nearest, subnormals
//! kept, no exception trapped. Every call sets it and puts the caller's back, so the answers do not
//! depend on it, as that of a C program that is linked with `-ffast-math`.

#![deny(missing_docs)]

mod boundary;
pub mod bytes;
mod mode;
mod refusal;
mod views;

pub use refusal::Refusal;

/// The most values that a series may have.
pub const MOST_POINTS: usize = 4096;

/// The lines that the tests look at. Any finite numbers will do: that `ucl` is below `cl` is legal.
///
/// One sigma is `(ucl - cl) / 3.0`, on both sides of the centre.
#[derive(Clone, Copy, Debug, PartialEq)]
pub struct Limits {
    /// The upper control limit.
    pub ucl: f64,
    /// The centre line.
    pub cl: f64,
    /// The lower control limit.
    pub lcl: f64,
}

/// Which of the nine tests are applied: a number from 0 to 511, of which bit `b` stands for test `b`.
///
/// | bit | test | points |
/// |---|---|---|
/// | 0 | beyond a limit | 1 |
/// | 1 | nine on one side of the centre | 9 |
/// | 2 | six rising or falling | 6 |
/// | 3 | fourteen up and down in turn | 14 |
/// | 4 | two of three beyond two sigma, on one side | 3 |
/// | 5 | four of five beyond one sigma, on one side | 5 |
/// | 6 | fifteen within one sigma | 15 |
/// | 7 | eight beyond one sigma, on either side | 8 |
/// | 8 | eight on one side of the centre | 8 |
///
/// A number over 511 can be made, and is refused by every call with [`Refusal::SetTooLarge`].
///
/// ```
/// use dramulenz::RuleSet;
///
/// let limits_and_trends = RuleSet(1 << 0 | 1 << 2);
/// assert_eq!(limits_and_trends, RuleSet(5));
/// ```
#[derive(Clone, Copy, Debug, PartialEq, Eq, Hash)]
pub struct RuleSet(
    /// The set's number.
    pub u32,
);

impl RuleSet {
    /// No test at all.
    pub const NONE: RuleSet = RuleSet(0);
    /// Test 0 alone: beyond a limit.
    pub const SHEWHART: RuleSet = RuleSet(1);
    /// Tests 0 to 7.
    pub const NELSON: RuleSet = RuleSet(255);
    /// Tests 0, 4, 5 and 8.
    pub const WESTERN_ELECTRIC: RuleSet = RuleSet(305);
}

/// Marks every point: `marks[i]` gets the tests of `set` that point `i` shows, one bit for each.
///
/// A test is shown at the last point of its window. Entries of `marks` past the last point are left
/// as they are. Where the call is refused all of `marks` is.
///
/// # Errors
///
/// The first that applies of [`TooMany`](Refusal::TooMany), [`SetTooLarge`](Refusal::SetTooLarge),
/// [`NotFinite`](Refusal::NotFinite), and [`TooShort`](Refusal::TooShort) where `marks` has fewer
/// entries than there are points.
///
/// # Examples
///
/// ```
/// use dramulenz::{mark, Limits, Refusal, RuleSet};
///
/// let limits = Limits { ucl: 28.0, cl: 25.0, lcl: 22.0 };
/// let mut marks = [7; 10];
/// mark(&[26.0; 9], limits, RuleSet::WESTERN_ELECTRIC, &mut marks)?;
/// // Eight on one side, at each point that ends eight of them; the tenth entry is untouched.
/// assert_eq!(marks, [0, 0, 0, 0, 0, 0, 0, 256, 256, 7]);
///
/// let refused = mark(&[26.0; 11], limits, RuleSet::WESTERN_ELECTRIC, &mut marks);
/// assert_eq!(refused, Err(Refusal::TooShort));
/// assert_eq!(marks, [0, 0, 0, 0, 0, 0, 0, 256, 256, 7]);
/// # Ok::<(), Refusal>(())
/// ```
pub fn mark(values: &[f64], limits: Limits, set: RuleSet, marks: &mut [u16]) -> Result<(), Refusal> {
    views::with_marks(marks, |marks| bytes::mark(&views::of_values(values), limits, set, marks))
}

/// Checks a sheet against the values that it is about: `Ok` exactly if it is the one that [`write`](fn@write)
/// would write.
///
/// # Errors
///
/// The first that applies of [`TooMany`](Refusal::TooMany), [`SetTooLarge`](Refusal::SetTooLarge),
/// [`NotFinite`](Refusal::NotFinite); then [`Form`](Refusal::Form) where the bytes are no sheet,
/// [`Differs`](Refusal::Differs) where it is a sheet of another number of points or another set, and
/// [`Wrong`](Refusal::Wrong) with the first point whose marks are not the right ones.
///
/// # Examples
///
/// ```
/// use dramulenz::{check, Limits, Refusal, RuleSet};
///
/// let limits = Limits { ucl: 28.0, cl: 25.0, lcl: 22.0 };
/// let answer = |sheet: &[u8]| check(&[25.0, 28.5], limits, RuleSet::SHEWHART, sheet);
/// assert_eq!(answer(&[2, 1, 1, 1, 1]), Ok(()));
/// assert_eq!(answer(&[2, 1, 0]), Err(Refusal::Wrong { at: 1, right: 1, stated: 0 }));
/// assert_eq!(answer(&[3, 1, 0]), Err(Refusal::Differs));
/// assert_eq!(answer(&[2, 1, 1, 1]), Err(Refusal::Form { at: 4 }));
/// ```
pub fn check(values: &[f64], limits: Limits, set: RuleSet, sheet: &[u8]) -> Result<(), Refusal> {
    bytes::check(&views::of_values(values), limits, set, sheet)
}

/// Writes the one true sheet of the values over the front of `out`, and gives its length.
///
/// Bytes of `out` past the sheet are left as they are. Where the call is refused all of `out` is.
///
/// # Errors
///
/// The first that applies of [`TooMany`](Refusal::TooMany), [`SetTooLarge`](Refusal::SetTooLarge),
/// [`NotFinite`](Refusal::NotFinite), and [`TooShort`](Refusal::TooShort) where the sheet does not
/// fit into `out`.
///
/// # Examples
///
/// ```
/// use dramulenz::{write, Limits, Refusal, RuleSet};
///
/// let limits = Limits { ucl: 28.0, cl: 25.0, lcl: 22.0 };
/// let mut out = [9; 6];
/// assert_eq!(write(&[25.0, 28.5], limits, RuleSet::SHEWHART, &mut out), Ok(5));
/// // Two points, set 1, one of them marked: after one unmarked point, marks 1.
/// assert_eq!(out, [2, 1, 1, 1, 1, 9]);
/// assert_eq!(write(&[28.5; 2], limits, RuleSet::SHEWHART, &mut out), Err(Refusal::TooShort));
/// assert_eq!(out, [2, 1, 1, 1, 1, 9]);
/// ```
pub fn write(values: &[f64], limits: Limits, set: RuleSet, out: &mut [u8]) -> Result<usize, Refusal> {
    bytes::write(&views::of_values(values), limits, set, out)
}

/// The nearest f64 to the square root of `x`; of either zero, the same zero.
///
/// # Errors
///
/// [`NotFinite`](Refusal::NotFinite) where `x` is not finite or is below zero.
///
/// # Examples
///
/// ```
/// use dramulenz::{root, Refusal};
///
/// assert_eq!(root(2.25), Ok(1.5));
/// assert_eq!(root(-1.0), Err(Refusal::NotFinite));
/// ```
pub fn root(x: f64) -> Result<f64, Refusal> {
    let root = boundary::root(x);
    // The library answers a refusal with +0.0, which is the root of +0.0 alone. Bits are compared, since
    // here the mode is the caller's, in which a subnormal may be equal to zero.
    if root.to_bits() == 0 && x.to_bits() != 0 {
        return Err(Refusal::NotFinite);
    }
    Ok(root)
}
