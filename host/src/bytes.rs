//! The same calls over bytes, as the library itself has them: eight bytes to a value and two to a
//! point's marks, low byte first. For series that arrive as bytes and need not be turned into `f64`.
//!
//! Each refuses as its namesake at the top does, but first of all with [`Refusal::Length`] where the
//! length of `values` is not a multiple of eight. Every pattern of eight bytes is a value: one that
//! is infinite or no number is refused with [`Refusal::NotFinite`].
//!
//! ```
//! use dramulenz::{bytes, Limits, Refusal, RuleSet};
//!
//! let limits = Limits { ucl: 28.0, cl: 25.0, lcl: 22.0 };
//! let values = 28.5f64.to_le_bytes();
//! let mut marks = [9; 3];
//! assert_eq!(bytes::mark(&values, limits, RuleSet::SHEWHART, &mut marks), Ok(()));
//! assert_eq!(marks, [1, 0, 9]);
//! assert_eq!(bytes::mark(&values[1..], limits, RuleSet::SHEWHART, &mut marks), Err(Refusal::Length));
//! ```

use crate::{boundary, Limits, Refusal, RuleSet};

/// [`mark`](crate::mark) over bytes; `marks` needs two for each value.
///
/// # Errors
///
/// [`Refusal::Length`], then as [`mark`](crate::mark).
pub fn mark(values: &[u8], limits: Limits, set: RuleSet, marks: &mut [u8]) -> Result<(), Refusal> {
    boundary::mark(values, limits, set, marks).map(|_| ())
}

/// [`check`](crate::check) over bytes.
///
/// # Errors
///
/// [`Refusal::Length`], then as [`check`](crate::check).
pub fn check(values: &[u8], limits: Limits, set: RuleSet, sheet: &[u8]) -> Result<(), Refusal> {
    boundary::check(values, limits, set, sheet).map(|_| ())
}

/// [`write`](fn@crate::write) over bytes.
///
/// # Errors
///
/// [`Refusal::Length`], then as [`write`](fn@crate::write).
pub fn write(values: &[u8], limits: Limits, set: RuleSet, out: &mut [u8]) -> Result<usize, Refusal> {
    boundary::write(values, limits, set, out).map(|length| length as usize)
}
