//! What is document 01's and not the Rust's: the refusals that a stored chart may have.
//!
//! Refusal 8 has its twin in the Rust, which then has no limits. Refusal 7 has none: the Rust goes
//! on with infinities and NaN. 15 and 21 are 02's (stops.rs decides them). Every other refusal is kept out
//! of the cases.

use crate::case::{Evaluation, Figure};

/// 'a computed point or limit is not finite'
pub const NOT_FINITE: u8 = 7;

/// 'no subgroup, or fewer than 2 observations'
pub const TOO_FEW: u8 = 8;

/// 'stops not strictly rising, outside 1 to the main series' points less one, or more than the list holds'
pub const BAD_STOPS: u8 = 15;

/// a width 'mode not 0 or 1'
pub const BAD_WIDTH: u8 = 21;

/// 01's bound on values, samples and points.
pub const MOST: usize = 4096;

/// The longest slice that a stored attribute chart has: some entries more than it may use.
pub const MOST_ROOM: usize = MOST + 4;

/// The largest rule set: all nine tests.
pub const ALL_TESTS: u16 = 511;

/// Each test's window, in the order of the bits.
pub const WINDOWS: [usize; 9] = [1, 9, 6, 14, 3, 5, 15, 8, 8];

/// Whether every computed point and limit is finite; 01 answers 7 where not.
pub fn is_finite(seen: &Evaluation) -> bool {
    let points = || seen.main.iter().chain(&seen.dispersion);
    points().all(|v| v.is_finite()) && seen.main_limits.are_finite() && seen.dispersion_limits.are_finite()
}

/// A sigma figure; 01 answers 7 where it is not finite. With finite limits both figures are finite
/// (oracle/FORMAT.md says why), so no stored case has that.
pub fn figure(x: f64) -> Figure {
    x.is_finite().then_some(x).ok_or(NOT_FINITE)
}

/// The smallest and the largest size that 01 allows for a kind.
pub fn sizes(kind: u64) -> (u64, u64) {
    match kind {
        1 => (1, 1),
        _ => (2, 25),
    }
}
