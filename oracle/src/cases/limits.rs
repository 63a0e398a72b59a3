//! Limits worth trying, and the lines that they draw.

use crate::case::Limits;
use crate::widths::{self, Mode};

const SMALLEST: f64 = f64::from_bits(1);

/// Lines that are exact: the widths are 1 and 2. 01's worked examples have these.
pub const EXACT: Limits = Limits { ucl: 28.0, cl: 25.0, lcl: 22.0 };

/// Every operation on these rounds: (0.4 - 0.1) / 3.0 is not 0.1.
pub const DECIMAL: Limits = Limits { ucl: 0.4, cl: 0.1, lcl: -0.2 };

/// The width below, taken from lcl, would be another: a dispersion series with its floor at zero.
pub const FLOORED: Limits = Limits { ucl: 3.267, cl: 1.0, lcl: 0.0 };

/// Whole multiples of the smallest f64, exact like `EXACT` with widths of 8 and 16 of them. Their
/// bits are small numbers, one byte each in a list: what is taken in full is taken over these.
pub const UNITS: Limits = Limits { ucl: 84.0 * SMALLEST, cl: 60.0 * SMALLEST, lcl: 36.0 * SMALLEST };

/// Every kind of limits that 01 lets pass: all finite, otherwise as they please.
pub const ALL: [Limits; 17] = [
    EXACT,
    DECIMAL,
    FLOORED,
    UNITS,
    // A lower limit far below, and one above the centre.
    Limits { ucl: 28.0, cl: 25.0, lcl: 10.0 },
    Limits { ucl: 28.0, cl: 25.0, lcl: 26.5 },
    // The wrong way round: the widths are below zero.
    Limits { ucl: 22.0, cl: 25.0, lcl: 28.0 },
    // No width at all.
    Limits { ucl: 25.0, cl: 25.0, lcl: 25.0 },
    Limits { ucl: 0.0, cl: -0.0, lcl: 0.0 },
    // About zero, where one bit to either side is a subnormal.
    Limits { ucl: 3.0, cl: 0.0, lcl: -3.0 },
    // Subnormal widths: 1, and 4/3 rounded to 1, of the smallest f64 there is.
    Limits { ucl: 9.0 * SMALLEST, cl: 6.0 * SMALLEST, lcl: 3.0 * SMALLEST },
    Limits { ucl: 5.0 * SMALLEST, cl: SMALLEST, lcl: -SMALLEST },
    // Near the largest f64, all widths finite.
    Limits { ucl: f64::MAX, cl: f64::MAX / 2.0, lcl: 0.0 },
    // Finite widths, but cl - t is below every f64.
    Limits { ucl: f64::MAX / 2.0, cl: -f64::MAX / 2.0, lcl: -f64::MAX },
    // ucl - cl is infinite, upwards and downwards.
    Limits { ucl: f64::MAX, cl: -f64::MAX, lcl: -f64::MAX },
    Limits { ucl: f64::MAX, cl: -1.0e300, lcl: -2.0e300 },
    Limits { ucl: -f64::MAX, cl: f64::MAX, lcl: f64::MAX },
];

/// s = (ucl - cl) / 3.0, as 01 has it.
pub fn one_sigma(l: &Limits) -> f64 {
    (l.ucl - l.cl) / 3.0
}

/// How far from the centre a flow may usefully stray: s without its sign, or something like it
/// where s is zero or infinite.
pub fn scale(l: &Limits) -> f64 {
    let s = one_sigma(l).abs();
    if s == 0.0 {
        1.0
    } else {
        s.min(f64::MAX / 4.0)
    }
}

/// Centre, one sigma above and below, two sigma above and below, limits: as far as they are finite.
pub fn lines(l: &Limits, mode: Mode) -> Vec<f64> {
    let w = widths::of(l, mode);
    let all = [l.cl, l.cl + w.above1, l.cl - w.below1, l.cl + w.above2, l.cl - w.below2, l.ucl, l.lcl];
    all.into_iter().filter(|x| x.is_finite()).collect()
}

/// The line itself and one bit to either side.
pub fn about(line: f64) -> Vec<f64> {
    let all = [line.next_down(), line, line.next_up()];
    all.into_iter().filter(|x| x.is_finite()).collect()
}

/// Every line with one bit to either side, and both zeros.
pub fn edge_values(l: &Limits) -> Vec<f64> {
    let mut all: Vec<f64> = lines(l, Mode::Old).into_iter().flat_map(about).collect();
    all.extend([0.0, -0.0]);
    all
}
