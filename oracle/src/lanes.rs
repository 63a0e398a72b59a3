//! What the program histories_run has to write: the marks of the same hundred thousand values by the
//! published Rust, which has no most, and the calls between them that are refused.

use crate::case::{Limits, MarksCase};
use crate::judge;

const VALUES: u64 = 100_000;

/// After each thousand values come five calls that have to be refused.
const REFUSED: u64 = VALUES / 1000 * 5;

/// All marks are folded into one number modulo this prime.
const PRIME: u64 = 4_294_967_291;

/// The line that histories_run writes.
pub fn line() -> String {
    let limits = Limits { ucl: 28.0, cl: 25.0, lcl: 22.0 };
    let marks = judge::marks(&MarksCase { set: 511, limits, values: values() });
    let of_test = |b: u16| format!(" {}", marks.iter().filter(|&m| m >> b & 1 == 1).count());
    let counts: String = (0..9).map(of_test).collect();
    let all = marks.iter().fold(0, |all, &m| (all * 31 + u64::from(m)) % PRIME);
    format!("{VALUES} values taken, {REFUSED} refused; marked by each test{counts}; all marks come to {all}")
}

/// Values from 21 to 29 by halves, forty of a kind in a row: anywhere, within one sigma, up and down
/// by turns, rising, or above one sigma.
fn values() -> Vec<f64> {
    let (mut x, mut kind) = (1, 0);
    let one = |i: u64| {
        x = next(x);
        if i % 40 == 0 {
            kind = drawn(x) % 5;
            x = next(x);
        }
        let r = drawn(x);
        let halves = match kind {
            0 => r % 17,
            1 => 6 + r % 5,
            2 => i % 2 * 9 + r % 8,
            3 => i % 17,
            _ => 11 + r % 6,
        };
        21.0 + halves as f64 / 2.0
    };
    (0..VALUES).map(one).collect()
}

/// The next of a run of numbers below 2^32 that are hard to foresee.
fn next(x: u64) -> u64 {
    (x * 1_664_525 + 1_013_904_223) % 0x1_0000_0000
}

/// What is taken of one: below 4,096.
fn drawn(x: u64) -> u64 {
    x / 0x10_0000
}
