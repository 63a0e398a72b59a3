//! 01's table of tests, window by window as it stands there: for series with stops or in width mode 1, and to
//! be held against the Rust's runs where there is neither.

use crate::case::{Limits, MarksCase};
use crate::scope::WINDOWS;
use crate::widths::Widths;
use std::ops::Range;

/// The marks of windows that `may_show` their pattern; it is told the positions of each.
pub fn marks(case: &MarksCase, widths: &Widths, may_show: impl Fn(Range<usize>) -> bool) -> Vec<u16> {
    let stands = |test: usize, end: usize| {
        let Some(start) = end.checked_sub(WINDOWS[test]) else { return false };
        shows(test, &case.limits, widths, &case.values[start..end]) && may_show(start..end)
    };
    let in_set = |test: &usize| case.set & (1 << test) != 0;
    let at = |end: usize| (0..9).filter(in_set).filter(|&t| stands(t, end)).map(|t| 1 << t).sum();
    (1..=case.values.len()).map(at).collect()
}

fn shows(test: usize, l: &Limits, w: &Widths, window: &[f64]) -> bool {
    let (up1, up2) = (l.cl + w.above1, l.cl + w.above2);
    let (down1, down2) = (l.cl - w.below1, l.cl - w.below2);
    let all = |pattern: &dyn Fn(f64) -> bool| window.iter().all(|&v| pattern(v));
    let count = |pattern: &dyn Fn(f64) -> bool| window.iter().filter(|&&v| pattern(v)).count();
    let rises: Vec<bool> = window.windows(2).map(|w| w[1] > w[0]).collect();
    let falls: Vec<bool> = window.windows(2).map(|w| w[1] < w[0]).collect();
    let by_turns =
        |odd: &[bool], even: &[bool]| (0..rises.len()).all(|i| if i % 2 == 0 { even[i] } else { odd[i] });
    match test {
        0 => window[0] > l.ucl || window[0] < l.lcl,
        1 | 8 => all(&|v| v > l.cl) || all(&|v| v < l.cl),
        2 => rises.iter().all(|&r| r) || falls.iter().all(|&f| f),
        3 => by_turns(&rises, &falls) || by_turns(&falls, &rises),
        4 => count(&|v| v > up2) >= 2 || count(&|v| v < down2) >= 2,
        5 => count(&|v| v > up1) >= 4 || count(&|v| v < down1) >= 4,
        6 => all(&|v| v >= down1 && v <= up1),
        _ => all(&|v| v > up1 || v < down1),
    }
}
