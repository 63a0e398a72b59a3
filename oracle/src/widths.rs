//! The zone widths, from the words of 02's R-5. The Rust has one width for both sides.

use crate::case::Limits;

#[derive(Clone, Copy)]
pub enum Mode {
    /// 'Width mode 0, the default, is the old way and equals the Rust'.
    Old,
    /// '1 is the new': each side by its own limit.
    New,
}

/// 'four: one and two sigma above .., one and two below'
pub struct Widths {
    pub above1: f64,
    pub above2: f64,
    pub below1: f64,
    pub below2: f64,
}

/// None is 21: 'mode not 0 or 1'.
pub fn mode(number: u64) -> Option<Mode> {
    match number {
        0 => Some(Mode::Old),
        1 => Some(Mode::New),
        _ => None,
    }
}

pub fn of(l: &Limits, mode: Mode) -> Widths {
    // 'above from ucl - cl'
    let above = (l.ucl - l.cl) / 3.0;
    let below = match mode {
        // 01: 'the same widths serve below the centre'
        Mode::Old => above,
        // 'below from cl - lcl'
        Mode::New => (l.cl - l.lcl) / 3.0,
    };
    Widths { above1: above, above2: 2.0 * above, below1: below, below2: 2.0 * below }
}
