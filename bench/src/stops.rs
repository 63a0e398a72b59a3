//! Stops on the belt: where the lines have them, and what they leave of the marks, by a loop of its own.

use crate::data::POINTS;

/// How many values the window of each test has, by the bit of the test.
const WINDOWS: [usize; 9] = [1, 9, 6, 14, 3, 5, 15, 8, 8];

/// So many stops, spread evenly over a series.
pub fn spread(stops: usize) -> Vec<usize> {
    (1..=stops).map(|k| k * POINTS / (stops + 1)).collect()
}

/// What stops leave of the marks that a series has without them: those whose window reaches over no cut.
pub fn left_of(whole: &[u16], stops: &[usize], moving: bool) -> Vec<u16> {
    let mut left = Vec::new();
    let mut first = 0;
    for (at, marks) in whole.iter().enumerate() {
        if stops.contains(&at) || (moving && stops.contains(&(at + 1))) {
            first = at;
        }
        let fits = |bit: &usize| WINDOWS[*bit] <= at + 1 - first;
        left.push((0..WINDOWS.len()).filter(fits).map(|bit| marks & (1 << bit)).sum());
    }
    left
}
