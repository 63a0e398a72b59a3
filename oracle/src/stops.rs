//! Stops on the belt, from the words of 02's R-1, and the marks that they leave in either width mode. The Rust
//! has neither.

use crate::case::{Answer, ChartCase, Evaluation, MarksCase, StoppedChart, StoppedMarks};
use crate::scope::{BAD_STOPS, BAD_WIDTH};
use crate::widths::{self, Mode};
use crate::{by_01, judge};
use std::ops::Range;

pub fn marks(case: &StoppedMarks, width: u64) -> Answer {
    let points = case.marks.values.len();
    // 'a moving range, one point shorter than its main series'
    let main_points = if case.moving { points + 1 } else { points };
    match asked(judged(&case.stops, main_points), width) {
        Ok((stops, mode)) => Answer::Marks(marks_between(&case.marks, mode, stops, case.moving)),
        Err(number) => Answer::Refused(number),
    }
}

pub fn chart(case: &StoppedChart, width: u64) -> Answer {
    let chart = &case.chart;
    let held = usize::try_from(case.count).ok().and_then(|count| case.list.get(..count));
    let stops = held.and_then(|stops| judged(stops, chart.count()));
    match (asked(stops, width), judge::chart(chart)) {
        (Ok((stops, mode)), Answer::Evaluated(e)) => Answer::Evaluated(evaluated(chart, e, stops, mode)),
        (Ok(_), refused) => refused,
        (Err(number), Answer::Evaluated(e)) => Answer::Apart(number, [e.sigma_hat, e.sigma_hat_df]),
        (Err(number), Answer::Refused(other)) => Answer::Apart(number, [Err(other); 2]),
        _ => unreachable!("a chart is evaluated or refused"),
    }
}

/// Good stops and the mode, or 15, or 21: it stands 'directly after 4', and 'in evaluating after 14 and 15'.
fn asked(stops: Option<&[u64]>, width: u64) -> Result<(&[u64], Mode), u8> {
    let stops = stops.ok_or(BAD_STOPS)?;
    let mode = widths::mode(width).ok_or(BAD_WIDTH)?;
    Ok((stops, mode))
}

/// The stops, unless they are 'not strictly rising' or 'outside 1 to the main series' points less one'.
fn judged(stops: &[u64], main_points: usize) -> Option<&[u64]> {
    let rising = stops.windows(2).all(|pair| pair[0] < pair[1]);
    let inside = stops.iter().all(|&p| 1 <= p && p < main_points as u64);
    (rising && inside).then_some(stops)
}

/// The Rust's series and limits, which no stop and no mode changes, with the marks that stand. Of all
/// dispersion series only the individuals chart's is a moving range.
fn evaluated(chart: &ChartCase, e: Evaluation, stops: &[u64], mode: Mode) -> Evaluation {
    let set = chart.set;
    let main = MarksCase { set, limits: e.main_limits, values: e.main.clone() };
    let dispersion = MarksCase { set, limits: e.dispersion_limits, values: e.dispersion.clone() };
    let main_marks = marks_between(&main, mode, stops, false);
    let dispersion_marks = marks_between(&dispersion, mode, stops, chart.kind == 1);
    let all = || main_marks.iter().chain(&dispersion_marks);
    let number_of_marks = all().map(|m| m.count_ones() as usize).sum();
    let in_control = all().all(|&m| m == 0);
    Evaluation { main_marks, dispersion_marks, number_of_marks, in_control, ..e }
}

fn marks_between(case: &MarksCase, mode: Mode, stops: &[u64], moving: bool) -> Vec<u16> {
    let widths = widths::of(&case.limits, mode);
    by_01::marks(case, &widths, |window| stops.iter().all(|&p| may_show(&window, p as usize, moving)))
}

/// Whether a window may show its pattern in spite of the stop at `p`, which 'lies between p-1 and p'.
fn may_show(window: &Range<usize>, p: usize, moving: bool) -> bool {
    // 'A window that holds both no longer shows its pattern.'
    let holds_both = window.contains(&(p - 1)) && window.contains(&p);
    // 'The moving range of index p straddles the stop: only windows of length one may hold it'; by 01
    // 'an index is the position, plus 1 on a moving range series'.
    let straddled = p - 1;
    let may_hold = !moving || !window.contains(&straddled) || window.len() == 1;
    !holds_both && may_hold
}
