//! Puts a case to the published Rust and takes down what it says. What stops and the width mode make of it is 02's (stops.rs,
//! widths.rs); attribute charts stand in attributes.rs.

use crate::case::{Answer, Case, ChartCase, Evaluation, Limits, MarksCase};
use crate::{attributes, report, scope, stops};
use u_analytics::spc::chart::{ChartPoint, ControlChart, ControlLimits, ViolationType};
use u_analytics::spc::rules::{RuleSet, RunRule};
use u_analytics::spc::variables::{IndividualMRChart, XBarRChart, XBarSChart};

/// The width mode that the Rust has.
const OLD: u64 = 0;

pub fn answer(case: &Case) -> Answer {
    match case {
        Case::Marks(c) => Answer::Marks(marks(c)),
        Case::Chart(c) => chart(c),
        Case::StoppedMarks(c) => stops::marks(c, OLD),
        Case::StoppedChart(c) => stops::chart(c, OLD),
        Case::ModedMarks(c) => stops::marks(&c.stopped, c.width),
        Case::ModedChart(c) => stops::chart(&c.stopped, c.width),
        Case::Adding(c) => Answer::Numbers(attributes::added(c)),
        Case::Attributes(c) => Answer::Numbers(attributes::evaluated(c)),
        Case::Flow(bytes) => Answer::Report(report::text(bytes)),
    }
}

/// The Rust's set of the tests whose bits are in `set`; bit b is entry b of `ViolationType::ALL`.
pub fn rule_set(set: u16) -> RuleSet {
    let in_set = |b: &usize| set & (1 << b) != 0;
    (0..ViolationType::ALL.len()).filter(in_set).map(|b| ViolationType::ALL[b]).collect()
}

fn bit_of(test: ViolationType) -> u16 {
    let place = ViolationType::ALL.iter().position(|&t| t == test);
    1 << place.expect("ViolationType::ALL lists every test")
}

pub fn marks(case: &MarksCase) -> Vec<u16> {
    let points: Vec<ChartPoint> = (case.values.iter().enumerate())
        .map(|(index, &value)| ChartPoint { value, index, violations: Vec::new() })
        .collect();
    let Limits { ucl, cl, lcl } = case.limits;
    let mut marks = vec![0; points.len()];
    for (index, test) in rule_set(case.set).check(&points, &ControlLimits { ucl, cl, lcl }) {
        marks[index] |= bit_of(test);
    }
    marks
}

/// The set is named last: the Rust evaluates everything afresh at each sample, and with no test
/// asked for that costs least. `the_set_may_be_named_first` of the tests shows that it is the same.
pub fn chart(case: &ChartCase) -> Answer {
    let (none, set) = (RuleSet::none(), rule_set(case.set));
    match case.kind {
        1 => {
            let c = filled(IndividualMRChart::new().with_rules(none), case).with_rules(set);
            told(&c, c.mr_limits(), c.mr_points(), 1, c.sigma_hat(), c.sigma_hat_df())
        }
        2 => {
            let new = XBarRChart::new(case.size).expect("a size from 2 to 25");
            let c = filled(new.with_rules(none), case).with_rules(set);
            told(&c, c.r_limits(), c.r_points(), 0, c.sigma_hat(), c.sigma_hat_df())
        }
        _ => {
            let new = XBarSChart::new(case.size).expect("a size from 2 to 25");
            let c = filled(new.with_rules(none), case).with_rules(set);
            told(&c, c.s_limits(), c.s_points(), 0, c.sigma_hat(), c.sigma_hat_df())
        }
    }
}

/// The chart with every sample of the case added.
pub fn filled<C: ControlChart>(mut chart: C, case: &ChartCase) -> C {
    for sample in case.values.chunks(case.size) {
        chart.add_sample(sample).expect("a finite sample of the chart's size");
    }
    chart
}

/// What a chart says of itself. `first` is the Rust's index of the dispersion series' first point:
/// 1 for moving ranges, since the Rust counts them by the later of their two observations.
pub fn told(
    chart: &dyn ControlChart,
    dispersion_limits: Option<ControlLimits>,
    dispersion: &[ChartPoint],
    first: usize,
    sigma_hat: Option<f64>,
    sigma_hat_df: Option<f64>,
) -> Answer {
    let (Some(main_limits), Some(dispersion_limits)) = (chart.control_limits(), dispersion_limits) else {
        assert!(chart.is_in_control(), "a chart with no limits has no marks");
        return Answer::Refused(scope::TOO_FEW);
    };
    expect_order(chart, dispersion);
    let seen = Evaluation {
        main_limits: plain(main_limits),
        dispersion_limits: plain(dispersion_limits),
        main: values_of(chart.points(), 0),
        dispersion: values_of(dispersion, first),
        main_marks: marks_of(chart.points()),
        dispersion_marks: marks_of(dispersion),
        number_of_marks: chart.violations().len(),
        in_control: chart.is_in_control(),
        sigma_hat: scope::figure(sigma_hat.expect("a chart with limits has a sigma")),
        sigma_hat_df: scope::figure(sigma_hat_df.expect("a chart with limits has a sigma")),
    };
    if scope::is_finite(&seen) {
        Answer::Evaluated(seen)
    } else {
        Answer::Refused(scope::NOT_FINITE)
    }
}

fn plain(limits: ControlLimits) -> Limits {
    let ControlLimits { ucl, cl, lcl } = limits;
    Limits { ucl, cl, lcl }
}

/// The values by position; the Rust's index of each must be its position plus `first`.
fn values_of(points: &[ChartPoint], first: usize) -> Vec<f64> {
    for (position, point) in points.iter().enumerate() {
        assert_eq!(point.index, position + first, "the Rust numbers its points otherwise");
    }
    points.iter().map(|p| p.value).collect()
}

fn marks_of(points: &[ChartPoint]) -> Vec<u16> {
    let of_point = |p: &ChartPoint| p.violations.iter().fold(0, |m, &t| m | bit_of(t));
    points.iter().map(of_point).collect()
}

/// The Rust's list of violations must go by series, index and test, as 01's V lines do: then the
/// marks of each point say all that the list says.
fn expect_order(chart: &dyn ControlChart, dispersion: &[ChartPoint]) {
    let mut by_marks = Vec::new();
    for point in chart.points().iter().chain(dispersion) {
        let mut tests = point.violations.clone();
        tests.sort_by_key(|&t| bit_of(t));
        by_marks.extend(tests.into_iter().map(|t| (point.index, t)));
    }
    let violations = chart.violations();
    let listed = violations.iter().map(|v| (v.point_index, v.violation_type));
    assert!(listed.eq(by_marks), "the Rust lists its violations in another order");
}
