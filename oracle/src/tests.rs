//! 01's worked examples through the published Rust, the set of its new charts, 02's stops, width modes and attribute charts,
//! and the reader of lists.

use crate::case::{
    AddingCase, Answer, Attribute, AttributesCase, Case, ChartCase, Evaluation, Limits, MarksCase,
    ModedChart, ModedMarks, Record, StoppedChart, StoppedMarks,
};
use crate::cases::{self, Part};
use crate::widths::{self, Mode};
use crate::{attributes, by_01, check, format, judge, report, smaller, stops};
use u_analytics::spc::rules::RuleSet;
use u_analytics::spc::variables::{IndividualMRChart, XBarRChart, XBarSChart};

const ALL: u16 = 511;
const LIMITS: Limits = Limits { ucl: 28.0, cl: 25.0, lcl: 22.0 };

// ---- 01's table of worked examples -----------------------------------------

fn marks_under(limits: Limits, set: u16, values: &[f64]) -> Vec<u16> {
    judge::marks(&MarksCase { set, limits, values: values.to_vec() })
}

/// Whether the test of bit `bit` stands at each position.
fn standing(bit: u16, limits: Limits, values: &[f64]) -> Vec<bool> {
    marks_under(limits, ALL, values).iter().map(|m| m & (1 << bit) != 0).collect()
}

/// The positions where the test of bit `bit` stands.
fn places(bit: u16, values: &[f64]) -> Vec<usize> {
    let stands = standing(bit, LIMITS, values);
    (0..values.len()).filter(|&i| stands[i]).collect()
}

#[test]
fn row_1_nine_on_one_side() {
    assert_eq!(places(1, &[26.0; 9]), [8]);
    assert_eq!(places(1, &[26.0; 8]), []);
}

#[test]
fn row_2_a_point_on_cl_ends_a_run() {
    let mut values = [26.0; 9];
    values[4] = 25.0;
    assert_eq!(places(1, &values), []);
}

#[test]
fn row_3_fifteen_within_no_width() {
    let level = Limits { ucl: 25.0, cl: 25.0, lcl: 25.0 };
    let mut fifteen = [false; 15];
    fifteen[14] = true;
    assert_eq!(standing(6, level, &[25.0; 15]), fifteen);
    assert_eq!(standing(6, level, &[25.0; 14]), [false; 14]);
}

#[test]
fn row_4_six_rising() {
    assert_eq!(places(2, &[1.0, 2.0, 3.0, 4.0, 5.0, 6.0]), [5]);
    assert_eq!(places(2, &[1.0, 2.0, 3.0, 3.0, 4.0, 5.0]), []);
}

#[test]
fn row_5_fourteen_alternating() {
    let values: Vec<f64> = (0..14).map(|i| [24.0, 26.0][i % 2]).collect();
    assert_eq!(places(3, &values), [13]);
    assert_eq!(places(3, &values[..13]), []);
}

#[test]
fn row_6_beyond_the_limit() {
    assert_eq!(places(0, &[28.0]), []);
    assert_eq!(places(0, &[28.5]), [0]);
}

#[test]
fn row_7_two_of_three() {
    assert_eq!(places(4, &[27.5, 25.0, 27.5]), [2]);
    assert_eq!(places(4, &[27.0, 25.0, 27.0]), []);
}

#[test]
fn row_8_two_of_three_on_two_sides() {
    assert_eq!(places(4, &[27.5, 25.0, 22.5]), []);
}

/// 01's mark sheet of given marks.
fn sheet(set: u16, marks: &[u16]) -> Vec<u8> {
    let mut out = Vec::new();
    let marked = marks.iter().filter(|&&m| m != 0).count();
    for number in [marks.len(), usize::from(set), marked] {
        format::put(&mut out, number as u64);
    }
    let mut skipped = 0;
    for &m in marks {
        if m == 0 {
            skipped += 1;
        } else {
            format::put(&mut out, skipped);
            format::put(&mut out, m.into());
            skipped = 0;
        }
    }
    out
}

#[test]
fn row_10_the_sheet_of_ten() {
    let nelson = 255;
    let said = [
        0x0a, 0xff, 0x01, 0x06, 0x04, 0x20, 0x00, 0x20, 0x00, 0x20, 0x00, 0xa0, 0x01, 0x00, 0xa2, 0x01, 0x00,
        0xa2, 0x01,
    ];
    assert_eq!(sheet(nelson, &marks_under(LIMITS, nelson, &[26.5; 10])), said);
}

/// Everything else that 01's table says: its patterns, window by window.
#[test]
fn the_rust_marks_as_01_has_it() {
    for case in cases::list(Part::Marks).into_iter().chain(cases::fresh(Part::Marks, 2000, 11)) {
        let c = match case {
            Case::Marks(c) => c,
            Case::StoppedMarks(c) => c.marks,
            Case::ModedMarks(c) => c.stopped.marks,
            _ => panic!("marks were asked for"),
        };
        let by_01 = Answer::Marks(by_01::marks(&c, &widths::of(&c.limits, Mode::Old), |_| true));
        assert_eq!(check::disagreements(&[(Case::Marks(c), by_01)]), Vec::<String>::new());
    }
}

// ---- sets and charts -------------------------------------------------------

#[test]
fn named_sets_have_01s_numbers() {
    assert_eq!(judge::rule_set(1), RuleSet::shewhart());
    assert_eq!(judge::rule_set(255), RuleSet::nelson());
    assert_eq!(judge::rule_set(305), RuleSet::western_electric());
    assert_eq!(judge::rule_set(0), RuleSet::none());
}

fn chart(kind: u8, size: usize, set: u16, values: &[f64]) -> ChartCase {
    ChartCase { kind, size, set, values: values.to_vec() }
}

fn evaluated(case: ChartCase) -> Evaluation {
    match judge::answer(&Case::Chart(case)) {
        Answer::Evaluated(e) => e,
        _ => panic!("the chart was refused"),
    }
}

fn refusal(case: ChartCase) -> u8 {
    match judge::answer(&Case::Chart(case)) {
        Answer::Refused(number) => number,
        _ => panic!("the chart was evaluated"),
    }
}

#[test]
fn three_observations_of_a_tenth_are_all_beyond() {
    let e = evaluated(chart(1, 1, 1, &[0.1; 3]));
    assert_eq!(e.main_limits.bits(), [0.10000000000000002f64.to_bits(); 3]);
    assert_eq!(e.main_marks, [1, 1, 1]);
    assert_eq!(e.dispersion_marks, [0, 0]);
    assert_eq!((e.number_of_marks, e.in_control), (3, false));
}

#[test]
fn the_report_of_01_has_three_marks() {
    let e = evaluated(chart(1, 1, 64, &[8.0; 16]));
    assert_eq!(e.main_limits.bits(), [8.0f64.to_bits(); 3]);
    assert_eq!(e.dispersion_limits.bits(), [0; 3]);
    // Positions 14 and 15, and 14 on the moving ranges: 01's V lines count that one as 15.
    assert_eq!((e.main_marks[14], e.main_marks[15], e.dispersion_marks[14]), (64, 64, 64));
    assert_eq!(e.number_of_marks, 3);
}

#[test]
fn row_14_a_moving_range_of_zeros_is_positive() {
    assert_eq!(evaluated(chart(1, 1, 1, &[0.0, -0.0])).dispersion[0].to_bits(), 0);
}

#[test]
fn too_few_is_8_and_not_finite_is_7() {
    assert_eq!(refusal(chart(1, 1, 1, &[])), 8);
    assert_eq!(refusal(chart(1, 1, 1, &[25.0])), 8);
    assert_eq!(refusal(chart(2, 2, 1, &[])), 8);
    assert_eq!(refusal(chart(3, 2, 1, &[])), 8);
    for kind in [2, 3] {
        assert_eq!(refusal(chart(kind, 2, 1, &[f64::MAX, -f64::MAX])), 7);
        assert_eq!(refusal(chart(kind, 2, 1, &[f64::MAX, f64::MAX])), 7);
    }
}

/// docs/DIFFERENCES.md has it: ours has nelson since 02's R-6, so the judge and our replay both name the set.
#[test]
fn a_new_chart_of_the_rust_has_shewhart() {
    assert_eq!(IndividualMRChart::new().rules(), RuleSet::shewhart());
    for size in 2..=25 {
        assert_eq!(XBarRChart::new(size).unwrap().rules(), RuleSet::shewhart());
        assert_eq!(XBarSChart::new(size).unwrap().rules(), RuleSet::shewhart());
    }
}

/// The judge names the set last; naming it before the samples gives the same.
#[test]
fn the_set_may_be_named_first() {
    for case in cases::fresh(Part::Charts, 300, 5) {
        let Case::Chart(c) = &case else { continue };
        let set = judge::rule_set(c.set);
        let first = match c.kind {
            1 => {
                let r = judge::filled(IndividualMRChart::new().with_rules(set), c);
                judge::told(&r, r.mr_limits(), r.mr_points(), 1, r.sigma_hat(), r.sigma_hat_df())
            }
            2 => {
                let r = judge::filled(XBarRChart::new(c.size).unwrap().with_rules(set), c);
                judge::told(&r, r.r_limits(), r.r_points(), 0, r.sigma_hat(), r.sigma_hat_df())
            }
            _ => {
                let r = judge::filled(XBarSChart::new(c.size).unwrap().with_rules(set), c);
                judge::told(&r, r.s_limits(), r.s_points(), 0, r.sigma_hat(), r.sigma_hat_df())
            }
        };
        assert_eq!(check::disagreements(&[(case, first)]), Vec::<String>::new());
    }
}

// ---- stops -----------------------------------------------------------------

fn stopped(moving: bool, stops: &[u64], values: &[f64]) -> Answer {
    let marks = MarksCase { set: ALL, limits: LIMITS, values: values.to_vec() };
    stops::marks(&StoppedMarks { moving, stops: stops.to_vec(), marks }, 0)
}

/// The positions where the test of bit `bit` stands in spite of the stops.
fn stopped_places(bit: u16, moving: bool, stops: &[u64], values: &[f64]) -> Vec<usize> {
    match stopped(moving, stops, values) {
        Answer::Marks(marks) => (0..marks.len()).filter(|&i| marks[i] & (1 << bit) != 0).collect(),
        _ => panic!("the stops were refused"),
    }
}

#[test]
fn a_stop_breaks_the_windows_that_hold_both_its_sides() {
    assert_eq!(stopped_places(1, false, &[], &[26.0; 11]), [8, 9, 10]);
    assert_eq!(stopped_places(1, false, &[1], &[26.0; 11]), [9, 10]);
    assert_eq!(stopped_places(1, false, &[2], &[26.0; 11]), [10]);
    assert_eq!(stopped_places(1, false, &[3], &[26.0; 11]), []);
    assert_eq!(stopped_places(1, false, &[9], &[26.0; 11]), [8]);
    assert_eq!(stopped_places(1, false, &[10], &[26.0; 11]), [8, 9]);
}

#[test]
fn two_of_three_may_not_reach_over_a_stop() {
    assert_eq!(stopped_places(4, false, &[1], &[27.5, 27.5, 27.5, 27.5]), [3]);
    assert_eq!(stopped_places(4, false, &[2], &[27.5, 27.5, 27.5, 27.5]), []);
}

#[test]
fn a_straddled_range_stands_alone() {
    assert_eq!(stopped_places(1, true, &[1], &[26.0; 11]), [9, 10]);
    assert_eq!(stopped_places(1, true, &[2], &[26.0; 11]), [10]);
    assert_eq!(stopped_places(1, true, &[9], &[26.0; 11]), []);
    assert_eq!(stopped_places(1, true, &[10], &[26.0; 11]), [8]);
    assert_eq!(stopped_places(1, true, &[11], &[26.0; 11]), [8, 9]);
    assert_eq!(stopped_places(0, true, &[1, 2, 3], &[28.5; 3]), [0, 1, 2]);
}

#[test]
fn bad_stops_are_15() {
    let refused = |moving, stops: &[u64], n: usize| match stopped(moving, stops, &vec![26.0; n]) {
        Answer::Refused(number) => number == 15,
        _ => false,
    };
    for moving in [false, true] {
        for stops in [&[0][..], &[2, 2], &[3, 2], &[1, 7], &[u64::MAX]] {
            assert!(refused(moving, stops, 5), "{stops:?}");
        }
        assert!(!refused(moving, &[1, 2, 4], 5));
        assert!(!refused(moving, &[], 0) && refused(moving, &[1], 0));
    }
    assert!(refused(false, &[5], 5) && !refused(true, &[5], 5) && refused(true, &[6], 5));
}

fn stopped_chart(count: u64, list: &[u64], chart: ChartCase) -> Answer {
    stops::chart(&StoppedChart { count, list: list.to_vec(), chart }, 0)
}

#[test]
fn of_a_charts_series_only_the_individuals_dispersion_is_a_moving_range() {
    let marks = |kind: u8, stop: u64| {
        let case = chart(kind, if kind == 1 { 1 } else { 2 }, 64, &[8.0; 16].repeat(kind.min(2).into()));
        match stopped_chart(1, &[stop], case) {
            Answer::Evaluated(e) => (e.main_marks[15], e.dispersion_marks.last().copied(), e.number_of_marks),
            _ => panic!("the chart was refused"),
        }
    };
    // Fifteen moving ranges, of which the first straddles the stop.
    assert_eq!(marks(1, 1), (64, Some(0), 1));
    for kind in [2, 3] {
        assert_eq!(marks(kind, 1), (64, Some(64), 2));
        assert_eq!(marks(kind, 8), (0, Some(0), 0));
    }
}

#[test]
fn bad_stops_stand_before_too_few_and_not_in_the_figures() {
    let number =
        |count: u64, list: &[u64], values: &[f64]| match stopped_chart(count, list, chart(1, 1, 1, values)) {
            Answer::Apart(number, figures) => (number, figures.map(|f| f.is_ok())),
            Answer::Refused(number) => (number, [false; 2]),
            _ => (0, [true; 2]),
        };
    assert_eq!(number(0, &[], &[25.0]), (8, [false; 2]));
    assert_eq!(number(1, &[1], &[25.0]), (15, [false; 2]));
    assert_eq!(number(1, &[], &[25.0; 3]), (15, [true; 2]));
    assert_eq!(number(2, &[1, 2, 0], &[25.0; 3]), (0, [true; 2]));
    assert_eq!(number(3, &[1, 2, 0], &[25.0; 3]), (15, [true; 2]));
}

/// With no stops all is as before; with some the limits are, and no mark stands that did not.
#[test]
fn stops_take_marks_away_and_nothing_else() {
    for case in cases::list(Part::Charts).into_iter().chain(cases::fresh(Part::Charts, 600, 7)) {
        let chart = match &case {
            Case::Chart(c) => c,
            Case::StoppedChart(c) => &c.chart,
            // marks of their own by mode 1
            Case::ModedChart(_) => continue,
            _ => panic!("a chart was asked for"),
        };
        let plain = stopped_chart(0, &[0], chart.clone());
        assert_eq!(check::disagreements(&[(Case::Chart(chart.clone()), plain)]), Vec::<String>::new());
        if let (Answer::Evaluated(e), Answer::Evaluated(all)) = (judge::answer(&case), judge::chart(chart)) {
            assert_eq!(e.main_limits.bits(), all.main_limits.bits());
            assert_eq!(e.dispersion_limits.bits(), all.dispersion_limits.bits());
            assert!(are_among(&e.main_marks, &all.main_marks));
            assert!(are_among(&e.dispersion_marks, &all.dispersion_marks));
        }
    }
}

fn are_among(marks: &[u16], all: &[u16]) -> bool {
    marks.len() == all.len() && marks.iter().zip(all).all(|(m, a)| m & !a == 0)
}

// ---- width modes -----------------------------------------------------------

fn moded(width: u64, limits: Limits, stops: &[u64], values: &[f64]) -> Answer {
    let marks = MarksCase { set: ALL, limits, values: values.to_vec() };
    stops::marks(&StoppedMarks { moving: false, stops: stops.to_vec(), marks }, width)
}

/// The positions where the test of bit `bit` stands by that mode, under 31, 25, 22: one sigma above is 2, and
/// below by mode 1 it is 1.
fn moded_places(bit: u16, width: u64, values: &[f64]) -> Vec<usize> {
    match moded(width, Limits { ucl: 31.0, cl: 25.0, lcl: 22.0 }, &[], values) {
        Answer::Marks(marks) => (0..marks.len()).filter(|&i| marks[i] & (1 << bit) != 0).collect(),
        _ => panic!("the mode was refused"),
    }
}

#[test]
fn below_the_centre_mode_1_has_the_lower_limits_widths() {
    assert_eq!(moded_places(4, 0, &[22.5, 25.0, 22.5]), []);
    assert_eq!(moded_places(4, 1, &[22.5, 25.0, 22.5]), [2]);
    assert_eq!(moded_places(4, 1, &[23.0, 25.0, 23.0]), []);
    assert_eq!(moded_places(5, 0, &[23.5; 4].repeat(2)), []);
    assert_eq!(moded_places(5, 1, &[23.5; 5]), [4]);
    assert_eq!(moded_places(6, 0, &[23.5; 15]), [14]);
    assert_eq!(moded_places(6, 1, &[23.5; 15]), []);
    assert_eq!(moded_places(6, 1, &[24.0; 15]), [14]);
    assert_eq!(moded_places(7, 0, &[23.5; 8]), []);
    assert_eq!(moded_places(7, 1, &[23.5; 8]), [7]);
}

#[test]
fn above_the_centre_both_modes_are_one() {
    for width in [0, 1] {
        assert_eq!(moded_places(4, width, &[29.5, 25.0, 29.5]), [2]);
        assert_eq!(moded_places(4, width, &[29.0, 25.0, 29.0]), []);
        assert_eq!(moded_places(6, width, &[27.0; 15]), [14]);
        assert_eq!(moded_places(7, width, &[27.5; 8]), [7]);
    }
}

/// 'mode not 0 or 1', after 15.
#[test]
fn a_bad_mode_is_21() {
    let number = |width, stops: &[u64]| match moded(width, LIMITS, stops, &[26.0; 3]) {
        Answer::Refused(number) => number,
        _ => 0,
    };
    assert_eq!([0, 1, 2, 256, 257, u64::MAX].map(|width| number(width, &[1])), [0, 0, 21, 21, 21, 21]);
    assert_eq!([0, 1, 2, u64::MAX].map(|width| number(width, &[3])), [15; 4]);
}

#[test]
fn a_bad_mode_stands_before_too_few_and_not_in_the_figures() {
    let number = |list: &[u64], values: &[f64]| {
        let case =
            StoppedChart { count: list.len() as u64, list: list.to_vec(), chart: chart(1, 1, 1, values) };
        match stops::chart(&case, 2) {
            Answer::Apart(number, figures) => (number, figures.map(|f| f.is_ok())),
            _ => panic!("the mode was taken"),
        }
    };
    assert_eq!(number(&[], &[25.0]), (21, [false; 2]));
    assert_eq!(number(&[1], &[25.0; 3]), (21, [true; 2]));
    assert_eq!(number(&[3], &[25.0; 3]), (15, [true; 2]));
}

/// Mode 0 is the Rust's; and where ucl - cl and cl - lcl are the same f64, mode 1 is too.
#[test]
fn mode_0_and_symmetric_limits_are_the_rusts() {
    let mut symmetric = 0;
    for case in cases::list(Part::Marks).into_iter().chain(cases::fresh(Part::Marks, 2000, 12)) {
        let Case::Marks(c) = case else { continue };
        assert_eq!(marks_by(&c, 0), judge::marks(&c));
        if (c.limits.ucl - c.limits.cl).to_bits() == (c.limits.cl - c.limits.lcl).to_bits() {
            assert_eq!(marks_by(&c, 1), judge::marks(&c));
            symmetric += 1;
        }
    }
    assert!(symmetric > 500, "{symmetric}");
}

fn marks_by(c: &MarksCase, width: u64) -> Vec<u16> {
    match moded(width, c.limits, &[], &c.values) {
        Answer::Marks(marks) => marks.into_iter().map(|m| m & c.set).collect(),
        _ => panic!("the mode was refused"),
    }
}

// ---- attribute charts ------------------------------------------------------

fn attribute_record(attribute: Attribute, centre: Option<f64>, count: u64) -> Record {
    Record { attribute, centre: centre.map(f64::to_bits), count }
}

/// Evaluating's number, the centre, and the six slices, each one entry longer than there are samples.
fn plotted(attribute: Attribute, centre: Option<f64>, samples: &[(u64, u64)]) -> (u64, f64, Vec<Vec<u64>>) {
    let n = samples.len();
    let answer = attributes::evaluated(&AttributesCase {
        record: attribute_record(attribute, centre, n as u64),
        counts: samples.iter().map(|s| s.0).collect(),
        sizes: samples.iter().map(|s| s.1).collect(),
        rooms: [n + 1; 6],
    });
    let slices = answer[3..].chunks(n + 1).map(|slice| slice.to_vec()).collect();
    (answer[1], f64::from_bits(answer[2]), slices)
}

#[test]
fn a_point_on_a_limit_is_in_control() {
    let (number, centre, slices) = plotted(Attribute::P, Some(0.5), &[(27, 36), (28, 36), (9, 36), (8, 36)]);
    assert_eq!((number, centre), (0, 0.5));
    assert_eq!(slices[1], [0.75f64.to_bits(); 4].into_iter().chain([1]).collect::<Vec<_>>());
    assert_eq!(slices[2], [0.25f64.to_bits(); 4].into_iter().chain([1]).collect::<Vec<_>>());
    assert_eq!(slices[3], [0, 1, 0, 1, 1]);
    assert_eq!(slices[4][0], 3.0f64.to_bits());
}

#[test]
fn without_a_sigma_there_is_no_z() {
    let (number, centre, slices) = plotted(Attribute::P, None, &[(0, 10), (0, 5)]);
    assert_eq!((number, centre.to_bits()), (0, 0));
    assert_eq!(slices[4..], [vec![0, 0, 1], vec![0, 0, 1]]);
}

#[test]
fn an_infinite_sum_of_units_is_no_refusal_and_an_infinite_value_is() {
    let huge = f64::MAX.to_bits();
    let (number, centre, slices) = plotted(Attribute::U, None, &[(3, huge), (2, huge)]);
    assert_eq!((number, centre.to_bits()), (0, 0));
    assert_eq!(slices[3], [1, 1, 1]);
    let (number, centre, slices) = plotted(Attribute::U, None, &[(1, 1), (0, 1.0f64.to_bits())]);
    assert_eq!((number, centre), (7, 0.0));
    assert!(slices.iter().all(|slice| slice == &[0, 0, 0]));
}

/// The numbers of adding these samples one after another to a record, beside slices of two lengths.
fn added(record: Record, counts: usize, sizes: usize, samples: &[(u64, u64)]) -> Vec<u64> {
    let case = AddingCase { record, counts, sizes, samples: samples.to_vec() };
    attributes::added(&case)[1..=samples.len()].to_vec()
}

#[test]
fn adding_refuses_in_02s_order() {
    let over = 1 << 32;
    let bad = [(over, 0), (1, 0), (6, 5), (3, 100)];
    let of_p = |centre, count, room| added(attribute_record(Attribute::P, centre, count), room, room, &bad);
    assert_eq!(of_p(None, 2, 5), [16, 17, 18, 0]);
    assert_eq!(of_p(None, 2, 2), [16, 17, 18, 6]);
    assert_eq!(of_p(None, 4096, 4096), [16, 17, 18, 5]);
    assert_eq!(of_p(None, 4097, 4100), [14; 4]);
    assert_eq!(of_p(None, 3, 2), [14; 4]);
    assert_eq!(of_p(Some(1.0), 2, 5), [14; 4]);
    let nan = f64::NAN.to_bits();
    let of_u = |count, room| {
        added(attribute_record(Attribute::U, None, count), room, room, &[(over, nan), (1, nan), (1, 1)])
    };
    assert_eq!(of_u(0, 1), [16, 19, 0]);
    assert_eq!(of_u(0, 0), [16, 19, 6]);
    assert_eq!(of_u(4096, 4096), [16, 19, 5]);
}

#[test]
fn evaluating_refuses_in_02s_order() {
    let least = 1;
    let number = |centre: Option<f64>, count: u64, units: u64, room: usize| {
        let record = attribute_record(Attribute::U, centre, count);
        attributes::evaluated(&AttributesCase {
            record,
            counts: vec![1],
            sizes: vec![units],
            rooms: [room; 6],
        })[1]
    };
    assert_eq!(number(None, 1, 1.0f64.to_bits(), 1), 0);
    assert_eq!(number(None, 1, least, 1), 7);
    assert_eq!(number(None, 1, least, 0), 6);
    assert_eq!(number(None, 0, least, 0), 8);
    assert_eq!(number(Some(-1.0), 0, least, 0), 14);
    assert_eq!(number(Some(-1.0), 1, least, 0), 14);
    assert_eq!(number(None, 2, least, 0), 14);
    assert_eq!(number(None, 1, 0, 0), 14);
}

/// Every number of each call stands in the stored list, of P and of U.
#[test]
fn the_stored_attribute_cases_have_every_refusal() {
    let mut seen = std::collections::BTreeSet::new();
    for case in cases::list(Part::Attributes) {
        match &case {
            Case::Adding(c) => {
                let numbers = attributes::added(c);
                let per_unit = matches!(c.record.attribute, Attribute::U);
                seen.insert((per_unit, "making", numbers[0]));
                seen.extend(numbers[1..=c.samples.len()].iter().map(|&n| (per_unit, "adding", n)));
            }
            Case::Attributes(c) => {
                let numbers = attributes::evaluated(c);
                let per_unit = matches!(c.record.attribute, Attribute::U);
                seen.insert((per_unit, "evaluating", numbers[1]));
            }
            _ => panic!("an attribute case was asked for"),
        }
    }
    let expected = |per_unit: bool, call: &'static str, numbers: &[u64]| {
        numbers.iter().map(|&n| (per_unit, call, n)).collect::<Vec<_>>()
    };
    let mut all = expected(false, "adding", &[0, 5, 6, 14, 16, 17, 18]);
    all.extend(expected(true, "adding", &[0, 5, 6, 14, 16, 19]));
    // P never reaches 7
    all.extend(expected(false, "evaluating", &[0, 6, 8, 14]));
    all.extend(expected(true, "evaluating", &[0, 6, 7, 8, 14]));
    all.extend([false, true].into_iter().flat_map(|u| expected(u, "making", &[0, 20])));
    assert_eq!(seen, all.into_iter().collect());
}

// ---- lists -----------------------------------------------------------------

fn bytes_of(cases: Vec<Case>) -> Vec<u8> {
    let judged: Vec<_> = cases.into_iter().map(|c| (c.clone(), judge::answer(&c))).collect();
    format::write(&judged).remove(0)
}

/// A marks case of one value, 28.5, under 28, 25, 22 and set 1.
fn short_list() -> Vec<u8> {
    bytes_of(vec![Case::Marks(MarksCase { set: 1, limits: LIMITS, values: vec![28.5] })])
}

fn fault_of(bytes: &[u8]) -> (usize, String) {
    let fault = format::read(bytes).err().expect("the bytes are no list");
    (fault.at, fault.why)
}

#[test]
fn the_example_of_format_md() {
    let said = [
        0x01, 0x01, 0x01, 0x01, // format, cases, tag, set
        0x80, 0x80, 0x80, 0x80, 0x80, 0x80, 0x80, 0x9e, 0x40, // ucl
        0x80, 0x80, 0x80, 0x80, 0x80, 0x80, 0xc0, 0x9c, 0x40, // cl
        0x80, 0x80, 0x80, 0x80, 0x80, 0x80, 0x80, 0x9b, 0x40, // lcl
        0x01, 0x80, 0x80, 0x80, 0x80, 0x80, 0x80, 0xa0, 0x9e, 0x40, // one value
        0x01, 0x00, // its marks, end
    ];
    assert_eq!(short_list(), said);
}

#[test]
fn a_list_reads_back_as_it_was_written() {
    for part in [Part::Marks, Part::Charts, Part::Attributes] {
        let bytes = bytes_of(cases::fresh(part, 50, 3));
        let read = format::read(&bytes).expect("a list");
        assert_eq!(format::write(&read).remove(0), bytes);
    }
}

#[test]
fn a_number_over_64_bits_or_too_long_is_refused() {
    let most = [0xff, 0xff, 0xff, 0xff, 0xff, 0xff, 0xff, 0xff, 0xff, 0x01];
    let mut over = most;
    over[9] = 0x02;
    assert_eq!(fault_of(&[1, 0x80, 0x00]), (1, "number of cases is longer than its shortest form".into()));
    assert_eq!(fault_of(&[&[1][..], &over].concat()), (1, "number of cases is over 64 bits".into()));
    let stated = fault_of(&[&[1][..], &most, &[0]].concat());
    assert_eq!(stated, (1, "18446744073709551615 cases are stated, 0 stand there".into()));
}

#[test]
fn every_cut_is_refused_at_the_number_it_cuts() {
    let whole = short_list();
    for n in 0..whole.len() {
        let (at, why) = fault_of(&whole[..n]);
        assert!(at <= n && why.starts_with("the bytes end at"), "cut at {n}: {at}, {why}");
    }
    assert_eq!(fault_of(&whole[..8]), (4, "the bytes end at ucl".into()));
}

#[test]
fn a_number_out_of_place_is_refused() {
    let whole = short_list();
    let changed = |at: usize, byte: u8| {
        let mut bytes = whole.clone();
        bytes[at] = byte;
        fault_of(&bytes)
    };
    assert_eq!(changed(0, 2), (0, "format number is 2, not 1 to 1".into()));
    assert_eq!(changed(1, 2), (1, "2 cases are stated, 1 stand there".into()));
    assert_eq!(changed(2, 12), (2, "tag is 12, not 0 to 11".into()));
    let more = [&whole[..], &[0, 0]].concat();
    assert_eq!(fault_of(&more), (whole.len(), "2 bytes are left over".into()));
    assert_eq!(fault_of(&[1, 1, 2, 4]), (3, "kind is 4, not 1 to 3".into()));
    assert_eq!(fault_of(&[1, 1, 2, 2, 26]), (4, "size is 26, not 2 to 25".into()));
    assert_eq!(fault_of(&[1, 1, 2, 1, 1, 0x80, 0x04]), (5, "set is 512, not 0 to 511".into()));
    assert_eq!(fault_of(&[1, 1, 2, 1, 1, 1, 0, 9]), (7, "answer is 9, not one of [0, 7, 8]".into()));
    assert_eq!(fault_of(&[1, 1, 4, 2]), (3, "moving is 2, not 0 to 1".into()));
    assert_eq!(fault_of(&[1, 1, 4, 0, 0x81, 0x20]), (4, "number of stops is 4097, not 0 to 4096".into()));
    assert_eq!(fault_of(&[1, 1, 4, 0, 1]), (5, "the bytes end at stop".into()));
    assert_eq!(fault_of(&[1, 1, 4, 0, 0, 0, 0, 0, 0, 0, 7]), (10, "answer is 7, not one of [0, 15]".into()));
    assert_eq!(
        fault_of(&[1, 1, 5, 0, 0, 1, 1, 1, 0, 9]),
        (9, "answer is 9, not one of [0, 7, 8, 15]".into())
    );
    assert_eq!(
        fault_of(&[1, 1, 5, 0, 0, 1, 1, 1, 0, 15, 15]),
        (10, "answer is 15, not one of [0, 7, 8]".into())
    );
    assert_eq!(fault_of(&[1, 1, 3, 2, 0]), (3, "the bytes end inside flow file".into()));
    assert_eq!(fault_of(&[1, 1, 6, 2]), (3, "given or not is 2, not 0 to 1".into()));
    assert_eq!(
        fault_of(&[1, 1, 9, 1, 5, 0, 0x85, 0x20]),
        (6, "length of a slice is 4101, not 0 to 4100".into())
    );
}

#[test]
fn a_value_that_is_not_finite_is_refused() {
    let mut bytes = vec![1, 1, 2, 1, 1, 1, 1];
    format::put(&mut bytes, f64::INFINITY.to_bits());
    assert_eq!(fault_of(&bytes), (7, "value is not finite".into()));
}

#[test]
fn a_wrong_mark_is_told_with_its_window() {
    let case = MarksCase { set: ALL, limits: LIMITS, values: vec![26.0; 12] };
    let mut marks = judge::marks(&case);
    marks[10] ^= 2;
    let told = check::disagreements(&[(Case::Marks(case), Answer::Marks(marks))]);
    let smallest = "smallest input: set 2, ucl 28.0, cl 25.0, lcl 22.0, 9 values [26.0 26.0 ";
    assert_eq!(told.len(), 1);
    assert!(told[0].starts_with("case 0: marks at 10: stored 256, right 258 (test 1)"), "{}", told[0]);
    assert!(told[0].contains(smallest), "{}", told[0]);
}

#[test]
fn smaller_cases_are_smaller() {
    let size = |case: &Case| match case {
        Case::Marks(c) => (c.values.len(), 0, c.set.count_ones()),
        Case::Chart(c) => (c.count(), 0, c.set.count_ones()),
        Case::StoppedMarks(c) => (c.marks.values.len(), c.stops.len(), c.marks.set.count_ones()),
        Case::StoppedChart(c) => (c.chart.count(), c.list.len(), c.chart.set.count_ones()),
        Case::ModedMarks(ModedMarks { stopped: c, .. }) => {
            (c.marks.values.len(), c.stops.len(), c.marks.set.count_ones())
        }
        Case::ModedChart(ModedChart { stopped: c, .. }) => {
            (c.chart.count(), c.list.len(), c.chart.set.count_ones())
        }
        Case::Adding(c) => (c.samples.len(), 0, 0),
        Case::Attributes(c) => (c.counts.len() + c.sizes.len(), 0, 0),
        Case::Flow(bytes) => (bytes.len(), 0, tests_of(bytes)),
    };
    for part in [Part::Marks, Part::Charts, Part::Attributes, Part::Reports] {
        for case in cases::fresh(part, 50, 1) {
            assert!(smaller::of(&case).iter().all(|s| size(s) < size(&case)));
        }
    }
}

/// How many tests the set of a flow file has; none where the bytes are no flow file.
fn tests_of(bytes: &[u8]) -> u32 {
    report::read(bytes).map_or(0, |case| case.set.count_ones())
}

// ---- reports ---------------------------------------------------------------

fn report_of(bytes: &[u8]) -> String {
    String::from_utf8(report::text(bytes)).expect("a report is text")
}

#[test]
fn the_worked_report() {
    let mut bytes = vec![0x01, 0x01, 0x40, 0x10];
    for _ in 0..16 {
        bytes.extend([0x80, 0x80, 0x80, 0x80, 0x80, 0x80, 0x80, 0x90, 0x40]);
    }
    let text = "C 1 1 64
L 0 4020000000000000 4020000000000000 4020000000000000
L 1 0000000000000000 0000000000000000 0000000000000000
V 0 14 6
V 0 15 6
V 1 15 6
E 3
";
    assert_eq!(report_of(&bytes), text);
}

#[test]
fn a_header_number_is_judged_before_the_next_is_read() {
    assert_eq!(report_of(&[1, 2]), "R 1\n");
    assert_eq!(report_of(&[4]), "R 12\n");
    assert_eq!(report_of(&[1, 1, 0x80, 0x04]), "R 4\n");
    assert_eq!(report_of(&[1, 1, 1, 0x81, 0x10]), "R 5\n");
    assert_eq!(report_of(&[1, 1, 1]), "R 12\n");
}

#[test]
fn the_stored_reports_have_every_refusal_and_every_kind() {
    let texts: Vec<String> = (cases::list(Part::Reports).iter())
        .map(|case| match case {
            Case::Flow(bytes) => report_of(bytes),
            _ => unreachable!("a list of flow files"),
        })
        .collect();
    for line in ["R 1", "R 3", "R 4", "R 5", "R 7", "R 8", "R 12", "C 1 1 ", "C 2 25 ", "C 3 2 "] {
        assert!(texts.iter().any(|t| t.starts_with(line)), "no stored report begins with {line}");
    }
}
