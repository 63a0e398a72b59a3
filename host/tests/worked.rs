//! 01, 'Table to be proved': the rows that the library answers.

mod common;

use common::{marks_of, LIMITS};
use dramulenz::{check, root, write, Limits, Refusal, RuleSet};

/// The positions that show test `bit` under the limits 28, 25, 22.
fn shown(bit: u32, values: &[f64]) -> Vec<usize> {
    shown_under(LIMITS, bit, values)
}

fn shown_under(limits: Limits, bit: u32, values: &[f64]) -> Vec<usize> {
    let all = marks_of(values, limits, RuleSet(511)).expect("finite values, few");
    let alone = marks_of(values, limits, RuleSet(1 << bit)).expect("finite values, few");
    let positions = |marks: &[u16]| (0..marks.len()).filter(|&i| marks[i] & 1 << bit != 0).collect();
    let shown: Vec<usize> = positions(&all);
    assert_eq!(positions(&alone), shown, "a test is shown alike in every set");
    shown
}

#[test]
fn row_1_nine_on_one_side() {
    assert_eq!(shown(1, &[26.0; 9]), [8]);
    assert_eq!(shown(1, &[26.0; 8]), []);
}

#[test]
fn row_2_a_point_on_the_centre_ends_a_run() {
    let mut values = [26.0; 9];
    values[4] = 25.0;
    assert_eq!(shown(1, &values), []);
}

#[test]
fn row_3_fifteen_within_no_width() {
    let level = Limits { ucl: 25.0, cl: 25.0, lcl: 25.0 };
    assert_eq!(shown_under(level, 6, &[25.0; 15]), [14]);
    assert_eq!(shown_under(level, 6, &[25.0; 14]), []);
}

#[test]
fn row_4_six_rising() {
    assert_eq!(shown(2, &[1.0, 2.0, 3.0, 4.0, 5.0, 6.0]), [5]);
    assert_eq!(shown(2, &[1.0, 2.0, 3.0, 3.0, 4.0, 5.0]), []);
}

#[test]
fn row_5_fourteen_alternating() {
    let values: Vec<f64> = [24.0, 26.0].into_iter().cycle().take(14).collect();
    assert_eq!(shown(3, &values), [13]);
    assert_eq!(shown(3, &values[..13]), []);
}

#[test]
fn row_6_beyond_a_limit_not_on_it() {
    assert_eq!(shown(0, &[28.0]), []);
    assert_eq!(shown(0, &[28.5]), [0]);
}

#[test]
fn row_7_two_of_three() {
    assert_eq!(shown(4, &[27.5, 25.0, 27.5]), [2]);
    assert_eq!(shown(4, &[27.0, 25.0, 27.0]), []);
}

#[test]
fn row_8_two_of_three_on_one_side_only() {
    assert_eq!(shown(4, &[27.5, 25.0, 22.5]), []);
}

#[test]
fn row_10_the_sheet_of_ten() {
    let right = [
        0x0a, 0xff, 0x01, 0x06, 0x04, 0x20, 0x00, 0x20, 0x00, 0x20, 0x00, 0xa0, 0x01, 0x00, 0xa2, 0x01, 0x00,
        0xa2, 0x01,
    ];
    let mut room = [0; 19];
    assert_eq!(write(&[26.5; 10], LIMITS, RuleSet::NELSON, &mut room), Ok(19));
    assert_eq!(room, right);
    assert_eq!(check(&[26.5; 10], LIMITS, RuleSet::NELSON, &right), Ok(()));
}

#[test]
fn row_11_the_sheet_of_none() {
    let mut room = [9; 4];
    assert_eq!(write(&[], LIMITS, RuleSet::SHEWHART, &mut room), Ok(3));
    assert_eq!(room, [0, 1, 0, 9]);
    assert_eq!(check(&[], LIMITS, RuleSet::SHEWHART, &[0, 1, 0]), Ok(()));
    assert_eq!(marks_of(&[], LIMITS, RuleSet::SHEWHART), Ok(vec![]));
}

#[test]
fn row_12_a_number_has_one_form() {
    let long = [0x80, 0x00, 0x01, 0x00];
    assert_eq!(check(&[], LIMITS, RuleSet::SHEWHART, &long), Err(Refusal::Form { at: 0 }));
    let mut room = [0; 4];
    assert_eq!(write(&[25.0; 127], LIMITS, RuleSet::SHEWHART, &mut room), Ok(3));
    assert_eq!(room, [0x7f, 1, 0, 0]);
    assert_eq!(write(&[25.0; 128], LIMITS, RuleSet::SHEWHART, &mut room), Ok(4));
    assert_eq!(room, [0x80, 0x01, 1, 0]);
}

#[test]
fn row_13_roots() {
    assert_eq!(root(4.0), Ok(2.0));
    assert_eq!(root(f64::from_bits(1)), Ok(f64::from_bits((1023 - 537) << 52)));
}

#[test]
fn a_root_is_the_nearest_or_refused() {
    let mut random = common::Random(7);
    for _ in 0..1000 {
        let x = f64::from_bits(random.bits() & (u64::MAX >> 1));
        // IEEE 754 has the machine's root be the nearest too.
        let right = if x.is_finite() { Ok(x.sqrt()) } else { Err(Refusal::NotFinite) };
        assert_eq!(root(x), right, "of {:#x}", x.to_bits());
    }
    for zero in [0.0, -0.0f64] {
        assert_eq!(root(zero).map(f64::to_bits), Ok(zero.to_bits()));
    }
    for x in [f64::INFINITY, f64::NEG_INFINITY, f64::NAN, -f64::NAN, -1.0, f64::from_bits(1 << 63 | 1)] {
        assert_eq!(root(x), Err(Refusal::NotFinite));
    }
}
