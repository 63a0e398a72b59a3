//! Every refusal: when it is given, before which others, and that slices stay as they were.

mod common;

use common::{sheet_of, LIMITS};
use dramulenz::{bytes, check, mark, write, Limits, Refusal, RuleSet, MOST_POINTS};

const FEW: &[f64] = &[25.0, 28.5, 25.0];
const NELSON: RuleSet = RuleSet::NELSON;
const OVER: RuleSet = RuleSet(512);

/// Patterns of f64 that are not finite: the infinities, and NaNs quiet and signalling of both signs.
const NOT_FINITE: [u64; 8] = [
    0x7ff0_0000_0000_0000,
    0xfff0_0000_0000_0000,
    0x7ff8_0000_0000_0000,
    0xfff8_0000_0000_0000,
    0x7ff0_0000_0000_0001,
    0xfff0_0000_0000_0001,
    0x7fff_ffff_ffff_ffff,
    0xffff_ffff_ffff_ffff,
];

/// Marking, writing and checking all refuse so, and leave what they are lent.
fn all_refuse(values: &[f64], limits: Limits, set: RuleSet, why: Refusal) {
    for room in [0, values.len(), values.len() + 3] {
        let mut marks = vec![0xabcd; room];
        assert_eq!(mark(values, limits, set, &mut marks), Err(why));
        assert!(marks.iter().all(|&m| m == 0xabcd));
    }
    for room in [0, 3, 5 * values.len() + 8] {
        let mut out = vec![0xab; room];
        assert_eq!(write(values, limits, set, &mut out), Err(why));
        assert!(out.iter().all(|&b| b == 0xab));
    }
    for sheet in [&[][..], &[0x80, 0], &[3, 1, 0]] {
        assert_eq!(check(values, limits, set, sheet), Err(why));
    }
}

#[test]
fn too_many_comes_first() {
    let mut many = vec![25.0; MOST_POINTS + 1];
    all_refuse(&many, LIMITS, NELSON, Refusal::TooMany);
    many[7] = f64::NAN;
    all_refuse(&many, Limits { cl: f64::NAN, ..LIMITS }, OVER, Refusal::TooMany);
}

#[test]
fn the_most_points_are_taken() {
    let most = vec![28.5; MOST_POINTS];
    let mut marks = vec![0; MOST_POINTS];
    assert_eq!(mark(&most, LIMITS, RuleSet::SHEWHART, &mut marks), Ok(()));
    assert!(marks.iter().all(|&m| m == 1));
    let sheet = sheet_of(RuleSet::SHEWHART, &marks);
    assert_eq!(check(&most, LIMITS, RuleSet::SHEWHART, &sheet), Ok(()));
    let mut out = vec![0; sheet.len()];
    assert_eq!(write(&most, LIMITS, RuleSet::SHEWHART, &mut out), Ok(sheet.len()));
    assert_eq!(out, sheet);
}

#[test]
fn a_set_too_large_comes_before_what_is_not_finite() {
    for set in [512, 513, 1 << 16, 1 << 16 | 1, u32::MAX] {
        all_refuse(FEW, LIMITS, RuleSet(set), Refusal::SetTooLarge);
        all_refuse(&[f64::NAN], Limits { ucl: f64::NAN, ..LIMITS }, RuleSet(set), Refusal::SetTooLarge);
    }
    let mut marks = [0; 3];
    assert_eq!(mark(FEW, LIMITS, RuleSet(511), &mut marks), Ok(()));
}

#[test]
fn not_finite_wherever_it_stands() {
    for pattern in NOT_FINITE {
        let x = f64::from_bits(pattern);
        for limits in [Limits { ucl: x, ..LIMITS }, Limits { cl: x, ..LIMITS }, Limits { lcl: x, ..LIMITS }] {
            all_refuse(FEW, limits, NELSON, Refusal::NotFinite);
            all_refuse(&[], limits, RuleSet::NONE, Refusal::NotFinite);
        }
        for at in 0..20 {
            let mut values = [25.0; 20];
            values[at] = x;
            all_refuse(&values, LIMITS, NELSON, Refusal::NotFinite);
            all_refuse(&values, LIMITS, RuleSet::NONE, Refusal::NotFinite);
        }
    }
}

#[test]
fn the_ends_of_what_is_finite_are_taken() {
    let values = [f64::MAX, f64::MIN, -0.0, f64::MIN_POSITIVE, f64::from_bits(1)];
    let wide = Limits { ucl: f64::MAX, cl: f64::MIN, lcl: 0.0 };
    let mut marks = [0; 5];
    assert_eq!(mark(&values, wide, RuleSet::SHEWHART, &mut marks), Ok(()));
    assert_eq!(marks, [0, 1, 0, 0, 0]);
}

#[test]
fn room_for_marks_one_short() {
    for n in [1, 2, 15, 100] {
        let values = vec![28.5; n];
        let mut marks = vec![7; n - 1];
        assert_eq!(mark(&values, LIMITS, NELSON, &mut marks), Err(Refusal::TooShort));
        assert!(marks.iter().all(|&m| m == 7));
    }
}

#[test]
fn room_for_a_sheet_one_short() {
    let sheet = sheet_of(RuleSet::SHEWHART, &[0, 1, 0]);
    for room in 0..sheet.len() {
        let mut out = vec![0xab; room];
        assert_eq!(write(FEW, LIMITS, RuleSet::SHEWHART, &mut out), Err(Refusal::TooShort));
        assert!(out.iter().all(|&b| b == 0xab));
    }
}

#[test]
fn what_lies_past_the_answer_is_untouched() {
    let mut marks = [7; 5];
    assert_eq!(mark(FEW, LIMITS, RuleSet::SHEWHART, &mut marks), Ok(()));
    assert_eq!(marks, [0, 1, 0, 7, 7]);
    let mut out = [7; 8];
    assert_eq!(write(FEW, LIMITS, RuleSet::SHEWHART, &mut out), Ok(5));
    assert_eq!(out, [3, 1, 1, 1, 1, 7, 7, 7]);
}

/// Of a sheet's faults: the byte at which it is told.
#[test]
fn form_faults_and_their_places() {
    let fault = |sheet: &[u8]| match check(FEW, LIMITS, RuleSet::SHEWHART, sheet) {
        Err(Refusal::Form { at }) => at,
        other => panic!("{sheet:?} is answered {other:?}"),
    };
    assert_eq!(fault(&[]), 0);
    assert_eq!(fault(&[0x80]), 0);
    assert_eq!(fault(&[3]), 1);
    assert_eq!(fault(&[3, 0x81, 0x80, 0, 0]), 1);
    assert_eq!(fault(&[0x81, 0x20, 1, 0]), 0); // 4,097 points
    assert_eq!(fault(&[3, 0x80, 0x04, 0]), 1); // set 512
    assert_eq!(fault(&[3, 1, 4]), 2); // four of three marked
    assert_eq!(fault(&[3, 1, 1, 3, 1]), 3); // past the last
    assert_eq!(fault(&[3, 1, 1, 1, 0]), 4); // no mark
    assert_eq!(fault(&[3, 1, 1, 1, 2]), 4); // a mark outside the set
    assert_eq!(fault(&[3, 1, 1, 1]), 4);
    assert_eq!(fault(&[3, 1, 1, 1, 1, 0]), 5); // left over
    assert_eq!(fault(&[0xff; 11]), 0); // over 64 bits
}

#[test]
fn a_sheet_about_something_else_differs() {
    let answer = |set, marks: &[u16]| check(FEW, LIMITS, RuleSet::SHEWHART, &sheet_of(set, marks));
    assert_eq!(answer(RuleSet::SHEWHART, &[0, 1, 0]), Ok(()));
    assert_eq!(answer(RuleSet::SHEWHART, &[0, 1]), Err(Refusal::Differs));
    assert_eq!(answer(RuleSet::SHEWHART, &[0, 1, 0, 0]), Err(Refusal::Differs));
    assert_eq!(answer(NELSON, &[0, 1, 0]), Err(Refusal::Differs));
    // Form comes before it, and it before wrong marks.
    let mut longer = sheet_of(NELSON, &[0, 1, 0]);
    longer.push(0);
    assert_eq!(check(FEW, LIMITS, RuleSet::SHEWHART, &longer), Err(Refusal::Form { at: 6 }));
    assert_eq!(answer(NELSON, &[1, 0, 0]), Err(Refusal::Differs));
}

#[test]
fn odd_lengths_of_bytes_come_before_everything() {
    for length in (0..40).chain([8 * MOST_POINTS + 1, 8 * MOST_POINTS + 15]).filter(|n| n % 8 != 0) {
        let values = vec![0xff; length];
        for (limits, set) in [(LIMITS, NELSON), (Limits { ucl: f64::NAN, ..LIMITS }, OVER)] {
            let mut room = [0xab; 80];
            assert_eq!(bytes::mark(&values, limits, set, &mut room), Err(Refusal::Length));
            assert_eq!(bytes::write(&values, limits, set, &mut room), Err(Refusal::Length));
            assert_eq!(room, [0xab; 80]);
            assert_eq!(bytes::check(&values, limits, set, &room), Err(Refusal::Length));
        }
    }
}

#[test]
fn odd_rooms_of_bytes() {
    let values: Vec<u8> = FEW.iter().flat_map(|v| v.to_le_bytes()).collect();
    let mut marks = [0xab; 7];
    assert_eq!(bytes::mark(&values, LIMITS, RuleSet::SHEWHART, &mut marks[..5]), Err(Refusal::TooShort));
    assert_eq!(marks, [0xab; 7]);
    assert_eq!(bytes::mark(&values, LIMITS, RuleSet::SHEWHART, &mut marks), Ok(()));
    assert_eq!(marks, [0, 0, 1, 0, 0, 0, 0xab]);
}

#[test]
fn numbers_and_words() {
    let all = [
        (Refusal::Length, 2, "the length of the values is not a multiple of eight bytes"),
        (Refusal::NotFinite, 3, "a value or limit is not finite, or a root is asked of a number below zero"),
        (Refusal::SetTooLarge, 4, "the rule set is over 511"),
        (Refusal::TooMany, 5, "there are more than 4,096 values"),
        (Refusal::TooShort, 6, "the slice for the answer is too short"),
        (Refusal::Form { at: 3 }, 9, "the bytes are no sheet, at byte 3"),
        (Refusal::Differs, 10, "the sheet is about other points or another rule set"),
        (Refusal::Wrong { at: 4, right: 1, stated: 0 }, 11, "wrong marks at position 4: 0 stated, 1 right"),
        (Refusal::Unknown { answer: 0x10c }, 12, "the answer 0x10c is not known: another library is linked"),
    ];
    for (refusal, number, words) in all {
        assert_eq!(refusal.number(), number);
        let error: Box<dyn std::error::Error> = refusal.into();
        assert_eq!(error.to_string(), words);
    }
}
