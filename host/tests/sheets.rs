//! Sheets there and back, and with any one mark removed or added.

mod common;

use common::{marks_of, sheet_of, Random, LIMITS};
use dramulenz::{bytes, check, write, Refusal, RuleSet};

const SETS: [RuleSet; 6] = [
    RuleSet::NELSON,
    RuleSet::WESTERN_ELECTRIC,
    RuleSet::SHEWHART,
    RuleSet(511),
    RuleSet::NONE,
    RuleSet(0b1_0100_0110),
];

#[test]
fn a_hundred_sheets() {
    let mut random = Random(1);
    let (mut removed, mut added) = (0, 0);
    for k in 0..100 {
        let set = SETS[k % SETS.len()];
        let length = random.below(48);
        let values: Vec<f64> = (0..length).map(|_| random.near()).collect();
        let right = marks_of(&values, LIMITS, set).expect("finite values, few");
        let sheet = written(&values, set);
        assert_eq!(sheet, sheet_of(set, &right));
        assert_eq!(check(&values, LIMITS, set, &sheet), Ok(()));

        for at in 0..length {
            for bit in (0..9).map(|b| 1 << b).filter(|bit| set.0 & bit != 0) {
                let mut marks = right.clone();
                marks[at] ^= bit as u16;
                let why = Refusal::Wrong { at, right: right[at], stated: marks[at] };
                assert_eq!(check(&values, LIMITS, set, &sheet_of(set, &marks)), Err(why));
                *(if marks[at] < right[at] { &mut removed } else { &mut added }) += 1;
            }
        }
    }
    assert!(removed > 500 && added > 5000, "{removed} removed, {added} added");
}

#[test]
fn the_first_wrong_point_is_named() {
    let values = [28.5; 30];
    let right = marks_of(&values, LIMITS, RuleSet(511)).expect("finite values, few");
    for at in 0..30 {
        let mut marks = right.clone();
        marks[at..].fill(0);
        let why = Refusal::Wrong { at, right: right[at], stated: 0 };
        assert_eq!(check(&values, LIMITS, RuleSet(511), &sheet_of(RuleSet(511), &marks)), Err(why));
    }
}

#[test]
fn wrong_marks_at_the_last_of_many() {
    let mut random = Random(2);
    let values: Vec<f64> = (0..4096).map(|_| random.near()).collect();
    for set in SETS {
        let mut marks = marks_of(&values, LIMITS, set).expect("finite values, not too many");
        let right = marks[4095];
        marks[4095] ^= set.0 as u16;
        let answer = check(&values, LIMITS, set, &sheet_of(set, &marks));
        let why = Refusal::Wrong { at: 4095, right, stated: marks[4095] };
        assert_eq!(answer, if set == RuleSet::NONE { Ok(()) } else { Err(why) });
    }
}

#[test]
fn bytes_answer_as_values_do() {
    let mut random = Random(3);
    for _ in 0..50 {
        let values: Vec<f64> = (0..random.below(60)).map(|_| random.near()).collect();
        let raw: Vec<u8> = values.iter().flat_map(|v| v.to_le_bytes()).collect();
        let marks = marks_of(&values, LIMITS, RuleSet(511)).expect("finite values, few");
        let mut raw_marks = vec![0xff; 2 * values.len()];
        assert_eq!(bytes::mark(&raw, LIMITS, RuleSet(511), &mut raw_marks), Ok(()));
        assert_eq!(raw_marks, marks.iter().flat_map(|m| m.to_le_bytes()).collect::<Vec<u8>>());

        let sheet = written(&values, RuleSet(511));
        let mut raw_sheet = vec![0; sheet.len()];
        assert_eq!(bytes::write(&raw, LIMITS, RuleSet(511), &mut raw_sheet), Ok(sheet.len()));
        assert_eq!(raw_sheet, sheet);
        assert_eq!(bytes::check(&raw, LIMITS, RuleSet(511), &sheet), Ok(()));
    }
}

/// The sheet that the library writes; what lies past it is untouched.
fn written(values: &[f64], set: RuleSet) -> Vec<u8> {
    let mut room = vec![0xab; 8 * values.len() + 16];
    let length = write(values, LIMITS, set, &mut room).expect("finite values, room enough");
    assert!(room[length..].iter().all(|&b| b == 0xab));
    room.truncate(length);
    room
}
