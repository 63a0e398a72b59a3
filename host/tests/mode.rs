//! In whatever floating-point mode it is called, each call answers as in the default one and leaves the
//! caller's mode as it was.
#![cfg(target_arch = "x86_64")] // as the library is: the modes are words of its MXCSR

mod common;

use common::sheet_of;
use dramulenz::{check, mark, root, write, Limits, Refusal, RuleSet};
use std::arch::asm;

const DEFAULT: u32 = 0x1f80;
/// The flags of exceptions that were raised. They are no part of the mode.
const FLAGS: u32 = 0x3f;

const MODES: [(&str, u32); 9] = [
    ("default", DEFAULT),
    ("results flushed", DEFAULT | 1 << 15),
    ("operands flushed", DEFAULT | 1 << 6),
    ("both flushed", DEFAULT | 1 << 15 | 1 << 6),
    ("rounding down", DEFAULT | 1 << 13),
    ("rounding up", DEFAULT | 2 << 13),
    ("rounding to zero", DEFAULT | 3 << 13),
    ("inexact trapped", DEFAULT & !(1 << 12)),
    ("all trapped", 0),
];

/// What `call` answers where the caller's mode is `word`. No float is worked on here while it is.
fn under<T>(word: u32, call: impl FnOnce() -> T) -> T {
    set_word(word);
    let answer = call();
    let left = word_now();
    set_word(DEFAULT);
    assert_eq!(left & !FLAGS, word, "the mode was not left as it was");
    answer
}

fn word_now() -> u32 {
    let mut word = 0;
    // SAFETY: it stores the word in a variable of its size.
    unsafe { asm!("stmxcsr [{}]", in(reg) &mut word, options(nostack, preserves_flags)) };
    word
}

fn set_word(word: u32) {
    // SAFETY: it loads a word of MXCSR's size, of which no reserved bit is set.
    unsafe { asm!("ldmxcsr [{}]", in(reg) &word, options(nostack)) };
}

/// A series whose last mark is another one where the mode is.
struct Case {
    values: Vec<f64>,
    limits: Limits,
    set: RuleSet,
    marks: Vec<u16>,
}

fn cases() -> [Case; 4] {
    let about_zero = |ucl: f64| Limits { ucl, cl: 0.0, lcl: -ucl };
    let least = f64::from_bits(1);
    let four_of_five = |value: f64, ucl: f64, last: u16| Case {
        values: vec![value; 5],
        limits: about_zero(ucl),
        set: RuleSet(1 << 5),
        marks: vec![0, 0, 0, 0, last],
    };
    [
        // Beyond the limits by the least subnormal.
        Case { values: vec![least], limits: about_zero(0.0), set: RuleSet::SHEWHART, marks: vec![1] },
        // Below one sigma, which is a subnormal itself.
        four_of_five(least, f64::MIN_POSITIVE, 0),
        // On one sigma, which is rounded up.
        four_of_five(5.0 / 3.0, 5.0, 0),
        // Just above one sigma, which is rounded down.
        four_of_five(f64::from_bits((1.0f64 / 3.0).to_bits() + 1), 1.0, 1 << 5),
    ]
}

#[test]
fn marks_are_those_of_the_default_mode() {
    for (name, word) in MODES {
        for Case { values, limits, set, marks } in cases() {
            let mut found = vec![0xabcd; values.len()];
            assert_eq!(under(word, || mark(&values, limits, set, &mut found)), Ok(()), "{name}");
            assert_eq!(found, marks, "{name}");
        }
    }
}

#[test]
fn the_true_sheet_is_written() {
    for (name, word) in MODES {
        for Case { values, limits, set, marks } in cases() {
            let sheet = sheet_of(set, &marks);
            let mut room = vec![0xab; sheet.len()];
            assert_eq!(under(word, || write(&values, limits, set, &mut room)), Ok(sheet.len()), "{name}");
            assert_eq!(room, sheet, "{name}");
        }
    }
}

#[test]
fn the_true_sheet_is_accepted_and_a_false_one_refused() {
    for (name, word) in MODES {
        for Case { values, limits, set, mut marks } in cases() {
            let sheet = sheet_of(set, &marks);
            assert_eq!(under(word, || check(&values, limits, set, &sheet)), Ok(()), "{name}");

            let at = values.len() - 1;
            let right = marks[at];
            marks[at] ^= set.0 as u16;
            let sheet = sheet_of(set, &marks);
            let why = Refusal::Wrong { at, right, stated: marks[at] };
            assert_eq!(under(word, || check(&values, limits, set, &sheet)), Err(why), "{name}");
        }
    }
}

#[test]
fn roots_are_those_of_the_default_mode() {
    let least = f64::from_bits(1);
    let signalling = f64::from_bits(0x7ff0_0000_0000_0001);
    let refused = Err(Refusal::NotFinite);
    for (name, word) in MODES {
        for (x, right) in [
            (least, Ok(f64::from_bits((1023 - 537) << 52))),
            (-least, refused),
            (2.0, Ok(std::f64::consts::SQRT_2)),
            (0.0, Ok(0.0)),
            (-0.0, Ok(-0.0)),
            (-1.0, refused),
            (f64::INFINITY, refused),
            (signalling, refused),
        ] {
            let found = under(word, || root(x));
            assert_eq!(found.map(f64::to_bits), right.map(f64::to_bits), "{name}, of {:#x}", x.to_bits());
        }
    }
}
