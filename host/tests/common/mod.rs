//! What the tests share: the limits of 01's table, a sheet made of any marks, and random numbers that
//! are the same everywhere.
#![allow(dead_code)] // no test uses all of it

use dramulenz::{mark, Limits, Refusal, RuleSet};

pub const LIMITS: Limits = Limits { ucl: 28.0, cl: 25.0, lcl: 22.0 };

/// The marks of all values.
pub fn marks_of(values: &[f64], limits: Limits, set: RuleSet) -> Result<Vec<u16>, Refusal> {
    let mut marks = vec![0; values.len()];
    mark(values, limits, set, &mut marks).map(|()| marks)
}

/// The sheet that states these marks, right or wrong, by 01, 'The mark sheet'.
pub fn sheet_of(set: RuleSet, marks: &[u16]) -> Vec<u8> {
    let mut sheet = Vec::new();
    let marked = marks.iter().filter(|&&m| m != 0).count();
    for number in [marks.len(), set.0 as usize, marked] {
        put_number(&mut sheet, number);
    }
    let mut skipped = 0;
    for &m in marks {
        if m == 0 {
            skipped += 1;
        } else {
            put_number(&mut sheet, skipped);
            put_number(&mut sheet, m.into());
            skipped = 0;
        }
    }
    sheet
}

/// A number in groups of seven bits, low group first.
pub fn put_number(to: &mut Vec<u8>, mut number: usize) {
    while number > 127 {
        to.push(number as u8 | 128);
        number >>= 7;
    }
    to.push(number as u8);
}

/// splitmix64.
pub struct Random(pub u64);

impl Random {
    pub fn bits(&mut self) -> u64 {
        self.0 = self.0.wrapping_add(0x9e37_79b9_7f4a_7c15);
        let mut z = self.0;
        z = (z ^ (z >> 30)).wrapping_mul(0xbf58_476d_1ce4_e5b9);
        z = (z ^ (z >> 27)).wrapping_mul(0x94d0_49bb_1331_11eb);
        z ^ (z >> 31)
    }

    pub fn below(&mut self, n: usize) -> usize {
        (self.bits() % n as u64) as usize
    }

    /// Halves from 21 to 29: on and between all lines, and often level.
    pub fn near(&mut self) -> f64 {
        21.0 + self.below(17) as f64 / 2.0
    }
}
