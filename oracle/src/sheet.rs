//! The mark sheet as document 01 has it ('The mark sheet'): its bytes, what any bytes say, and the
//! checker's answer. The Rust has no sheet; right marks are the Rust's.

use crate::format::{put, Reader};
use crate::scope::{ALL_TESTS, MOST};

/// 01's number, the place or position, the right marks and the stated marks; a value that 01 does
/// not name is zero.
#[derive(Clone, Copy, Debug, PartialEq)]
pub struct Verdict {
    pub number: u64,
    pub at: u64,
    pub right: u64,
    pub stated: u64,
}

const ACCEPTED: Verdict = Verdict { number: 0, at: 0, right: 0, stated: 0 };
const DIFFERS: Verdict = Verdict { number: 10, ..ACCEPTED };

/// The sheet of a set and of marks, one a point.
pub fn bytes(set: u16, marks: &[u16]) -> Vec<u8> {
    let mut out = Vec::new();
    put(&mut out, marks.len() as u64);
    put(&mut out, set.into());
    put(&mut out, marks.iter().filter(|&&m| m != 0).count() as u64);
    let mut skipped = 0;
    for &m in marks {
        if m == 0 {
            skipped += 1;
        } else {
            put(&mut out, skipped);
            put(&mut out, m.into());
            skipped = 0;
        }
    }
    out
}

/// The set and the marks that the bytes say, or the place of their form fault.
fn said(sheet: &[u8]) -> Result<(u64, Vec<u16>), usize> {
    let mut r = Reader { bytes: sheet, at: 0 };
    let points = number(&mut r, |n| n <= MOST as u64)? as usize;
    let set = number(&mut r, |n| n <= ALL_TESTS.into())?;
    let marked = number(&mut r, |n| n <= points as u64)?;
    let mut marks = vec![0; points];
    let mut passed = 0;
    for _ in 0..marked {
        let skip = number(&mut r, |n| n < (points - passed) as u64)? as usize;
        marks[passed + skip] = number(&mut r, |n| n != 0 && n & !set == 0)? as u16;
        passed += skip + 1;
    }
    if r.at < sheet.len() {
        return Err(r.at);
    }
    Ok((set, marks))
}

/// The next number, or its first byte where it has no form or its value is out of place.
fn number(r: &mut Reader<'_>, in_place: impl Fn(u64) -> bool) -> Result<u64, usize> {
    let start = r.at;
    r.number("number").ok().filter(|&n| in_place(n)).ok_or(start)
}

/// What the checker answers, the right marks of the series being known.
pub fn check(set: u16, right: &[u16], sheet: &[u8]) -> Verdict {
    let (named, stated) = match said(sheet) {
        Ok(said) => said,
        Err(at) => return Verdict { number: 9, at: at as u64, ..ACCEPTED },
    };
    if stated.len() != right.len() || named != u64::from(set) {
        return DIFFERS;
    }
    let wrong = (0..right.len()).find(|&i| right[i] != stated[i]);
    wrong.map_or(ACCEPTED, |i| Verdict {
        number: 11,
        at: i as u64,
        right: right[i].into(),
        stated: stated[i].into(),
    })
}
