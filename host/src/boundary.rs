//! The library's four functions, each called in the default floating-point mode, and the reading of
//! their answers.

use crate::mode::in_default;
use crate::{Limits, Refusal, RuleSet};

extern "C" {
    fn dramulenz_mark(
        values: *const u8,
        values_len: usize,
        ucl: f64,
        cl: f64,
        lcl: f64,
        set: u32,
        marks: *mut u8,
        marks_len: usize,
    ) -> u64;
    fn dramulenz_check(
        values: *const u8,
        values_len: usize,
        ucl: f64,
        cl: f64,
        lcl: f64,
        set: u32,
        sheet: *const u8,
        sheet_len: usize,
    ) -> u64;
    fn dramulenz_write(
        values: *const u8,
        values_len: usize,
        ucl: f64,
        cl: f64,
        lcl: f64,
        set: u32,
        sheet: *mut u8,
        sheet_len: usize,
    ) -> u64;
    fn dramulenz_root(x: f64) -> f64;
}

pub fn mark(values: &[u8], limits: Limits, set: RuleSet, marks: &mut [u8]) -> Result<u64, Refusal> {
    let Limits { ucl, cl, lcl } = limits;
    let (at, len) = (marks.as_mut_ptr(), marks.len());
    // SAFETY: each pointer comes with the length of the slice that it is taken from. The library reads
    // and writes within them, keeps neither, and the two are apart, since one is lent for writing.
    read(in_default(|| unsafe {
        dramulenz_mark(values.as_ptr(), values.len(), ucl, cl, lcl, set.0, at, len)
    }))
}

pub fn check(values: &[u8], limits: Limits, set: RuleSet, sheet: &[u8]) -> Result<u64, Refusal> {
    let Limits { ucl, cl, lcl } = limits;
    let (at, len) = (sheet.as_ptr(), sheet.len());
    // SAFETY: as in `mark`; the library writes to neither.
    read(in_default(|| unsafe {
        dramulenz_check(values.as_ptr(), values.len(), ucl, cl, lcl, set.0, at, len)
    }))
}

pub fn write(values: &[u8], limits: Limits, set: RuleSet, out: &mut [u8]) -> Result<u64, Refusal> {
    let Limits { ucl, cl, lcl } = limits;
    let (at, len) = (out.as_mut_ptr(), out.len());
    // SAFETY: as in `mark`.
    read(in_default(|| unsafe {
        dramulenz_write(values.as_ptr(), values.len(), ucl, cl, lcl, set.0, at, len)
    }))
}

pub fn root(x: f64) -> f64 {
    // SAFETY: the function takes any f64 and touches no memory.
    in_default(|| unsafe { dramulenz_root(x) })
}

/// What an answer says: its number stands in bits 0 to 7, what belongs to it in those above. Where it
/// is 0, those above are what is answered.
fn read(answer: u64) -> Result<u64, Refusal> {
    Err(match answer & 0xff {
        0 => return Ok(answer >> 8),
        2 => Refusal::Length,
        3 => Refusal::NotFinite,
        4 => Refusal::SetTooLarge,
        5 => Refusal::TooMany,
        6 => Refusal::TooShort,
        9 => Refusal::Form { at: (answer >> 8) as usize },
        10 => Refusal::Differs,
        11 => Refusal::Wrong {
            at: (answer >> 8) as u16 as usize,
            right: (answer >> 24) as u16,
            stated: (answer >> 40) as u16,
        },
        // That there is none is proved, of the library that this is for.
        _ => Refusal::Unknown { answer },
    })
}

#[cfg(test)]
mod tests {
    use super::*;

    #[test]
    fn each_number_is_read_as_itself() {
        for number in 0..=255 {
            let answer = 0x0012_3456_789a_bc00 | u64::from(number);
            let read = read(answer);
            assert_eq!(read.map_or_else(Refusal::number, |_| 0), number);
            match number {
                0 => assert_eq!(read, Ok(answer >> 8)),
                9 => assert_eq!(read, Err(Refusal::Form { at: 0x1234_5678_9abc })),
                11 => assert_eq!(read, Err(Refusal::Wrong { at: 0x9abc, right: 0x5678, stated: 0x1234 })),
                2..=6 | 10 => {}
                _ => assert_eq!(read, Err(Refusal::Unknown { answer })),
            }
        }
    }
}
