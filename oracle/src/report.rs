//! The report program as document 01 has it ('The report program'): what a flow file says and how
//! the report is worded is 01's, the evaluation is the Rust's.

use crate::case::{Answer, ChartCase, Evaluation, Limits};
use crate::format::{put, Reader};
use crate::{judge, scope};

/// The longest flow file, and the most values that it may have.
pub const MOST_BYTES: usize = 24_576;
pub const MOST_VALUES: u64 = 2048;

/// 01's numbers for a flow file: size not allowed, value not finite, set, too many, form.
const SIZE: u8 = 1;
const VALUE: u8 = 3;
const SET: u8 = 4;
const COUNT: u8 = 5;
const FORM: u8 = 12;

pub fn text(bytes: &[u8]) -> Vec<u8> {
    let told = read(bytes).and_then(|case| match judge::chart(&case) {
        Answer::Evaluated(e) => Ok(lines(&case, &e)),
        Answer::Refused(number) => Err(number),
        _ => unreachable!("a chart is evaluated or refused"),
    });
    told.unwrap_or_else(|number| format!("R {number}\n")).into_bytes()
}

/// The chart that the bytes say, or 01's number for why they say none. A value that is not finite is
/// refused only after all the form.
pub fn read(bytes: &[u8]) -> Result<ChartCase, u8> {
    if bytes.len() > MOST_BYTES {
        return Err(FORM);
    }
    let mut r = Reader { bytes, at: 0 };
    let mut next = || r.number("number").map_err(|_| FORM);
    let kind = next()?;
    held(1 <= kind && kind <= 3, FORM)?;
    let size = next()?;
    let (smallest, largest) = scope::sizes(kind);
    held(smallest <= size && size <= largest, SIZE)?;
    let set = next()?;
    held(set <= scope::ALL_TESTS.into(), SET)?;
    let count = next()?;
    held(count <= scope::MOST as u64 && count * size <= MOST_VALUES, COUNT)?;
    let values = (0..count * size).map(|_| next().map(f64::from_bits)).collect::<Result<Vec<f64>, u8>>()?;
    held(r.at == bytes.len(), FORM)?;
    held(values.iter().all(|v| v.is_finite()), VALUE)?;
    Ok(ChartCase { kind: kind as u8, size: size as usize, set: set as u16, values })
}

fn held(so: bool, number: u8) -> Result<(), u8> {
    so.then_some(()).ok_or(number)
}

/// The flow file of a chart.
pub fn flow_file(case: &ChartCase) -> Vec<u8> {
    let mut out = Vec::new();
    for number in [case.kind.into(), case.size as u64, case.set.into(), case.count() as u64] {
        put(&mut out, number);
    }
    for v in &case.values {
        put(&mut out, v.to_bits());
    }
    out
}

fn lines(case: &ChartCase, e: &Evaluation) -> String {
    let mut text = format!("C {} {} {}\n", case.kind, case.size, case.set);
    text += &limits_line(0, &e.main_limits);
    text += &limits_line(1, &e.dispersion_limits);
    text += &mark_lines(0, 0, &e.main_marks);
    text += &mark_lines(1, if case.kind == 1 { 1 } else { 0 }, &e.dispersion_marks);
    text + &format!("E {}\n", e.number_of_marks)
}

fn limits_line(series: usize, limits: &Limits) -> String {
    let [ucl, cl, lcl] = limits.bits();
    format!("L {series} {ucl:016x} {cl:016x} {lcl:016x}\n")
}

/// The V lines of a series whose first point has the index `first`.
fn mark_lines(series: usize, first: usize, marks: &[u16]) -> String {
    let mut text = String::new();
    for (position, m) in marks.iter().enumerate() {
        for test in (0..9).filter(|test| m & (1 << test) != 0) {
            text += &format!("V {series} {} {test}\n", position + first);
        }
    }
    text
}
