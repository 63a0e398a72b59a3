//! Holds stored answers against the right ones.

use crate::case::{Answer, Case, Evaluation, Figure, Limits, MarksCase};
use crate::format::Judged;
use crate::scope::WINDOWS;
use crate::{judge, show};

/// Values of an input that a line shows: enough for any window.
const SHOWN: usize = 40;

/// One line for each case whose stored answer is not the right one: 'case K: ..', K counted from 0.
pub fn disagreements(list: &[Judged]) -> Vec<String> {
    let one = |(k, (case, stored)): (usize, &Judged)| {
        difference(case, stored).map(|told| format!("case {k}: {told}"))
    };
    list.iter().enumerate().filter_map(one).collect()
}

fn difference(case: &Case, stored: &Answer) -> Option<String> {
    let right = judge::answer(case);
    let told = match (case, stored, &right) {
        (Case::Marks(c), Answer::Marks(s), Answer::Marks(r)) => return marks_difference(c, s, r),
        (_, Answer::Marks(s), Answer::Marks(r)) => part_difference("marks", s, r),
        (_, Answer::Report(s), Answer::Report(r)) => part_difference("line", &lines(s), &lines(r)),
        (_, Answer::Evaluated(s), Answer::Evaluated(r)) => evaluation_difference(s, r),
        (_, Answer::Numbers(s), Answer::Numbers(r)) => part_difference("number", s, r),
        (_, Answer::Apart(m, s), Answer::Apart(n, r)) if m == n => figures_difference(*s, *r),
        _ => part_difference("answer", &[number(stored)], &[number(&right)]),
    };
    told.map(|told| format!("{told}; input: {}", show::case(case, SHOWN)))
}

/// The lines of a text, each with what ends it.
fn lines(text: &[u8]) -> Vec<String> {
    text.split_inclusive(|&b| b == b'\n').map(|l| String::from_utf8_lossy(l).into_owned()).collect()
}

fn number(answer: &Answer) -> u8 {
    match answer {
        Answer::Refused(number) => *number,
        Answer::Apart(number, _) => *number,
        _ => 0,
    }
}

/// The first wrong position, and the smallest input that shows it for the lowest wrong test.
fn marks_difference(case: &MarksCase, stored: &[u16], right: &[u16]) -> Option<String> {
    let at = first_difference(stored, right)?;
    let (s, r) = (stored[at], right[at]);
    let test = (s ^ r).trailing_zeros() as usize;
    let smallest = show::marks_case(&smallest(case, at, test, r), SHOWN);
    Some(format!("marks at {at}: stored {s}, right {r} (test {test}); smallest input: {smallest}"))
}

/// As few of the values that end at `at` as give the Rust's mark there for that test alone: its
/// window, or what there is of it. A Rust that is broken on purpose may need more.
fn smallest(case: &MarksCase, at: usize, test: usize, mark: u16) -> MarksCase {
    let (set, end) = (1 << test, at + 1);
    let from =
        |start: usize| MarksCase { set, limits: case.limits, values: case.values[start..end].to_vec() };
    let gives = |c: &MarksCase| judge::marks(c).last() == Some(&(mark & set));
    let latest = end.saturating_sub(WINDOWS[test]);
    (0..=latest).rev().map(from).find(gives).unwrap_or_else(|| from(0))
}

/// The first position where two lists part; a shorter one parts where it ends.
fn first_difference<T: PartialEq>(a: &[T], b: &[T]) -> Option<usize> {
    (0..a.len().max(b.len())).find(|&i| a.get(i) != b.get(i))
}

fn evaluation_difference(s: &Evaluation, r: &Evaluation) -> Option<String> {
    limits_difference("main", &s.main_limits, &r.main_limits)
        .or_else(|| limits_difference("dispersion", &s.dispersion_limits, &r.dispersion_limits))
        .or_else(|| part_difference("main point", &bits(&s.main), &bits(&r.main)))
        .or_else(|| part_difference("dispersion point", &bits(&s.dispersion), &bits(&r.dispersion)))
        .or_else(|| part_difference("main marks", &s.main_marks, &r.main_marks))
        .or_else(|| part_difference("dispersion marks", &s.dispersion_marks, &r.dispersion_marks))
        .or_else(|| part_difference("number of marks", &[s.number_of_marks], &[r.number_of_marks]))
        .or_else(|| part_difference("in control", &[s.in_control], &[r.in_control]))
        .or_else(|| figures_difference([s.sigma_hat, s.sigma_hat_df], [r.sigma_hat, r.sigma_hat_df]))
}

/// Of sigma_hat and sigma_hat_df.
fn figures_difference(s: [Figure; 2], r: [Figure; 2]) -> Option<String> {
    let bits = |figure: Figure| figure.map(|x| Bits(x.to_bits()));
    part_difference("sigma figure", &s.map(bits), &r.map(bits))
}

fn limits_difference(series: &str, s: &Limits, r: &Limits) -> Option<String> {
    part_difference(&format!("{series} limit"), &s.bits().map(Bits), &r.bits().map(Bits))
}

fn part_difference<T>(what: &str, s: &[T], r: &[T]) -> Option<String>
where
    T: PartialEq + std::fmt::Debug,
{
    let at = first_difference(s, r)?;
    Some(format!("{what} {at}: stored {}, right {}", entry(s, at), entry(r, at)))
}

fn entry<T: std::fmt::Debug>(list: &[T], at: usize) -> String {
    list.get(at).map_or("nothing".to_string(), |x| format!("{x:?}"))
}

fn bits(values: &[f64]) -> Vec<Bits> {
    values.iter().map(|v| Bits(v.to_bits())).collect()
}

/// An f64 by its bits: -0.0 is not +0.0 here.
#[derive(PartialEq)]
struct Bits(u64);

impl std::fmt::Debug for Bits {
    fn fmt(&self, f: &mut std::fmt::Formatter<'_>) -> std::fmt::Result {
        write!(f, "{:?} ({:016x})", f64::from_bits(self.0), self.0)
    }
}
