//! What the program sheets_run tries, tried on 01's sheet (sheet.rs) with the Rust's marks, in width mode 1
//! with those of 02's words: the line that comes of it is the line that our writer and checker have to give.

use crate::case::{Limits, MarksCase};
use crate::sheet::{self, Verdict};
use crate::widths::{self, Mode};
use crate::{by_01, judge};

/// Sets over 255 are tried in width mode 1, under a lower limit that is nearer than the upper one.
fn terms(set: u16) -> (Limits, Mode) {
    if set > 255 {
        (Limits { ucl: 28.0, cl: 25.0, lcl: 23.5 }, Mode::New)
    } else {
        (Limits { ucl: 28.0, cl: 25.0, lcl: 22.0 }, Mode::Old)
    }
}

/// How many sheets are tried.
const SHEETS: u64 = 100;

/// The answers are folded into one number modulo this prime.
const PRIME: u64 = 4_294_967_291;

#[derive(Default)]
struct Tally {
    counts: [u64; 12],
    all: u64,
}

impl Tally {
    fn take(&mut self, v: Verdict) {
        self.counts[v.number as usize] += 1;
        for x in [v.number, v.at, v.right, v.stated] {
            self.all = (self.all * 31 + x) % PRIME;
        }
    }
}

/// The line that sheets_run writes.
pub fn line() -> String {
    let mut tally = Tally::default();
    let bytes: usize = (0..SHEETS).map(|k| trial(k, &mut tally)).sum();
    let [accepted, .., form, differs, wrong] = tally.counts;
    format!(
        "{accepted} sheets accepted, {bytes} bytes; refused {form} by form, {differs} by count or set, \
         {wrong} by marks; all answers come to {}; the longest has {} bytes",
        tally.all,
        longest()
    )
}

/// The sheet of series k as it is, cut at each place, with each byte changed in each way, and with
/// each byte more. Gives its length.
fn trial(k: u64, tally: &mut Tally) -> usize {
    let set = (next(k) / 128 % 512) as u16;
    let right = marks(set, series(k));
    let whole = sheet::bytes(set, &right);
    tally.take(sheet::check(set, &right, &whole));
    for n in 0..whole.len() {
        tally.take(sheet::check(set, &right, &whole[..n]));
    }
    for at in 0..whole.len() {
        for by in (1..=255).rev() {
            let mut changed = whole.clone();
            changed[at] ^= by;
            tally.take(sheet::check(set, &right, &changed));
        }
    }
    for more in (0..=255).rev() {
        tally.take(sheet::check(set, &right, &[&whole[..], &[more]].concat()));
    }
    whole.len()
}

fn marks(set: u16, values: Vec<f64>) -> Vec<u16> {
    let (limits, mode) = terms(set);
    let case = MarksCase { set, limits, values };
    match mode {
        Mode::Old => judge::marks(&case),
        Mode::New => by_01::marks(&case, &widths::of(&limits, mode), |_| true),
    }
}

/// The values of series k: 0 to 16 of them, each from 21 to 29 by halves.
fn series(k: u64) -> Vec<f64> {
    let mut x = next(k);
    let one = |_| {
        x = next(x);
        21.0 + (x / 0x10_0000 % 17) as f64 / 2.0
    };
    (0..k % 17).map(one).collect()
}

/// The next of a run of numbers below 2^32 that are hard to foresee.
fn next(x: u64) -> u64 {
    (x * 1_664_525 + 1_013_904_223) % 0x1_0000_0000
}

/// The length of the sheet of 4,096 points that are all marked.
fn longest() -> usize {
    sheet::bytes(511, &marks(511, vec![100.0; 4096])).len()
}
