//! Values, limits and sets for marking.

use super::flows::{flow, Shape, SHAPES};
use super::limits::{one_sigma, ALL, DECIMAL, EXACT, FLOORED, UNITS};
use super::{any_set, edges};
use crate::case::{Limits, MarksCase};
use crate::random::Random;
use crate::scope::{ALL_TESTS, MOST};

/// Lengths about the windows' own.
const LENGTHS: [usize; 10] = [0, 1, 2, 3, 8, 9, 14, 15, 16, 17];

fn full(limits: Limits, values: Vec<f64>) -> MarksCase {
    MarksCase { set: ALL_TESTS, limits, values }
}

pub fn list(random: &mut Random) -> Vec<MarksCase> {
    let mut cases = worked();
    for l in [EXACT, DECIMAL, FLOORED, UNITS] {
        cases.extend(edges::lengths(&l).into_iter().map(|v| full(l, v)));
    }
    for l in [DECIMAL, UNITS] {
        cases.extend(edges::flawed(&l).into_iter().map(|v| full(l, v)));
        cases.extend(edges::every_window(&l).into_iter().map(|v| full(l, v)));
    }
    cases.extend(every_set(random));
    cases.extend(every_length(random));
    cases.extend(every_shape(random));
    for (l, n) in [(UNITS, MOST - 1), (EXACT, MOST)] {
        cases.push(full(l, flow(random, Shape::Mixed, &l, n)));
    }
    cases
}

/// The values of 01's worked examples 1 to 8, 10 and 11.
fn worked() -> Vec<MarksCase> {
    let mut fifth = vec![26.0; 9];
    fifth[4] = 25.0;
    let by_turns = |n: usize| -> Vec<f64> { (0..n).map(|i| [24.0, 26.0][i % 2]).collect() };
    let level = Limits { ucl: 25.0, cl: 25.0, lcl: 25.0 };
    let mut cases = vec![full(level, vec![25.0; 15]), full(level, vec![25.0; 14])];
    let plain = [
        vec![26.0; 9],
        vec![26.0; 8],
        fifth,
        vec![1.0, 2.0, 3.0, 4.0, 5.0, 6.0],
        vec![1.0, 2.0, 3.0, 3.0, 4.0, 5.0],
        by_turns(14),
        by_turns(13),
        vec![28.0],
        vec![28.5],
        vec![27.5, 25.0, 27.5],
        vec![27.0, 25.0, 27.0],
        vec![27.5, 25.0, 22.5],
    ];
    cases.extend(plain.map(|values| full(EXACT, values)));
    cases.push(MarksCase { set: 255, limits: EXACT, values: vec![26.5; 10] });
    cases.push(MarksCase { set: 1, limits: EXACT, values: vec![] });
    cases
}

/// Each of the 512 sets, over a flow that shows all nine tests.
fn every_set(random: &mut Random) -> Vec<MarksCase> {
    let one = |set: u16| {
        let limits = [UNITS, EXACT, UNITS, DECIMAL, UNITS, FLOORED][usize::from(set) % 6];
        MarksCase { set, limits, values: all_nine(random, &limits) }
    };
    (0..=ALL_TESTS).map(one).collect()
}

/// Fifteen within one sigma, by turns above and below the centre, then nine that rise beyond it.
fn all_nine(random: &mut Random, l: &Limits) -> Vec<f64> {
    let s = one_sigma(l);
    let way = random.pick(&[-1.0, 1.0]);
    let mut values = Vec::new();
    for i in 0..15 {
        let side = if i % 2 == 0 { way } else { -way };
        values.push(l.cl + side * (0.1 + 0.8 * random.unit()) * s);
    }
    for i in 0..9 {
        values.push(l.cl + way * (1.1 + 0.3 * i as f64 + 0.2 * random.unit()) * s);
    }
    values
}

/// Each short length under each kind of limits, two shapes of each.
fn every_length(random: &mut Random) -> Vec<MarksCase> {
    let mut cases = Vec::new();
    for l in ALL {
        for n in LENGTHS {
            cases.push(full(l, flow(random, Shape::OnLines, &l, n)));
            let shape = random.pick(&SHAPES);
            cases.push(full(l, flow(random, shape, &l, n)));
        }
    }
    cases
}

/// Each shape under each kind of limits.
fn every_shape(random: &mut Random) -> Vec<MarksCase> {
    let mut cases = Vec::new();
    for l in ALL {
        for shape in SHAPES {
            let n = random.between(15, 18);
            cases.push(full(l, flow(random, shape, &l, n)));
        }
    }
    cases
}

/// One case of any kind; most are short.
pub fn any(random: &mut Random) -> MarksCase {
    let limits = any_limits(random);
    let n = match random.below(64) {
        0 => random.pick(&[MOST - 1, MOST]),
        1..=8 => random.between(18, 200),
        9..=32 => random.pick(&LENGTHS),
        _ => random.between(0, 40),
    };
    let shape = random.pick(&SHAPES);
    let values = flow(random, shape, &limits, n);
    MarksCase { set: any_set(random), limits, values }
}

/// Half of them from the table, the others about like those of a chart, or any finite numbers.
fn any_limits(random: &mut Random) -> Limits {
    match random.below(8) {
        0..=3 => random.pick(&ALL),
        4 => Limits { ucl: random.finite(), cl: random.finite(), lcl: random.finite() },
        _ => {
            let (cl, width) = (random.bell() * 100.0, random.unit() * 10.0);
            Limits { ucl: cl + width, cl, lcl: cl - width }
        }
    }
}
