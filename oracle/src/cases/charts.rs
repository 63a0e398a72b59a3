//! Samples for the three charts.

use super::any_set;
use super::flows::{flow, Shape, SHAPES};
use super::limits::{DECIMAL, EXACT};
use crate::case::ChartCase;
use crate::random::Random;
use crate::scope::{ALL_TESTS, MOST};

#[derive(Clone, Copy)]
enum Data {
    Millimetres,
    Tenths,
    Bell,
    Shaped,
    OneValue,
    LevelSamples,
    WideSamples,
    Zeros,
    Subnormal,
    RootSized,
    NearLargest,
    AnyBits,
}

const DATA: [Data; 12] = [
    Data::Millimetres,
    Data::Tenths,
    Data::Bell,
    Data::Shaped,
    Data::OneValue,
    Data::LevelSamples,
    Data::WideSamples,
    Data::Zeros,
    Data::Subnormal,
    Data::RootSized,
    Data::NearLargest,
    Data::AnyBits,
];

/// The values of the largest fresh chart; 01 has no more in a flow file.
const MOST_VALUES: usize = 2048;

/// Values whose equal copies do not have themselves as their mean, and some that do.
const SINGLES: [f64; 8] = [0.1, 0.3, 25.0, 0.7, -0.1, -0.0, 1.0e-310, 1.1e307];

fn samples(random: &mut Random, data: Data, size: usize, count: usize) -> Vec<f64> {
    let n = size * count;
    let each = |random: &mut Random, one: &dyn Fn(&mut Random) -> f64| -> Vec<f64> {
        (0..n).map(|_| one(random)).collect()
    };
    match data {
        Data::Millimetres => each(random, &|r| (400 + r.below(60)) as f64),
        Data::Tenths => each(random, &|r| r.below(40) as f64 / 10.0),
        Data::Bell => each(random, &|r| 25.0 + r.bell()),
        Data::Shaped => {
            let (shape, limits) = (random.pick(&SHAPES), random.pick(&[EXACT, DECIMAL]));
            flow(random, shape, &limits, n)
        }
        Data::OneValue => vec![random.pick(&SINGLES); n],
        Data::LevelSamples => level_samples(random, size, count),
        Data::WideSamples => wide_samples(random, size, count),
        Data::Zeros => each(random, &|r| r.zero()),
        Data::Subnormal => each(random, &|r| f64::from_bits(r.bits() % 64) * r.pick(&[-1.0, 1.0])),
        // Squares of these lie about the smallest or the largest f64.
        Data::RootSized => {
            let scale = random.pick(&[1.0e-162, 1.0e-155, 1.0e153, 1.0e154]);
            each(random, &|r| r.bell() * scale)
        }
        Data::NearLargest => {
            let part = random.pick(&[2.0, 8.0, 64.0, 4096.0]);
            each(random, &|r| r.bell() / 6.0 * (f64::MAX / part))
        }
        Data::AnyBits => each(random, &|r| r.finite()),
    }
}

/// Equal values within each sample, so that only the means move.
fn level_samples(random: &mut Random, size: usize, count: usize) -> Vec<f64> {
    let mut values = Vec::new();
    for _ in 0..count {
        let level = random.below(30) as f64 / 10.0;
        values.extend(vec![level; size]);
    }
    values
}

/// Level means, and now and then a sample far wider than the others: only the spread moves.
fn wide_samples(random: &mut Random, size: usize, count: usize) -> Vec<f64> {
    let mut values = Vec::new();
    for _ in 0..count {
        let reach = random.pick(&[1.0, 1.0, 1.25, 1.5, 6.0]);
        values.extend((0..size).map(|i| 25.0 + if i % 2 == 0 { reach } else { -reach }));
    }
    values
}

fn chart(kind: u8, size: usize, set: u16, values: Vec<f64>) -> ChartCase {
    ChartCase { kind, size, set, values }
}

pub fn list(random: &mut Random) -> Vec<ChartCase> {
    let mut cases = by_hand();
    cases.extend(past_the_largest());
    cases.extend(every_factor(random));
    cases.extend(every_size(random));
    for data in DATA {
        for count in [2, 3, 9, 10, 16, 17] {
            let values = samples(random, data, 1, count);
            cases.push(chart(1, 1, any_set(random), values));
        }
        for (kind, size) in [(2, 2), (2, 3), (2, 5), (3, 2), (3, 3), (3, 5)] {
            let count = random.pick(&[1, 2, 9, 16]);
            let values = samples(random, data, size, count);
            cases.push(chart(kind, size, any_set(random), values));
        }
    }
    for shape in SHAPES {
        for (kind, size, count) in [(1, 1, 30), (2, 2, 18), (3, 2, 18)] {
            let values = flow(random, shape, &EXACT, size * count);
            cases.push(chart(kind, size, ALL_TESTS, values));
        }
    }
    for (kind, size) in [(2, 4), (2, 5), (3, 4), (3, 5)] {
        for count in [9, 12, 16] {
            let values = samples(random, Data::WideSamples, size, count);
            cases.push(chart(kind, size, ALL_TESTS, values));
        }
    }
    let long = samples(random, Data::Bell, 1, MOST);
    cases.push(chart(1, 1, ALL_TESTS, long));
    cases
}

/// Charts that 01 names, both zeros, and too few samples (8).
fn by_hand() -> Vec<ChartCase> {
    let mut cases = vec![
        chart(1, 1, 1, vec![0.1, 0.1, 0.1]),
        chart(1, 1, 64, vec![8.0; 16]),
        chart(1, 1, 1, vec![0.0, -0.0]),
        chart(1, 1, 1, vec![-0.0, 0.0]),
        chart(1, 1, 1, vec![-0.0; 3]),
        chart(1, 1, 1, vec![]),
        chart(1, 1, 1, vec![25.0]),
        // About zero: the limits are the factors of the individuals chart themselves.
        chart(1, 1, 1, vec![0.5, -0.5]),
    ];
    for kind in [2, 3] {
        cases.extend([
            chart(kind, 2, 1, vec![]),
            chart(kind, 2, 1, vec![0.0, -0.0]),
            chart(kind, 2, 1, vec![-0.0, 0.0]),
            chart(kind, 2, 1, vec![-0.0, -0.0]),
            chart(kind, 3, 1, vec![0.1; 9]),
        ]);
    }
    cases
}

/// Each way to a point or limit that is not finite (7), given in parts of the largest f64, with
/// inputs beside them that are still evaluated.
fn past_the_largest() -> Vec<ChartCase> {
    let individuals: [&[f64]; 8] = [
        &[1.0, -1.0],        // a moving range
        &[0.4, 0.4, 0.4],    // the sum of the values
        &[0.0, 1.0 / 3.266], // ucl of the moving ranges
        &[0.0, 1.0 / 3.268], // evaluated
        &[0.6, 0.35],        // ucl of the individuals
        &[-0.6, -0.35],      // lcl of the individuals
        &[0.5, 0.3],         // evaluated
        &[-0.5, -0.3],       // evaluated
    ];
    // For kind 2; a deviation is past the largest in most of them.
    let pairs: [&[f64]; 10] = [
        &[1.0, -1.0],                              // a range
        &[1.0, 1.0],                               // a mean
        &[1.0, 1.0, -1.0, -1.0],                   // both ways: the mean of means is no number
        &[0.4, 0.4, 0.4, 0.4, 0.4, 0.4],           // the sum of means
        &[0.0, 0.3, 0.0, 0.3, 0.0, 0.3, 0.0, 0.3], // the sum of ranges
        &[0.0, 1.0 / 3.266],                       // ucl of the ranges
        &[0.0, 1.0 / 3.268],                       // evaluated
        &[0.64, 0.34],                             // ucl of the means
        &[-0.64, -0.34],                           // lcl of the means
        &[0.5, 0.3],                               // evaluated
    ];
    let whole = |parts: &[f64]| -> Vec<f64> { parts.iter().map(|x| x * f64::MAX).collect() };
    let mut cases: Vec<ChartCase> = individuals.iter().map(|x| chart(1, 1, 1, whole(x))).collect();
    cases.extend(pairs.iter().map(|x| chart(2, 2, 1, whole(x))));
    cases.extend(pairs.iter().map(|x| chart(3, 2, 1, whole(x))));
    // The square of a difference, and one that is still evaluated.
    cases.extend([1.0e155, 1.0e153].map(|x| chart(3, 2, 1, vec![x, -x])));
    cases
}

/// One sample about zero for each kind and size, three times over: the limits are then a factor
/// times the spread and nothing else, so that each bit of a factor shows.
fn every_factor(random: &mut Random) -> Vec<ChartCase> {
    let mut cases = Vec::new();
    for kind in [2, 3] {
        for size in 2..=25 {
            for reach in [0.5, 0.5 + random.unit(), 0.5 + random.unit()] {
                let mut values = vec![0.0; size];
                (values[0], values[1]) = (reach, -reach);
                cases.push(chart(kind, size, 1, values));
            }
        }
    }
    cases
}

/// Each kind with each size from 2 to 25, with few samples and with some more.
fn every_size(random: &mut Random) -> Vec<ChartCase> {
    let mut cases = Vec::new();
    for kind in [2, 3] {
        for size in 2..=25 {
            for (data, count) in [(Data::Bell, random.between(4, 7)), (Data::Tenths, random.between(1, 3))] {
                let values = samples(random, data, size, count);
                cases.push(chart(kind, size, any_set(random), values));
            }
        }
    }
    cases
}

/// Level means, and now and then a sample far wider than the others.
pub fn wide(random: &mut Random, kind: u8, count: usize) -> ChartCase {
    let size = smallest(kind);
    chart(kind, size, ALL_TESTS, samples(random, Data::WideSamples, size, count))
}

/// A flow of a shape, in the smallest samples of its kind.
pub fn shaped(random: &mut Random, kind: u8, shape: Shape, count: usize) -> ChartCase {
    let size = smallest(kind);
    chart(kind, size, ALL_TESTS, flow(random, shape, &EXACT, size * count))
}

fn smallest(kind: u8) -> usize {
    if kind == 1 {
        1
    } else {
        2
    }
}

/// One chart of any kind; most are short.
pub fn any(random: &mut Random) -> ChartCase {
    let kind = random.pick(&[1, 2, 3]);
    let size = if kind == 1 { 1 } else { random.between(2, 25) };
    let count = match random.below(64) {
        0 => MOST_VALUES / size,
        1..=8 => random.between(18, 80),
        _ => random.between(0, 20),
    };
    let data = random.pick(&DATA);
    let values = samples(random, data, size, count);
    chart(kind, size, any_set(random), values)
}
