//! Stops for marking and for charts (02, R-1): where they break windows, and each way of 15.

use super::edges::shown;
use super::flows::{flow, SHAPES};
use super::limits::UNITS;
use super::{charts, marks};
use crate::case::{ChartCase, MarksCase, StoppedChart, StoppedMarks};
use crate::random::Random;
use crate::scope::{ALL_TESTS, MOST, WINDOWS};

/// The smallest f64: small multiples of it cost one byte each in a list.
const UNIT: f64 = f64::from_bits(1);

fn marked(moving: bool, stops: Vec<u64>, values: Vec<f64>) -> StoppedMarks {
    StoppedMarks { moving, stops, marks: MarksCase { set: ALL_TESTS, limits: UNITS, values } }
}

/// The points of the main series to which so many values belong.
fn main_points(moving: bool, values: usize) -> u64 {
    values as u64 + u64::from(moving)
}

pub fn marks_list(random: &mut Random) -> Vec<StoppedMarks> {
    let mut cases = Vec::new();
    for moving in [false, true] {
        cases.extend(about_windows(moving));
        let beyond = shown(0, &UNITS, 1.0, 20);
        let many = together(main_points(moving, beyond.len()));
        cases.extend(many.into_iter().map(|stops| marked(moving, stops, beyond.clone())));
        for n in [0, 1, 5] {
            let points = main_points(moving, n);
            let judged = good_and_bad(points).into_iter();
            cases.extend(judged.map(|stops| marked(moving, stops, beyond[..n].to_vec())));
        }
        for shape in SHAPES {
            let values = flow(random, shape, &UNITS, 40);
            let stops = (1..main_points(moving, 40)).filter(|_| random.one_in(12)).collect();
            cases.push(marked(moving, stops, values));
        }
    }
    // As many stops as a list may have.
    cases.push(marked(false, vec![1; MOST], vec![UNITS.cl; 2]));
    cases
}

/// Each test's window and two values more with one stop at each place; then two stops that leave room
/// for the window between them, or for one value less or more.
fn about_windows(moving: bool) -> Vec<StoppedMarks> {
    let mut cases = Vec::new();
    let way = if moving { -1.0 } else { 1.0 };
    for (test, window) in WINDOWS.into_iter().enumerate() {
        let values = shown(test, &UNITS, way, window + 2);
        let places = 1..main_points(moving, values.len());
        cases.extend(places.map(|p| marked(moving, vec![p], values.clone())));
        let values = shown(test, &UNITS, way, window + 6);
        let next = 2 + main_points(moving, window);
        cases.extend((next - 1..=next + 1).map(|p| marked(moving, vec![2, p], values.clone())));
    }
    cases
}

/// Stops next to each other, at both ends, everywhere and nowhere.
fn together(points: u64) -> Vec<Vec<u64>> {
    let last = points - 1;
    let mut found: Vec<Vec<u64>> = (1..last).map(|p| vec![p, p + 1]).collect();
    found.extend([vec![1, last], (1..=last).collect(), vec![]]);
    found
}

/// Each way of 15 but the count's, and what stands just beside it.
fn good_and_bad(points: u64) -> Vec<Vec<u64>> {
    let last = points.saturating_sub(1);
    vec![
        vec![],
        vec![1],
        vec![last],
        vec![1, last],
        vec![0],
        vec![0, 1],
        vec![points],
        vec![1, points],
        vec![points + 1],
        // cut to 32 bits it would be 1
        vec![(1 << 32) + 1],
        vec![u64::MAX],
        vec![1, u64::MAX],
        vec![2, 2],
        vec![3, 2],
        vec![1, 2, 2],
        vec![1, 3, 2, 4],
    ]
}

fn stopped(list: Vec<u64>, chart: &ChartCase) -> StoppedChart {
    StoppedChart { count: list.len() as u64, list, chart: chart.clone() }
}

fn counted(count: u64, list: &[u64], chart: &ChartCase) -> StoppedChart {
    StoppedChart { count, list: list.to_vec(), chart: chart.clone() }
}

pub fn charts_list(random: &mut Random) -> Vec<StoppedChart> {
    let mut cases = Vec::new();
    for kind in [1, 2, 3] {
        let (level, widening) = (level(kind, 17), widening(kind, 17));
        cases.extend([1, 2, 3, 15, 16].map(|p| stopped(vec![p], &level)));
        cases.extend((1..17).map(|p| stopped(vec![p], &widening)));
        cases.extend(
            [vec![], vec![8, 9], vec![1, 16], (1..17).collect()].map(|stops| stopped(stops, &widening)),
        );
        for n in [0, 1, 5] {
            let chart = self::widening(kind, n);
            cases.extend(good_and_bad(n as u64).into_iter().map(|stops| stopped(stops, &chart)));
            cases.extend(by_count(&chart));
        }
        // Beside good stops and beside bad ones.
        cases.extend([vec![1], vec![4]].map(|stops| stopped(stops, &past(kind))));
    }
    for shape in SHAPES {
        for kind in [1, 2] {
            let chart = chart(kind, flow(random, shape, &UNITS, 36));
            let stops = (1..chart.count() as u64).filter(|_| random.one_in(8)).collect();
            cases.push(stopped(stops, &chart));
        }
    }
    // As long a list as may be, the last entry past the count.
    let every: Vec<u64> = (1..=MOST as u64).collect();
    cases.push(counted(MOST as u64 - 1, &every, &level(1, MOST)));
    cases
}

/// A chart of samples of two, or of individuals.
fn chart(kind: u8, values: Vec<f64>) -> ChartCase {
    ChartCase { kind, size: if kind == 1 { 1 } else { 2 }, set: ALL_TESTS, values }
}

/// Squares of the smallest f64 are zero: deviations are made of larger numbers.
fn unit(kind: u8) -> f64 {
    if kind == 3 {
        1.0
    } else {
        UNIT
    }
}

/// Both series level: windows of fifteen show test 6 wherever no stop is.
fn level(kind: u8, count: usize) -> ChartCase {
    let sample: &[f64] = if kind == 1 { &[8.0] } else { &[5.0, 8.0] };
    chart(kind, sample.iter().map(|v| v * unit(kind)).collect::<Vec<f64>>().repeat(count))
}

/// A dispersion series that rises throughout: first below its centre, then above, and at last beyond its limit.
pub fn widening(kind: u8, count: usize) -> ChartCase {
    let steps = |i: usize| -> Vec<f64> {
        match kind {
            1 => vec![(i * (i + 1) / 2) as f64],
            _ => vec![60.0 - i as f64, 60.0 + i as f64],
        }
    };
    chart(kind, (0..count).flat_map(steps).map(|v| v * unit(kind)).collect())
}

/// Past the largest (7).
pub fn past(kind: u8) -> ChartCase {
    chart(kind, vec![f64::MAX; 4])
}

/// A record that counts more stops than the list holds (15), and entries past its count, which nothing looks at.
fn by_count(chart: &ChartCase) -> Vec<StoppedChart> {
    vec![
        counted(1, &[], chart),
        counted(u64::MAX, &[], chart),
        counted(3, &[1, 2], chart),
        counted(1 << 32, &[1, 2], chart),
        counted(0, &[0, 9, 9], chart),
        counted(1, &[2, 2, 0, u64::MAX], chart),
        counted(2, &[2, 2, 3], chart),
    ]
}

/// Any values, as a series with any stops.
pub fn any_marks(random: &mut Random) -> StoppedMarks {
    let marks = marks::any(random);
    let moving = random.one_in(2);
    let stops = any_stops(random, main_points(moving, marks.values.len()));
    StoppedMarks { moving, stops, marks }
}

/// Any chart with any stops; one count in six is not the list's length.
pub fn any_chart(random: &mut Random) -> StoppedChart {
    let chart = charts::any(random);
    let list = any_stops(random, chart.count() as u64);
    let length = list.len() as u64;
    let any = random.bits();
    let another = random.pick(&[0, length / 2, length + 1, any]);
    let count = if random.one_in(6) { another } else { length };
    StoppedChart { count, list, chart }
}

/// Few or many stops that are good; to one list in four a number is added that most often is not.
fn any_stops(random: &mut Random, points: u64) -> Vec<u64> {
    let gap = random.pick(&[1, 2, 5, 15, 60]);
    let mut stops: Vec<u64> = (1..points).filter(|_| random.one_in(gap)).collect();
    if random.one_in(4) {
        let any = random.bits();
        let number = random.pick(&[0, points, points + 1, points / 2, u64::MAX, any]);
        stops.insert(random.below(stops.len() + 1), number);
    }
    stops.truncate(MOST);
    stops
}
