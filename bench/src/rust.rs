//! The Rust as published, asked for the same.

use crate::data::{Samples, Sizes, LIMITS};
use u_analytics::spc::attributes::{AttributeChartPoint, PChart, UChart};
use u_analytics::spc::chart::{ChartPoint, ControlChart, ViolationType};
use u_analytics::spc::rules::{RuleSet, RunRule};
use u_analytics::spc::variables::{IndividualMRChart, XBarRChart, XBarSChart};

/// The Rust's set of the tests whose bits are in `set`.
pub fn set_of(set: u16) -> RuleSet {
    let in_set = |b: &usize| set & (1 << b) != 0;
    (0..ViolationType::ALL.len()).filter(in_set).map(|b| ViolationType::ALL[b]).collect()
}

/// Points as the Rust's charts make them.
pub fn points_of(values: impl Iterator<Item = f64>) -> Vec<ChartPoint> {
    values.enumerate().map(|(index, value)| ChartPoint { value, index, violations: Vec::new() }).collect()
}

pub fn points_from_bytes(bytes: &[u8]) -> Vec<ChartPoint> {
    points_of(bytes.chunks_exact(8).map(|b| f64::from_le_bytes(b.try_into().expect("eight bytes"))))
}

/// The Rust's list of marks.
pub fn mark(points: &[ChartPoint], set: RuleSet) -> Vec<(usize, ViolationType)> {
    set.check(points, &LIMITS)
}

/// The marks of the last of the points, asked for as a program does that keeps no more than the longest window.
pub fn mark_last(points: &[ChartPoint], set: RuleSet) -> u16 {
    let Some(last) = points.last() else { return 0 };
    let window = &points[points.len().saturating_sub(15)..];
    mark(window, set)
        .iter()
        .filter(|(index, _)| *index == last.index)
        .fold(0, |all, (_, test)| all | bit_of(*test))
}

/// The same as marks of each point.
pub fn marks_of(list: &[(usize, ViolationType)], points: usize) -> Vec<u16> {
    let mut marks = vec![0u16; points];
    for &(index, test) in list {
        marks[index] |= bit_of(test);
    }
    marks
}

fn bit_of(test: ViolationType) -> u16 {
    let bit = ViolationType::ALL.iter().position(|&t| t == test);
    1 << bit.expect("ViolationType::ALL lists every test")
}

/// A chart that holds its samples. Naming its set makes the Rust evaluate it afresh, once.
pub enum Chart {
    Individuals(IndividualMRChart),
    Ranges(XBarRChart),
    Deviations(XBarSChart),
}

impl Chart {
    /// With no test named while it is filled: the Rust evaluates at each sample.
    pub fn new(kind: u64, size: usize, values: &[f64]) -> Self {
        let none = RuleSet::none();
        let new = "a size from 2 to 25";
        match kind {
            1 => Chart::Individuals(filled(IndividualMRChart::new().with_rules(none), size, values)),
            2 => Chart::Ranges(filled(XBarRChart::new(size).expect(new).with_rules(none), size, values)),
            _ => Chart::Deviations(filled(XBarSChart::new(size).expect(new).with_rules(none), size, values)),
        }
    }

    /// Evaluates once.
    pub fn with_rules(self, set: RuleSet) -> Self {
        match self {
            Chart::Individuals(c) => Chart::Individuals(c.with_rules(set)),
            Chart::Ranges(c) => Chart::Ranges(c.with_rules(set)),
            Chart::Deviations(c) => Chart::Deviations(c.with_rules(set)),
        }
    }

    pub fn number_of_marks(&self) -> usize {
        match self {
            Chart::Individuals(c) => c.violations().len(),
            Chart::Ranges(c) => c.violations().len(),
            Chart::Deviations(c) => c.violations().len(),
        }
    }
}

fn filled<C: ControlChart>(mut chart: C, size: usize, values: &[f64]) -> C {
    for sample in values.chunks(size) {
        chart.add_sample(sample).expect("a finite sample of the chart's size");
    }
    chart
}

/// An attribute chart, to which samples are added one by one. At each the Rust works all points out afresh.
pub enum Attributes {
    Parcels(PChart),
    Units(UChart),
}

impl Attributes {
    /// Holds the first `count` samples.
    pub fn filled(centre: Option<f64>, samples: &Samples, count: usize) -> Self {
        let centred = "a centre that is allowed";
        let mut chart = match (&samples.sizes, centre) {
            (Sizes::Parcels(_), None) => Attributes::Parcels(PChart::new()),
            (Sizes::Parcels(_), Some(p)) => Attributes::Parcels(PChart::with_center(p).expect(centred)),
            (Sizes::Units(_), None) => Attributes::Units(UChart::new()),
            (Sizes::Units(_), Some(u)) => Attributes::Units(UChart::with_center(u).expect(centred)),
        };
        (0..count).for_each(|at| chart.add(samples, at));
        chart
    }

    pub fn add(&mut self, samples: &Samples, at: usize) {
        let added = match (self, &samples.sizes) {
            (Attributes::Parcels(c), Sizes::Parcels(sizes)) => c.add_sample(samples.counts[at], sizes[at]),
            (Attributes::Units(c), Sizes::Units(sizes)) => c.add_sample(samples.counts[at], sizes[at]),
            _ => unreachable!("samples of another chart"),
        };
        added.expect("a sample that is allowed");
    }

    pub fn points(&self) -> &[AttributeChartPoint] {
        match self {
            Attributes::Parcels(c) => c.points(),
            Attributes::Units(c) => c.points(),
        }
    }
}
