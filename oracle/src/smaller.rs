//! Smaller cases to try when one differs: fewer values from either end, then fewer tests, then fewer
//! stops.
//! The boldest come first, so that the first that still differs is the best to go on from.

use crate::case::{
    AddingCase, AttributesCase, Case, ChartCase, MarksCase, ModedChart, ModedMarks, StoppedChart,
    StoppedMarks,
};
use crate::report;
use std::ops::Range;

pub fn of(case: &Case) -> Vec<Case> {
    match case {
        Case::Marks(c) => of_marks(c).into_iter().map(|(_, c)| Case::Marks(c)).collect(),
        Case::Chart(c) => of_chart(c).into_iter().map(|(_, c)| Case::Chart(c)).collect(),
        Case::StoppedMarks(c) => of_stopped_marks(c).into_iter().map(Case::StoppedMarks).collect(),
        Case::StoppedChart(c) => of_stopped_chart(c).into_iter().map(Case::StoppedChart).collect(),
        Case::ModedMarks(c) => {
            let in_mode = |stopped| Case::ModedMarks(ModedMarks { width: c.width, stopped });
            of_stopped_marks(&c.stopped).into_iter().map(in_mode).collect()
        }
        Case::ModedChart(c) => {
            let in_mode = |stopped| Case::ModedChart(ModedChart { width: c.width, stopped });
            of_stopped_chart(&c.stopped).into_iter().map(in_mode).collect()
        }
        Case::Adding(c) => of_adding(c).into_iter().map(Case::Adding).collect(),
        Case::Attributes(c) => of_attributes(c).into_iter().map(Case::Attributes).collect(),
        Case::Flow(bytes) => smaller_flows(bytes),
    }
}

fn of_stopped_marks(c: &StoppedMarks) -> Vec<StoppedMarks> {
    let fewer = fewer_stops(&c.stops).into_iter().map(|stops| StoppedMarks { stops, ..c.clone() });
    let easier = of_marks(&c.marks).into_iter().map(|(dropped, marks)| StoppedMarks {
        stops: moved(&c.stops, dropped),
        marks,
        ..c.clone()
    });
    easier.chain(fewer).collect()
}

fn of_stopped_chart(c: &StoppedChart) -> Vec<StoppedChart> {
    // A count that the list holds is still held.
    let counted = |n: u64| if c.count > c.list.len() as u64 { c.count } else { c.count.min(n) };
    let with = |list: Vec<u64>, chart| StoppedChart { count: counted(list.len() as u64), list, chart };
    let fewer = fewer_stops(&c.list).into_iter().map(|list| with(list, c.chart.clone()));
    let easier = of_chart(&c.chart).into_iter().map(|(dropped, chart)| with(moved(&c.list, dropped), chart));
    easier.chain(fewer).collect()
}

/// Smaller cases, each with how many values it lacks at the front.
fn of_marks(c: &MarksCase) -> Vec<(usize, MarksCase)> {
    let fewer = parts(c.values.len()).into_iter().map(|kept| {
        let values = c.values[kept.clone()].to_vec();
        (kept.start, MarksCase { values, ..c.clone() })
    });
    let easier = smaller_sets(c.set).into_iter().map(|set| (0, MarksCase { set, ..c.clone() }));
    fewer.chain(easier).collect()
}

/// Smaller charts, each with how many samples it lacks at the front.
fn of_chart(c: &ChartCase) -> Vec<(usize, ChartCase)> {
    let fewer = parts(c.count()).into_iter().map(|kept| {
        let values = c.values[kept.start * c.size..kept.end * c.size].to_vec();
        (kept.start, ChartCase { values, ..c.clone() })
    });
    let easier = smaller_sets(c.set).into_iter().map(|set| (0, ChartCase { set, ..c.clone() }));
    fewer.chain(easier).collect()
}

fn of_adding(c: &AddingCase) -> Vec<AddingCase> {
    let fewer = |kept: Range<usize>| AddingCase { samples: c.samples[kept].to_vec(), ..c.clone() };
    parts(c.samples.len()).into_iter().map(fewer).collect()
}

/// A record that counts all of its samples counts all that are left.
fn of_attributes(c: &AttributesCase) -> Vec<AttributesCase> {
    let held = c.counts.len().min(c.sizes.len());
    let fewer = |kept: Range<usize>| {
        let mut smaller = c.clone();
        smaller.counts = c.counts[kept.clone()].to_vec();
        smaller.sizes = c.sizes[kept.clone()].to_vec();
        if c.record.count == held as u64 {
            smaller.record.count = kept.len() as u64;
        }
        smaller
    };
    parts(held).into_iter().map(fewer).collect()
}

fn fewer_stops(stops: &[u64]) -> Vec<Vec<u64>> {
    parts(stops.len()).into_iter().map(|kept| stops[kept].to_vec()).collect()
}

/// The stops that are left without the first `dropped` positions, at their new places.
fn moved(stops: &[u64], dropped: usize) -> Vec<u64> {
    let dropped = dropped as u64;
    if dropped == 0 {
        return stops.to_vec();
    }
    stops.iter().filter(|&&p| p > dropped).map(|p| p - dropped).collect()
}

/// Fewer values and tests where the bytes are a flow file, and the bytes without some at their end.
fn smaller_flows(bytes: &[u8]) -> Vec<Case> {
    let mut found = Vec::new();
    if let Ok(chart) = report::read(bytes) {
        let easier = of(&Case::Chart(chart)).into_iter();
        found.extend(easier.filter_map(|case| match case {
            Case::Chart(c) => Some(Case::Flow(report::flow_file(&c))),
            _ => None,
        }));
    }
    let mut dropped = bytes.len().div_ceil(2);
    while dropped > 0 {
        found.push(Case::Flow(bytes[..bytes.len() - dropped].to_vec()));
        dropped /= 2;
    }
    found
}

/// What is left of `count` without the last or first half, quarter, .. down to one.
fn parts(count: usize) -> Vec<Range<usize>> {
    let mut found = Vec::new();
    let mut dropped = count.div_ceil(2);
    while dropped > 0 {
        found.push(0..count - dropped);
        found.push(dropped..count);
        dropped /= 2;
    }
    found
}

/// No test at all, then each test of the set alone; nothing where the set is as small as that.
fn smaller_sets(set: u16) -> Vec<u16> {
    if set == 0 {
        return Vec::new();
    }
    let single = (0..9).map(|b| 1 << b).filter(|bit| set & bit != 0 && set != *bit);
    std::iter::once(0).chain(single).collect()
}
