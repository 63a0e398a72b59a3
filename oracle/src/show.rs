//! A case as one line for a reader. An f64 is shown in the shortest decimals that give it back.
//! `most` is the number of values shown; two dots stand for the others.

use crate::case::{
    AddingCase, Attribute, AttributesCase, Case, ChartCase, MarksCase, Record, StoppedChart, StoppedMarks,
};

pub fn case(case: &Case, most: usize) -> String {
    match case {
        Case::Marks(c) => marks_case(c, most),
        Case::Chart(c) => chart_case(c, most),
        Case::StoppedMarks(c) => stopped_marks(c, most),
        Case::StoppedChart(c) => stopped_chart(c, most),
        Case::ModedMarks(c) => format!("width mode {}, {}", c.width, stopped_marks(&c.stopped, most)),
        Case::ModedChart(c) => format!("width mode {}, {}", c.width, stopped_chart(&c.stopped, most)),
        Case::Adding(c) => adding_case(c, most),
        Case::Attributes(c) => attributes_case(c, most),
        Case::Flow(bytes) => flow_file(bytes, most),
    }
}

pub fn marks_case(c: &MarksCase, most: usize) -> String {
    format!(
        "set {}, ucl {:?}, cl {:?}, lcl {:?}, {}",
        c.set,
        c.limits.ucl,
        c.limits.cl,
        c.limits.lcl,
        values(&c.values, most)
    )
}

fn chart_case(c: &ChartCase, most: usize) -> String {
    format!("kind {}, size {}, set {}, {}", c.kind, c.size, c.set, values(&c.values, most))
}

fn stopped_marks(c: &StoppedMarks, most: usize) -> String {
    let series = if c.moving { "moving range" } else { "main series" };
    format!("{series}, {}, {}", stops(&c.stops, most), marks_case(&c.marks, most))
}

fn stopped_chart(c: &StoppedChart, most: usize) -> String {
    format!("{} counted of {}, {}", c.count, stops(&c.list, most), chart_case(&c.chart, most))
}

fn adding_case(c: &AddingCase, most: usize) -> String {
    let sample = |s: &(u64, u64)| format!("{} of {}", s.0, size(c.record.attribute, s.1));
    let samples = listed("samples", &c.samples, most, sample);
    format!("{}, slices of {} and {}, {samples}", record(&c.record), c.counts, c.sizes)
}

fn attributes_case(c: &AttributesCase, most: usize) -> String {
    let counts = listed("counts", &c.counts, most, u64::to_string);
    let sizes = listed("sizes", &c.sizes, most, |&s| size(c.record.attribute, s));
    format!("{}, {counts}, {sizes}, rooms {:?}", record(&c.record), c.rooms)
}

fn record(r: &Record) -> String {
    let name = match r.attribute {
        Attribute::P => "P",
        Attribute::U => "U",
    };
    let centre =
        r.centre.map_or("computed".to_string(), |bits| format!("{:?} ({bits:016x})", f64::from_bits(bits)));
    format!("{name}, centre {centre}, count {}", r.count)
}

fn size(attribute: Attribute, size: u64) -> String {
    match attribute {
        Attribute::P => size.to_string(),
        Attribute::U => format!("{:?}", f64::from_bits(size)),
    }
}

fn flow_file(bytes: &[u8], most: usize) -> String {
    listed("bytes", bytes, most, |b| format!("{b:02x}"))
}

fn values(all: &[f64], most: usize) -> String {
    listed("values", all, most, |v| format!("{v:?}"))
}

fn stops(all: &[u64], most: usize) -> String {
    listed("stops", all, most, u64::to_string)
}

fn listed<T>(what: &str, all: &[T], most: usize, one: impl Fn(&T) -> String) -> String {
    let shown: Vec<String> = all.iter().take(most).map(one).collect();
    let rest = if all.len() > most { " .." } else { "" };
    format!("{} {what} [{}{rest}]", all.len(), shown.join(" "))
}
