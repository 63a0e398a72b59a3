//! The list as bytes; oracle/FORMAT.md describes the form. Every number is in groups of seven bits.

use crate::case::{
    AddingCase, Answer, Attribute, AttributesCase, Case, ChartCase, Evaluation, Figure, Limits, MarksCase,
    ModedChart, ModedMarks, Record, StoppedChart, StoppedMarks,
};
use crate::scope;

const FORMAT: u64 = 1;
const END: u64 = 0;
const MARKS: u64 = 1;
const CHART: u64 = 2;
const FLOW: u64 = 3;
const STOPPED_MARKS: u64 = 4;
const STOPPED_CHART: u64 = 5;
const P_ADDING: u64 = 6;
const U_ADDING: u64 = 7;
const P_EVALUATING: u64 = 8;
const U_EVALUATING: u64 = 9;
const MODED_MARKS: u64 = 10;
const MODED_CHART: u64 = 11;

/// What leads an answer that is no refusal.
const DONE: u64 = 0;

/// More groups than this hold more than 64 bits.
const MOST_GROUPS: usize = 10;

/// No list that a program of ours is given is longer: it may have to hold one in an array.
const MOST_BYTES: usize = 400_000;

/// Bytes at most before the first case and after the last: format number, number of cases, end.
const AROUND: usize = 1 + MOST_GROUPS + 1;

pub type Judged = (Case, Answer);

// ---- writing ---------------------------------------------------------------

/// Low group first, the top bit set on all but the last group, shortest form.
pub fn put(out: &mut Vec<u8>, mut number: u64) {
    while number > 127 {
        out.push((number & 127) as u8 | 128);
        number >>= 7;
    }
    out.push(number as u8);
}

/// The cases in their order, in as few lists of at most `MOST_BYTES` bytes as hold them; one empty
/// list where there are none.
pub fn write(cases: &[Judged]) -> Vec<Vec<u8>> {
    let mut lists = Vec::new();
    let (mut body, mut held) = (Vec::new(), 0);
    for (case, answer) in cases {
        let mut bytes = Vec::new();
        put_case(&mut bytes, case);
        put_answer(&mut bytes, case, answer);
        if held > 0 && body.len() + bytes.len() + AROUND > MOST_BYTES {
            lists.push(closed(&body, held));
            (body, held) = (Vec::new(), 0);
        }
        body.extend(bytes);
        held += 1;
    }
    lists.push(closed(&body, held));
    lists
}

fn closed(body: &[u8], cases: u64) -> Vec<u8> {
    let mut out = Vec::new();
    put(&mut out, FORMAT);
    put(&mut out, cases);
    out.extend(body);
    put(&mut out, END);
    out
}

fn put_floats(out: &mut Vec<u8>, values: &[f64]) {
    for v in values {
        put(out, v.to_bits());
    }
}

fn put_limits(out: &mut Vec<u8>, limits: &Limits) {
    for bits in limits.bits() {
        put(out, bits);
    }
}

fn put_marks(out: &mut Vec<u8>, marks: &[u16]) {
    for &m in marks {
        put(out, m.into());
    }
}

fn put_case(out: &mut Vec<u8>, case: &Case) {
    match case {
        Case::Marks(c) => {
            put(out, MARKS);
            put_marks_case(out, c);
        }
        Case::Chart(c) => {
            put(out, CHART);
            put_chart_case(out, c);
        }
        Case::Flow(bytes) => {
            put(out, FLOW);
            put_bytes(out, bytes);
        }
        Case::StoppedMarks(c) => {
            put(out, STOPPED_MARKS);
            put_stopped_marks(out, c);
        }
        Case::StoppedChart(c) => {
            put(out, STOPPED_CHART);
            put_stopped_chart(out, c);
        }
        Case::ModedMarks(c) => {
            put_numbers(out, &[MODED_MARKS, c.width]);
            put_stopped_marks(out, &c.stopped);
        }
        Case::ModedChart(c) => {
            put_numbers(out, &[MODED_CHART, c.width]);
            put_stopped_chart(out, &c.stopped);
        }
        Case::Adding(c) => {
            put(out, tag_of(c.record.attribute, P_ADDING, U_ADDING));
            put_record(out, &c.record);
            put_lengths(out, &[c.counts, c.sizes, c.samples.len()]);
            for &(count, size) in &c.samples {
                put_numbers(out, &[count, size]);
            }
        }
        Case::Attributes(c) => {
            put(out, tag_of(c.record.attribute, P_EVALUATING, U_EVALUATING));
            put_record(out, &c.record);
            put_lengths(out, &[c.counts.len(), c.sizes.len()]);
            put_numbers(out, &c.counts);
            put_numbers(out, &c.sizes);
            put_lengths(out, &c.rooms);
        }
    }
}

fn put_marks_case(out: &mut Vec<u8>, c: &MarksCase) {
    put(out, c.set.into());
    put_limits(out, &c.limits);
    put(out, c.values.len() as u64);
    put_floats(out, &c.values);
}

fn put_chart_case(out: &mut Vec<u8>, c: &ChartCase) {
    put(out, c.kind.into());
    put(out, c.size as u64);
    put(out, c.set.into());
    put(out, c.count() as u64);
    put_floats(out, &c.values);
}

fn put_stopped_marks(out: &mut Vec<u8>, c: &StoppedMarks) {
    put(out, c.moving.into());
    put_stops(out, &c.stops);
    put_marks_case(out, &c.marks);
}

fn put_stopped_chart(out: &mut Vec<u8>, c: &StoppedChart) {
    put(out, c.count);
    put_stops(out, &c.list);
    put_chart_case(out, &c.chart);
}

/// A list of stops, led by how many they are.
fn put_stops(out: &mut Vec<u8>, stops: &[u64]) {
    put_lengths(out, &[stops.len()]);
    put_numbers(out, stops);
}

fn put_record(out: &mut Vec<u8>, record: &Record) {
    put(out, record.centre.is_some().into());
    put_numbers(out, record.centre.as_slice());
    put(out, record.count);
}

fn put_numbers(out: &mut Vec<u8>, numbers: &[u64]) {
    for &n in numbers {
        put(out, n);
    }
}

fn put_lengths(out: &mut Vec<u8>, lengths: &[usize]) {
    for &n in lengths {
        put(out, n as u64);
    }
}

fn tag_of(attribute: Attribute, p: u64, u: u64) -> u64 {
    match attribute {
        Attribute::P => p,
        Attribute::U => u,
    }
}

/// Bytes as they are, led by how many they are.
fn put_bytes(out: &mut Vec<u8>, bytes: &[u8]) {
    put(out, bytes.len() as u64);
    out.extend(bytes);
}

fn put_answer(out: &mut Vec<u8>, case: &Case, answer: &Answer) {
    match answer {
        Answer::Marks(marks) => {
            // Without stops and a mode no marks case is refused, and no number says so.
            if let Case::StoppedMarks(_) | Case::ModedMarks(_) = case {
                put(out, DONE);
            }
            put_marks(out, marks);
        }
        Answer::Refused(number) => put(out, (*number).into()),
        Answer::Apart(number, figures) => {
            put(out, (*number).into());
            figures.iter().for_each(|&figure| put_figure(out, figure));
        }
        Answer::Evaluated(e) => {
            put(out, DONE);
            put_evaluation(out, e);
        }
        Answer::Numbers(numbers) => put_numbers(out, numbers),
        Answer::Report(text) => put_bytes(out, text),
    }
}

fn put_evaluation(out: &mut Vec<u8>, e: &Evaluation) {
    put_limits(out, &e.main_limits);
    put_limits(out, &e.dispersion_limits);
    put(out, e.dispersion.len() as u64);
    put_floats(out, &e.main);
    put_floats(out, &e.dispersion);
    put_marks(out, &e.main_marks);
    put_marks(out, &e.dispersion_marks);
    put(out, e.number_of_marks as u64);
    put(out, e.in_control.into());
    put_figure(out, e.sigma_hat);
    put_figure(out, e.sigma_hat_df);
}

fn put_figure(out: &mut Vec<u8>, figure: Figure) {
    match figure {
        Ok(x) => {
            put(out, DONE);
            put(out, x.to_bits());
        }
        Err(number) => put(out, number.into()),
    }
}

// ---- reading ---------------------------------------------------------------

/// Why bytes are no list, and the first byte of the number concerned.
#[derive(Debug, PartialEq)]
pub struct Fault {
    pub at: usize,
    pub why: String,
}

pub fn read(bytes: &[u8]) -> Result<Vec<Judged>, Fault> {
    let mut r = Reader { bytes, at: 0 };
    r.number_within(FORMAT, FORMAT, "format number")?;
    let stated_at = r.at;
    let stated = r.number("number of cases")?;
    let mut list = Vec::new();
    loop {
        list.push(match r.number_within(END, MODED_CHART, "tag")? {
            END => break,
            MARKS => r.marks_case()?,
            CHART => r.chart_case()?,
            FLOW => r.flow_case()?,
            STOPPED_MARKS => r.stopped_marks()?,
            STOPPED_CHART => r.stopped_chart()?,
            P_ADDING => r.adding_case(Attribute::P)?,
            U_ADDING => r.adding_case(Attribute::U)?,
            P_EVALUATING => r.attributes_case(Attribute::P)?,
            U_EVALUATING => r.attributes_case(Attribute::U)?,
            MODED_MARKS => r.moded_marks()?,
            _ => r.moded_chart()?,
        });
    }
    if list.len() as u64 != stated {
        let why = format!("{stated} cases are stated, {} stand there", list.len());
        return Err(Fault { at: stated_at, why });
    }
    if r.at < bytes.len() {
        return r.fault(r.at, format!("{} bytes are left over", bytes.len() - r.at));
    }
    Ok(list)
}

pub struct Reader<'a> {
    pub bytes: &'a [u8],
    pub at: usize,
}

impl Reader<'_> {
    fn fault<T>(&self, at: usize, why: String) -> Result<T, Fault> {
        Err(Fault { at, why })
    }

    pub fn number(&mut self, what: &str) -> Result<u64, Fault> {
        let start = self.at;
        let mut number: u64 = 0;
        for group in 0..MOST_GROUPS {
            let Some(&byte) = self.bytes.get(self.at) else {
                return self.fault(start, format!("the bytes end at {what}"));
            };
            self.at += 1;
            let digits = u64::from(byte & 127);
            if group == MOST_GROUPS - 1 && byte > 1 {
                break;
            }
            number |= digits << (7 * group);
            if byte < 128 {
                if byte == 0 && group > 0 {
                    return self.fault(start, format!("{what} is longer than its shortest form"));
                }
                return Ok(number);
            }
        }
        self.fault(start, format!("{what} is over 64 bits"))
    }

    fn number_within(&mut self, low: u64, high: u64, what: &str) -> Result<u64, Fault> {
        let start = self.at;
        let number = self.number(what)?;
        if number < low || number > high {
            return self.fault(start, format!("{what} is {number}, not {low} to {high}"));
        }
        Ok(number)
    }

    fn float(&mut self, what: &str) -> Result<f64, Fault> {
        let start = self.at;
        let x = f64::from_bits(self.number(what)?);
        if !x.is_finite() {
            return self.fault(start, format!("{what} is not finite"));
        }
        Ok(x)
    }

    fn floats(&mut self, n: usize, what: &str) -> Result<Vec<f64>, Fault> {
        (0..n).map(|_| self.float(what)).collect()
    }

    fn set(&mut self) -> Result<u16, Fault> {
        Ok(self.number_within(0, scope::ALL_TESTS.into(), "set")? as u16)
    }

    fn count(&mut self, what: &str) -> Result<usize, Fault> {
        Ok(self.number_within(0, scope::MOST as u64, what)? as usize)
    }

    fn marks(&mut self, n: usize) -> Result<Vec<u16>, Fault> {
        let one = |_| Ok(self.number_within(0, scope::ALL_TESTS.into(), "marks")? as u16);
        (0..n).map(one).collect()
    }

    fn limits(&mut self) -> Result<Limits, Fault> {
        let (ucl, cl, lcl) = (self.float("ucl")?, self.float("cl")?, self.float("lcl")?);
        Ok(Limits { ucl, cl, lcl })
    }

    fn stops(&mut self) -> Result<Vec<u64>, Fault> {
        let n = self.count("number of stops")?;
        self.numbers(n, "stop")
    }

    fn numbers(&mut self, n: usize, what: &str) -> Result<Vec<u64>, Fault> {
        (0..n).map(|_| self.number(what)).collect()
    }

    fn room(&mut self) -> Result<usize, Fault> {
        Ok(self.number_within(0, scope::MOST_ROOM as u64, "length of a slice")? as usize)
    }

    fn record(&mut self, attribute: Attribute) -> Result<Record, Fault> {
        let given = self.number_within(0, 1, "given or not")? == 1;
        let centre = if given { Some(self.number("centre")?) } else { None };
        Ok(Record { attribute, centre, count: self.number("number of samples")? })
    }

    fn marks_asked(&mut self) -> Result<MarksCase, Fault> {
        let set = self.set()?;
        let limits = self.limits()?;
        let n = self.count("number of values")?;
        Ok(MarksCase { set, limits, values: self.floats(n, "value")? })
    }

    fn chart_asked(&mut self) -> Result<ChartCase, Fault> {
        let kind = self.number_within(1, 3, "kind")?;
        let (smallest, largest) = scope::sizes(kind);
        let size = self.number_within(smallest, largest, "size")? as usize;
        let set = self.set()?;
        let count = self.count("number of samples")?;
        Ok(ChartCase { kind: kind as u8, size, set, values: self.floats(count * size, "value")? })
    }

    fn marks_case(&mut self) -> Result<Judged, Fault> {
        let case = self.marks_asked()?;
        let marks = self.marks(case.values.len())?;
        Ok((Case::Marks(case), Answer::Marks(marks)))
    }

    fn chart_case(&mut self) -> Result<Judged, Fault> {
        let case = self.chart_asked()?;
        let answer = self.chart_answer(case.count(), &[])?;
        Ok((Case::Chart(case), answer))
    }

    fn stopped_marks_asked(&mut self) -> Result<StoppedMarks, Fault> {
        let moving = self.number_within(0, 1, "moving")? == 1;
        Ok(StoppedMarks { moving, stops: self.stops()?, marks: self.marks_asked()? })
    }

    fn stopped_chart_asked(&mut self) -> Result<StoppedChart, Fault> {
        let count = self.number("count of stops")?;
        Ok(StoppedChart { count, list: self.stops()?, chart: self.chart_asked()? })
    }

    /// The answer to n values, refused by one of these numbers or marked.
    fn marks_answer(&mut self, n: usize, refusals: &[u64]) -> Result<Answer, Fault> {
        Ok(match self.answer(&[&[DONE], refusals].concat())? {
            DONE => Answer::Marks(self.marks(n)?),
            number => Answer::Refused(number as u8),
        })
    }

    /// The answer to a chart of so many samples; behind a number that evaluating has apart both figures stand.
    fn chart_answer(&mut self, count: usize, apart: &[u64]) -> Result<Answer, Fault> {
        Ok(match self.answer(&[&[DONE, 7, 8], apart].concat())? {
            DONE => Answer::Evaluated(self.evaluation(count)?),
            number if apart.contains(&number) => {
                Answer::Apart(number as u8, [self.figure()?, self.figure()?])
            }
            number => Answer::Refused(number as u8),
        })
    }

    fn stopped_marks(&mut self) -> Result<Judged, Fault> {
        let case = self.stopped_marks_asked()?;
        let answer = self.marks_answer(case.marks.values.len(), &[15])?;
        Ok((Case::StoppedMarks(case), answer))
    }

    fn stopped_chart(&mut self) -> Result<Judged, Fault> {
        let case = self.stopped_chart_asked()?;
        let answer = self.chart_answer(case.chart.count(), &[15])?;
        Ok((Case::StoppedChart(case), answer))
    }

    fn moded_marks(&mut self) -> Result<Judged, Fault> {
        let case = ModedMarks { width: self.number("width mode")?, stopped: self.stopped_marks_asked()? };
        let answer = self.marks_answer(case.stopped.marks.values.len(), &[15, 21])?;
        Ok((Case::ModedMarks(case), answer))
    }

    fn moded_chart(&mut self) -> Result<Judged, Fault> {
        let case = ModedChart { width: self.number("width mode")?, stopped: self.stopped_chart_asked()? };
        let answer = self.chart_answer(case.stopped.chart.count(), &[15, 21])?;
        Ok((Case::ModedChart(case), answer))
    }

    fn adding_case(&mut self, attribute: Attribute) -> Result<Judged, Fault> {
        let record = self.record(attribute)?;
        let (counts, sizes) = (self.room()?, self.room()?);
        let n = self.number_within(0, scope::MOST_ROOM as u64, "number of samples")?;
        let sample = |_| Ok((self.number("count")?, self.number("size")?));
        let samples: Vec<(u64, u64)> = (0..n).map(sample).collect::<Result<_, Fault>>()?;
        let answer = self.numbers(1 + samples.len() + 1 + counts + sizes, "answer")?;
        Ok((Case::Adding(AddingCase { record, counts, sizes, samples }), Answer::Numbers(answer)))
    }

    fn attributes_case(&mut self, attribute: Attribute) -> Result<Judged, Fault> {
        let record = self.record(attribute)?;
        let (m, k) = (self.room()?, self.room()?);
        let (counts, sizes) = (self.numbers(m, "count")?, self.numbers(k, "size")?);
        let mut rooms = [0; 6];
        for room in &mut rooms {
            *room = self.room()?;
        }
        let answer = self.numbers(3 + rooms.iter().sum::<usize>(), "answer")?;
        Ok((Case::Attributes(AttributesCase { record, counts, sizes, rooms }), Answer::Numbers(answer)))
    }

    fn flow_case(&mut self) -> Result<Judged, Fault> {
        let flow = self.raw("flow file")?;
        let text = self.raw("report")?;
        Ok((Case::Flow(flow), Answer::Report(text)))
    }

    fn raw(&mut self, what: &str) -> Result<Vec<u8>, Fault> {
        let start = self.at;
        let n = self.number_within(0, MOST_BYTES as u64, "number of bytes")? as usize;
        let Some(bytes) = self.bytes.get(self.at..self.at + n) else {
            return self.fault(start, format!("the bytes end inside {what}"));
        };
        self.at += n;
        Ok(bytes.to_vec())
    }

    /// A number that leads an answer: one of those that a list has there.
    fn answer(&mut self, listed: &[u64]) -> Result<u64, Fault> {
        let start = self.at;
        let number = self.number("answer")?;
        if !listed.contains(&number) {
            return self.fault(start, format!("answer is {number}, not one of {listed:?}"));
        }
        Ok(number)
    }

    fn evaluation(&mut self, count: usize) -> Result<Evaluation, Fault> {
        let (main_limits, dispersion_limits) = (self.limits()?, self.limits()?);
        let points = self.count("number of dispersion points")?;
        Ok(Evaluation {
            main_limits,
            dispersion_limits,
            main: self.floats(count, "main point")?,
            dispersion: self.floats(points, "dispersion point")?,
            main_marks: self.marks(count)?,
            dispersion_marks: self.marks(points)?,
            number_of_marks: self.number("number of marks")? as usize,
            in_control: self.number_within(0, 1, "in control")? == 1,
            sigma_hat: self.figure()?,
            sigma_hat_df: self.figure()?,
        })
    }

    fn figure(&mut self) -> Result<Figure, Fault> {
        Ok(match self.answer(&[DONE, 7, 8])? {
            DONE => Ok(self.float("sigma figure")?),
            number => Err(number as u8),
        })
    }
}
