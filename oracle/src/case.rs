//! What is asked and what is answered.

/// The three limits of a series.
#[derive(Clone, Copy, Debug)]
pub struct Limits {
    pub ucl: f64,
    pub cl: f64,
    pub lcl: f64,
}

impl Limits {
    pub fn bits(&self) -> [u64; 3] {
        [self.ucl, self.cl, self.lcl].map(f64::to_bits)
    }

    pub fn are_finite(&self) -> bool {
        self.ucl.is_finite() && self.cl.is_finite() && self.lcl.is_finite()
    }
}

/// Values to be marked under given limits.
#[derive(Clone)]
pub struct MarksCase {
    pub set: u16,
    pub limits: Limits,
    pub values: Vec<f64>,
}

/// A chart of kind 1 (individual-MR), 2 (X-bar-R) or 3 (X-bar-S); the samples stand one after
/// another in `values`, `size` to each.
#[derive(Clone)]
pub struct ChartCase {
    pub kind: u8,
    pub size: usize,
    pub set: u16,
    pub values: Vec<f64>,
}

impl ChartCase {
    pub fn count(&self) -> usize {
        self.values.len() / self.size
    }
}

/// Values to be marked as a series that has stops (02, R-1) and may be a moving range.
#[derive(Clone)]
pub struct StoppedMarks {
    pub moving: bool,
    pub stops: Vec<u64>,
    pub marks: MarksCase,
}

/// A chart whose record counts `count` stops, with the list that is lent for them.
#[derive(Clone)]
pub struct StoppedChart {
    pub count: u64,
    pub list: Vec<u64>,
    pub chart: ChartCase,
}

/// Values to be marked in a width mode (02, R-5), which may be none.
#[derive(Clone)]
pub struct ModedMarks {
    pub width: u64,
    pub stopped: StoppedMarks,
}

/// A chart to be evaluated in a width mode.
#[derive(Clone)]
pub struct ModedChart {
    pub width: u64,
    pub stopped: StoppedChart,
}

/// Which attribute chart (02, R-2): damaged per parcel inspected, or per unit.
#[derive(Clone, Copy)]
pub enum Attribute {
    P,
    U,
}

/// The record of an attribute chart, which may be no chart. A given centre stands as the bits of its f64, and so do the
/// sizes of U's samples wherever samples stand.
#[derive(Clone)]
pub struct Record {
    pub attribute: Attribute,
    pub centre: Option<u64>,
    pub count: u64,
}

/// Samples, a count and a size each, to be added one after another beside slices of these lengths.
#[derive(Clone)]
pub struct AddingCase {
    pub record: Record,
    pub counts: usize,
    pub sizes: usize,
    pub samples: Vec<(u64, u64)>,
}

/// A record with its two slices, to be evaluated into six slices of these lengths.
#[derive(Clone)]
pub struct AttributesCase {
    pub record: Record,
    pub counts: Vec<u64>,
    pub sizes: Vec<u64>,
    pub rooms: [usize; 6],
}

#[derive(Clone)]
pub enum Case {
    Marks(MarksCase),
    Chart(ChartCase),
    StoppedMarks(StoppedMarks),
    StoppedChart(StoppedChart),
    ModedMarks(ModedMarks),
    ModedChart(ModedChart),
    Adding(AddingCase),
    Attributes(AttributesCase),
    /// The bytes that the report program is given: a flow file, or none.
    Flow(Vec<u8>),
}

/// A sigma figure, or 01's number for its refusal.
pub type Figure = Result<f64, u8>;

/// Everything that is answered for a chart that can be evaluated.
pub struct Evaluation {
    pub main_limits: Limits,
    pub dispersion_limits: Limits,
    pub main: Vec<f64>,
    pub dispersion: Vec<f64>,
    pub main_marks: Vec<u16>,
    pub dispersion_marks: Vec<u16>,
    pub number_of_marks: usize,
    pub in_control: bool,
    pub sigma_hat: Figure,
    pub sigma_hat_df: Figure,
}

pub enum Answer {
    /// One number a value; bit b stands for test b of 01's table.
    Marks(Vec<u16>),
    /// 01's number 7 or 8; of values with stops 15, in a width mode 21.
    Refused(u8),
    /// 15 or 21 of a chart, with sigma_hat and sigma_hat_df: these take neither stops nor a mode and answer all the same.
    Apart(u8, [Figure; 2]),
    Evaluated(Evaluation),
    /// All that an attribute case answers and leaves in its slices, as FORMAT.md has it.
    Numbers(Vec<u64>),
    /// The report's text.
    Report(Vec<u8>),
}
