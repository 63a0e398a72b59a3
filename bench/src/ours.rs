//! Our calls, as the static libraries have them.

use crate::data::{Samples, Sizes, LANES, LIMITS};

/// The width modes.
pub const SAME_WIDTHS: u64 = 0;
pub const OWN_WIDTHS: u64 = 1;

extern "C" {
    fn dramulenz_mark(
        v: *const u8,
        n: usize,
        ucl: f64,
        cl: f64,
        lcl: f64,
        set: u32,
        to: *mut u8,
        room: usize,
    ) -> u64;
    fn dramulenz_check(
        v: *const u8,
        n: usize,
        ucl: f64,
        cl: f64,
        lcl: f64,
        set: u32,
        sheet: *const u8,
        len: usize,
    ) -> u64;
    fn dramulenz_write(
        v: *const u8,
        n: usize,
        ucl: f64,
        cl: f64,
        lcl: f64,
        set: u32,
        to: *mut u8,
        room: usize,
    ) -> u64;
    fn dramulenz_root(x: f64) -> f64;
    fn bench_mark(
        ucl: f64,
        cl: f64,
        lcl: f64,
        width: u64,
        set: u16,
        values: *const f64,
        values_len: usize,
        stops: *const usize,
        stops_len: usize,
        moving: bool,
        marks: *mut u16,
        marks_len: usize,
    ) -> u64;
    fn bench_lanes(
        ucl: *const [f64; LANES],
        cl: *const [f64; LANES],
        lcl: *const [f64; LANES],
        width: u64,
        set: u16,
        values: *const f64,
        values_len: usize,
        marks: *mut u16,
        marks_len: usize,
    );
    fn bench_evidence(
        ucl: f64,
        cl: f64,
        lcl: f64,
        values: *const f64,
        values_len: usize,
        stops: *const usize,
        stops_len: usize,
        at: usize,
        bit: u64,
    ) -> usize;
    fn bench_evaluate(
        kind: u64,
        size: usize,
        count: usize,
        set: u16,
        values: *const f64,
        values_len: usize,
        main: *mut f64,
        main_len: usize,
        dispersion: *mut f64,
        dispersion_len: usize,
        main_marks: *mut u16,
        main_marks_len: usize,
        dispersion_marks: *mut u16,
        dispersion_marks_len: usize,
    ) -> u64;
    fn bench_p(
        given: bool,
        centre: f64,
        counts: *const u64,
        counts_len: usize,
        sizes: *const u64,
        sizes_len: usize,
        values: *mut f64,
        values_len: usize,
        ucl: *mut f64,
        ucl_len: usize,
        lcl: *mut f64,
        lcl_len: usize,
        out: *mut bool,
        out_len: usize,
        z: *mut f64,
        z_len: usize,
        has_z: *mut bool,
        has_z_len: usize,
    ) -> f64;
    fn bench_u(
        given: bool,
        centre: f64,
        counts: *const u64,
        counts_len: usize,
        sizes: *const f64,
        sizes_len: usize,
        values: *mut f64,
        values_len: usize,
        ucl: *mut f64,
        ucl_len: usize,
        lcl: *mut f64,
        lcl_len: usize,
        out: *mut bool,
        out_len: usize,
        z: *mut f64,
        z_len: usize,
        has_z: *mut bool,
        has_z_len: usize,
    ) -> f64;
    fn bench_roots(numbers: *mut f64, numbers_len: usize);
}

// SAFETY, of all of these: each pointer comes with the length of the slice that it is taken from, the library
// keeps within it, and what it writes to is lent for writing and so apart from the others.

pub fn mark_values(values: &[f64], set: u16, marks: &mut [u16]) -> u64 {
    mark_stopped(values, &[], false, set, marks)
}

pub fn mark_stopped(values: &[f64], stops: &[usize], moving: bool, set: u16, marks: &mut [u16]) -> u64 {
    let (to, room) = (marks.as_mut_ptr(), marks.len());
    unsafe {
        bench_mark(
            LIMITS.ucl,
            LIMITS.cl,
            LIMITS.lcl,
            SAME_WIDTHS,
            set,
            values.as_ptr(),
            values.len(),
            stops.as_ptr(),
            stops.len(),
            moving,
            to,
            room,
        )
    }
}

/// Values of eight lanes by turns, one by one, each with limits that are read for it, in a width mode.
pub fn mark_by_lanes(values: &[f64], width: u64, set: u16, marks: &mut [u16]) {
    let [ucl, cl, lcl] = [LIMITS.ucl, LIMITS.cl, LIMITS.lcl].map(|limit| [limit; LANES]);
    let (to, room) = (marks.as_mut_ptr(), marks.len());
    unsafe { bench_lanes(&ucl, &cl, &lcl, width, set, values.as_ptr(), values.len(), to, room) }
}

/// How long the window behind a mark is, or 0 where there is none.
pub fn evidence(values: &[f64], stops: &[usize], at: usize, bit: u64) -> usize {
    let (cuts, len) = (stops.as_ptr(), stops.len());
    unsafe {
        bench_evidence(LIMITS.ucl, LIMITS.cl, LIMITS.lcl, values.as_ptr(), values.len(), cuts, len, at, bit)
    }
}

pub fn mark(values: &[u8], set: u16, marks: &mut [u8]) -> u64 {
    let (to, room) = (marks.as_mut_ptr(), marks.len());
    unsafe {
        dramulenz_mark(values.as_ptr(), values.len(), LIMITS.ucl, LIMITS.cl, LIMITS.lcl, set.into(), to, room)
    }
}

pub fn check(values: &[u8], set: u16, sheet: &[u8]) -> u64 {
    let (at, len) = (sheet.as_ptr(), sheet.len());
    unsafe {
        dramulenz_check(values.as_ptr(), values.len(), LIMITS.ucl, LIMITS.cl, LIMITS.lcl, set.into(), at, len)
    }
}

pub fn write(values: &[u8], set: u16, sheet: &mut [u8]) -> u64 {
    let (to, room) = (sheet.as_mut_ptr(), sheet.len());
    unsafe {
        dramulenz_write(
            values.as_ptr(),
            values.len(),
            LIMITS.ucl,
            LIMITS.cl,
            LIMITS.lcl,
            set.into(),
            to,
            room,
        )
    }
}

pub fn root(x: f64) -> f64 {
    unsafe { dramulenz_root(x) }
}

/// The four slices that an evaluation fills, each with room for every value.
pub struct Room {
    series: [Vec<f64>; 2],
    marks: [Vec<u16>; 2],
}

impl Room {
    pub fn new(values: usize) -> Self {
        Room { series: [vec![0.0; values], vec![0.0; values]], marks: [vec![0; values], vec![0; values]] }
    }

    /// The number of marks.
    pub fn evaluate(&mut self, kind: u64, size: usize, set: u16, values: &[f64]) -> u64 {
        let count = values.len() / size;
        let ([main, dispersion], [main_marks, dispersion_marks]) = (&mut self.series, &mut self.marks);
        unsafe {
            bench_evaluate(
                kind,
                size,
                count,
                set,
                values.as_ptr(),
                values.len(),
                main.as_mut_ptr(),
                main.len(),
                dispersion.as_mut_ptr(),
                dispersion.len(),
                main_marks.as_mut_ptr(),
                main_marks.len(),
                dispersion_marks.as_mut_ptr(),
                dispersion_marks.len(),
            )
        }
    }
}

/// In place: each number becomes its root.
pub fn roots(numbers: &mut [f64]) {
    unsafe { bench_roots(numbers.as_mut_ptr(), numbers.len()) }
}

/// The six slices that the evaluation of an attribute chart fills.
pub struct Columns {
    pub values: Vec<f64>,
    pub ucl: Vec<f64>,
    pub lcl: Vec<f64>,
    pub out: Vec<bool>,
    pub z: Vec<f64>,
    pub has_z: Vec<bool>,
}

impl Columns {
    pub fn new(samples: usize) -> Self {
        let (numbers, answers) = (vec![0.0; samples], vec![false; samples]);
        Columns {
            values: numbers.clone(),
            ucl: numbers.clone(),
            lcl: numbers.clone(),
            out: answers.clone(),
            z: numbers,
            has_z: answers,
        }
    }

    /// The centre, or a NaN where it is refused.
    pub fn evaluate(&mut self, centre: Option<f64>, samples: &Samples) -> f64 {
        let counts = &samples.counts;
        match &samples.sizes {
            Sizes::Parcels(sizes) => unsafe {
                bench_p(
                    centre.is_some(),
                    centre.unwrap_or(0.0),
                    counts.as_ptr(),
                    counts.len(),
                    sizes.as_ptr(),
                    sizes.len(),
                    self.values.as_mut_ptr(),
                    self.values.len(),
                    self.ucl.as_mut_ptr(),
                    self.ucl.len(),
                    self.lcl.as_mut_ptr(),
                    self.lcl.len(),
                    self.out.as_mut_ptr(),
                    self.out.len(),
                    self.z.as_mut_ptr(),
                    self.z.len(),
                    self.has_z.as_mut_ptr(),
                    self.has_z.len(),
                )
            },
            Sizes::Units(sizes) => unsafe {
                bench_u(
                    centre.is_some(),
                    centre.unwrap_or(0.0),
                    counts.as_ptr(),
                    counts.len(),
                    sizes.as_ptr(),
                    sizes.len(),
                    self.values.as_mut_ptr(),
                    self.values.len(),
                    self.ucl.as_mut_ptr(),
                    self.ucl.len(),
                    self.lcl.as_mut_ptr(),
                    self.lcl.len(),
                    self.out.as_mut_ptr(),
                    self.out.len(),
                    self.z.as_mut_ptr(),
                    self.z.len(),
                    self.has_z.as_mut_ptr(),
                    self.has_z.len(),
                )
            },
        }
    }
}
