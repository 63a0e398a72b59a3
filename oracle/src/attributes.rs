//! The P and U charts (02, R-2). Points, centre and refusals 17 to 20 are the published Rust's; from 02's words alone is what
//! it does not know: 5, 6, 7, 14 and 16, the record beside lent slices, and what these hold afterwards.

use crate::case::{AddingCase, Attribute, AttributesCase, Record};
use crate::scope::{MOST, NOT_FINITE, TOO_FEW};
use u_analytics::spc::attributes::{AttributeChartPoint, PChart, UChart};
use u_analytics::spc::chart::ControlChartError;

/// What each entry of a slice that is lent for writing is before a call: the number 1, the smallest f64, a yes.
const BEFORE: u64 = 1;

/// 'Counts are at most 4,294,967,295'
const LARGEST_COUNT: u64 = 4_294_967_295;

const FULL: u8 = 5;
const TOO_SHORT: u8 = 6;
const BAD_RECORD: u8 = 14;
const LARGE_COUNT: u8 = 16;
const NO_SIZE: u8 = 17;
const MORE_DAMAGED: u8 = 18;
const BAD_UNITS: u8 = 19;
const BAD_CENTRE: u8 = 20;

/// The number of the first refusal that applies, or 0.
fn first(refusals: &[(bool, u8)]) -> u8 {
    refusals.iter().find(|(applies, _)| *applies).map_or(0, |(_, number)| *number)
}

/// A chart of the Rust's, of either type.
enum Chart {
    P(PChart),
    U(UChart),
}

impl Chart {
    fn made(attribute: Attribute, centre: Option<u64>) -> Result<Self, ControlChartError> {
        Ok(match (attribute, centre.map(f64::from_bits)) {
            (Attribute::P, None) => Chart::P(PChart::new()),
            (Attribute::P, Some(p)) => Chart::P(PChart::with_center(p)?),
            (Attribute::U, None) => Chart::U(UChart::new()),
            (Attribute::U, Some(u)) => Chart::U(UChart::with_center(u)?),
        })
    }

    fn add(&mut self, count: u64, size: u64) -> Result<(), ControlChartError> {
        match self {
            Chart::P(chart) => chart.add_sample(count, size),
            Chart::U(chart) => chart.add_sample(count, f64::from_bits(size)),
        }
    }

    fn centre(&self) -> Option<f64> {
        match self {
            Chart::P(chart) => chart.p_bar(),
            Chart::U(chart) => chart.u_bar(),
        }
    }

    fn points(&self) -> &[AttributeChartPoint] {
        match self {
            Chart::P(chart) => chart.points(),
            Chart::U(chart) => chart.points(),
        }
    }
}

/// 'making: 20 centre not allowed'
fn making(record: &Record) -> u8 {
    match Chart::made(record.attribute, record.centre) {
        Ok(_) => 0,
        Err(ControlChartError::InvalidStandard { .. }) => BAD_CENTRE,
        Err(why) => panic!("the Rust refuses a centre by {why:?}"),
    }
}

/// '16 count too large, 17 no sample size, 18 more damaged than inspected, 19 units not finite and above zero'
fn sample(attribute: Attribute, count: u64, size: u64) -> u8 {
    let size_is_a_count = matches!(attribute, Attribute::P);
    if count > LARGEST_COUNT || size_is_a_count && size > LARGEST_COUNT {
        return LARGE_COUNT;
    }
    let mut chart = Chart::made(attribute, None).expect("a computed centre is not refused");
    match chart.add(count, size) {
        Ok(()) => 0,
        Err(ControlChartError::ZeroSampleSize) => NO_SIZE,
        Err(ControlChartError::DefectivesExceedSampleSize { .. }) => MORE_DAMAGED,
        Err(ControlChartError::NonPositiveUnits) => BAD_UNITS,
        Err(why) => panic!("the Rust refuses a sample by {why:?}"),
    }
}

/// '14 is a centre not allowed, a count over 4,096 or over its slices'
fn bad_record(record: &Record, counts: usize, sizes: usize) -> bool {
    let over = |most: usize| record.count > most as u64;
    making(record) != 0 || over(MOST) || over(counts) || over(sizes)
}

/// 'adding: 14, 16 .., 17 .., 18 .., 19 .., 5, 6'
fn adding(record: &Record, counts: usize, sizes: usize, (count, size): (u64, u64)) -> u8 {
    let sample = sample(record.attribute, count, size);
    let holds = |most: usize| record.count >= most as u64;
    first(&[
        (bad_record(record, counts, sizes), BAD_RECORD),
        (sample != 0, sample),
        (holds(MOST), FULL),
        (holds(counts) || holds(sizes), TOO_SHORT),
    ])
}

/// Making's number, adding's number for each sample in turn, the record's count after them, and both slices.
pub fn added(case: &AddingCase) -> Vec<u64> {
    let mut record = case.record.clone();
    let (mut counts, mut sizes) = (vec![BEFORE; case.counts], vec![BEFORE; case.sizes]);
    let mut answer = vec![making(&record).into()];
    for &(count, size) in &case.samples {
        let number = adding(&record, case.counts, case.sizes, (count, size));
        if number == 0 {
            let at = record.count as usize;
            (counts[at], sizes[at]) = (count, size);
            record.count += 1;
        }
        answer.push(number.into());
    }
    answer.push(record.count);
    answer.extend(counts.into_iter().chain(sizes));
    answer
}

/// Making's number, evaluating's, the centre (0 where it is refused), and the six slices: values, upper limits, lower limits,
/// whether out of control, standardized values, whether there is one.
pub fn evaluated(case: &AttributesCase) -> Vec<u64> {
    let record = &case.record;
    let mut answer = vec![making(record).into()];
    let mut slices = case.rooms.map(|room| vec![BEFORE; room]);
    let mut centre = 0;
    let mut number = ahead(case);
    if number == 0 {
        let chart = filled(case);
        let cl = chart.centre().expect("a chart with a sample has a centre");
        if are_finite(cl, chart.points()) {
            centre = cl.to_bits();
            for (slice, column) in slices.iter_mut().zip(columns(chart.points())) {
                slice[..column.len()].copy_from_slice(&column);
            }
        } else {
            // 'which zeroes the output slices'
            number = NOT_FINITE;
            slices.iter_mut().for_each(|slice| slice.fill(0));
        }
    }
    answer.extend([number.into(), centre]);
    answer.extend(slices.into_iter().flatten());
    answer
}

/// 'evaluating: 14, 8 for none, 6'
fn ahead(case: &AttributesCase) -> u8 {
    let record = &case.record;
    let bad = bad_record(record, case.counts.len(), case.sizes.len());
    // 'and in evaluating a stored sample that 16 to 19 refuse'
    let bad_sample = |(&count, &size): (&u64, &u64)| sample(record.attribute, count, size) != 0;
    let held = || case.counts.iter().zip(&case.sizes).take(record.count as usize);
    first(&[
        (bad || held().any(bad_sample), BAD_RECORD),
        (record.count == 0, TOO_FEW),
        (case.rooms.iter().any(|&room| (room as u64) < record.count), TOO_SHORT),
    ])
}

/// The Rust's chart with every sample that the record counts.
fn filled(case: &AttributesCase) -> Chart {
    let record = &case.record;
    let mut chart = Chart::made(record.attribute, record.centre).expect("an allowed centre");
    for (&count, &size) in case.counts.iter().zip(&case.sizes).take(record.count as usize) {
        chart.add(count, size).expect("a sample that none of its refusals meets");
    }
    chart
}

/// Not '7 where the centre, a value, sigma or a limit isn't finite'. The Rust does not tell its sigmas; one that is not
/// finite leaves no finite upper limit.
fn are_finite(centre: f64, points: &[AttributeChartPoint]) -> bool {
    let all = |p: &AttributeChartPoint| [p.value, p.ucl, p.lcl].iter().all(|x| x.is_finite());
    centre.is_finite() && points.iter().all(all)
}

fn columns(points: &[AttributeChartPoint]) -> [Vec<u64>; 6] {
    let column = |one: &dyn Fn(&AttributeChartPoint) -> u64| points.iter().map(one).collect();
    [
        column(&|p| p.value.to_bits()),
        column(&|p| p.ucl.to_bits()),
        column(&|p| p.lcl.to_bits()),
        column(&|p| p.out_of_control.into()),
        // a missing one is +0.0
        column(&|p| p.z.map_or(0, f64::to_bits)),
        column(&|p| p.z.is_some().into()),
    ]
}
