//! Samples for the P and U charts (02, R-2): what counts and f64s can be at their ends, each refusal, and each two that can
//! meet.

use crate::case::{AddingCase, Attribute, AttributesCase, Case, Record};
use crate::random::Random;
use crate::scope::{MOST, MOST_ROOM};

const BOTH: [Attribute; 2] = [Attribute::P, Attribute::U];

/// The largest count that is taken.
const LARGEST: u64 = 4_294_967_295;

/// The smallest f64.
const LEAST: f64 = f64::from_bits(1);

/// A count and a size; of U the bits of its units.
type Sample = (u64, u64);

fn units(count: u64, units: f64) -> Sample {
    (count, units.to_bits())
}

fn record(attribute: Attribute, centre: Option<f64>, count: usize) -> Record {
    Record { attribute, centre: centre.map(f64::to_bits), count: count as u64 }
}

/// A chart of these samples in slices that fit, evaluated into slices that are longer by these.
fn plotted(
    attribute: Attribute,
    centre: Option<f64>,
    samples: &[Sample],
    spare: [usize; 6],
) -> AttributesCase {
    AttributesCase {
        record: record(attribute, centre, samples.len()),
        counts: samples.iter().map(|s| s.0).collect(),
        sizes: samples.iter().map(|s| s.1).collect(),
        rooms: spare.map(|more| samples.len() + more),
    }
}

pub fn list(random: &mut Random) -> Vec<Case> {
    let mut evaluated = by_hand();
    evaluated.extend(with_given_centres());
    evaluated.extend(refused_evaluating());
    for attribute in BOTH {
        for data in DATA {
            for count in [1, 2, 3, 8] {
                let samples = samples(random, attribute, data, count);
                for centre in [None, Some(usual_centre(random, attribute, &samples))] {
                    evaluated.push(plotted(attribute, centre, &samples, [1, 0, 2, 0, 1, 0]));
                }
            }
        }
        let long = seldom(random, attribute, MOST);
        evaluated.push(plotted(attribute, None, &long, [0; 6]));
    }
    let added = added_by_hand(random).into_iter().chain(refused_adding()).map(Case::Adding);
    added.chain(evaluated.into_iter().map(Case::Attributes)).collect()
}

// ---- evaluating ------------------------------------------------------------

/// Samples at the ends of what they can be, about a computed centre.
fn by_hand() -> Vec<AttributesCase> {
    let parcels: [&[Sample]; 13] = [
        &[(3, 100), (5, 100), (2, 100), (4, 100)],
        &[(0, 1)],
        &[(1, 1)],
        &[(1, 2)],
        &[(0, 10), (0, 5)],
        &[(10, 10), (5, 5)],
        &[(0, LARGEST)],
        &[(1, LARGEST)],
        &[(LARGEST - 1, LARGEST)],
        &[(LARGEST, LARGEST)],
        &[(LARGEST, LARGEST), (0, LARGEST), (1, LARGEST), (LARGEST, LARGEST)],
        &[(LARGEST, LARGEST), (0, 1)],
        &[(1, 1), (0, LARGEST), (7, 2_000_000_011)],
    ];
    let per_unit: [&[Sample]; 15] = [
        &[units(3, 1.0), units(5, 2.5), units(2, 0.5), units(4, 1.0)],
        &[units(0, 1.0)],
        &[units(1, 0.1)],
        &[units(LARGEST, 1.0)],
        &[units(LARGEST, 3.0), units(0, 0.1), units(1, 7.0)],
        // the sum of units goes from left to right
        &[
            units(1, 0.1),
            units(1, 0.2),
            units(1, 0.3),
            units(1, 0.4),
            units(1, 0.5),
            units(1, 0.6),
            units(1, 0.7),
        ],
        &[units(2, 1.0e16), units(1, 1.0), units(1, 1.0), units(1, 1.0)],
        &[units(1, 1.0), units(1, 1.0), units(1, 1.0), units(2, 1.0e16)],
        // none damaged, in the least of units and in the most
        &[units(0, LEAST), units(0, f64::MIN_POSITIVE), units(0, f64::MAX)],
        &[units(1, f64::MIN_POSITIVE)],
        &[units(1, f64::MAX)],
        // the sum of units is infinite, and the centre 0.0
        &[units(3, f64::MAX), units(2, f64::MAX)],
        &[units(0, f64::MAX), units(0, f64::MAX), units(1, 1.0)],
        // the value is past the largest (7): with the centre, and by itself
        &[units(1, LEAST)],
        &[units(1, LEAST), units(0, 1.0)],
    ];
    let spare = [2, 0, 1, 3, 0, 4];
    let p = parcels.iter().map(|samples| plotted(Attribute::P, None, samples, spare));
    p.chain(per_unit.iter().map(|samples| plotted(Attribute::U, None, samples, spare))).collect()
}

/// Given centres: worked points on a limit and beside it, the ends of what is allowed, and all that is not.
fn with_given_centres() -> Vec<AttributesCase> {
    let spare = [0, 1, 0, 1, 2, 0];
    let quarter = [(27, 36), (28, 36), (9, 36), (8, 36), (18, 36)];
    let sixteen = [28, 29, 4, 3, 16].map(|count| units(count, 1.0));
    let mut cases = vec![
        plotted(Attribute::P, Some(0.5), &quarter, spare),
        plotted(Attribute::U, Some(16.0), &sixteen, spare),
        // about where the lower limit leaves zero
        plotted(Attribute::P, Some(0.1), &[(0, 79), (0, 80), (0, 81), (0, 82), (0, 83)], spare),
        plotted(
            Attribute::U,
            Some(9.0),
            &[units(0, 1.0), units(0, 1.0_f64.next_up()), units(0, 0.99)],
            spare,
        ),
        // sigmas so small that z is infinite, and that there is none
        plotted(Attribute::U, Some(LEAST), &[units(LARGEST, 3.0e-299), units(1, f64::MAX)], spare),
        // past the largest (7): a sigma, and a value beside finite limits
        plotted(Attribute::U, Some(1.0), &[units(0, LEAST)], spare),
        plotted(Attribute::U, Some(LEAST), &[units(LARGEST, 1.0e-300)], spare),
    ];
    let parcels = [(0, 1), (1, 1), (3, 7), (LARGEST, LARGEST), (0, LARGEST)];
    let per_unit = [units(0, 1.0), units(1, 0.25), units(LARGEST, 1.0e9), units(1, 1.0e300)];
    for centre in centres() {
        cases.push(plotted(Attribute::P, Some(centre), &parcels, spare));
        cases.push(plotted(Attribute::U, Some(centre), &per_unit, spare));
    }
    cases
}

/// The ends of what is allowed as a given centre, and what is just not.
fn centres() -> Vec<f64> {
    let below_one = 1.0_f64.next_down();
    let allowed = [LEAST, f64::MIN_POSITIVE, 0.3, below_one, 1.0, 1.0_f64.next_up(), 1.0e300, f64::MAX];
    let never = [f64::NAN, -f64::NAN, f64::INFINITY, f64::NEG_INFINITY, 0.0, -0.0, -LEAST, -0.5, -1.0];
    let signalling = f64::from_bits(0x7ff0_0000_0000_0001);
    allowed.into_iter().chain(never).chain([signalling]).collect()
}

/// Samples that are refused, by 16, 17, 18 or 19 and by more than one of them.
fn bad_samples(attribute: Attribute) -> Vec<Sample> {
    let over = LARGEST + 1;
    match attribute {
        Attribute::P => vec![
            (3, over),
            (over, LARGEST),
            (over, over),
            (u64::MAX, 0),
            (0, u64::MAX),
            (0, 0),
            (1, 0),
            (6, 5),
            (LARGEST, LARGEST - 1),
        ],
        Attribute::U => {
            let bad = [f64::NAN, f64::INFINITY, f64::NEG_INFINITY, 0.0, -0.0, -1.0, -LEAST];
            let of = |count: u64| bad.map(|x| units(count, x)).into_iter();
            of(3).chain(of(over)).chain([units(over, 1.0), units(u64::MAX, LEAST)]).collect()
        }
    }
}

fn good_sample(attribute: Attribute) -> Sample {
    match attribute {
        Attribute::P => (3, 100),
        Attribute::U => units(3, 2.5),
    }
}

/// 14, 8, 6 and 7: each alone, and each two that can meet.
fn refused_evaluating() -> Vec<AttributesCase> {
    let mut cases = Vec::new();
    for attribute in BOTH {
        let good = vec![good_sample(attribute); 3];
        // U alone can reach 7
        let mut plots = vec![good.clone()];
        if let Attribute::U = attribute {
            plots.push(vec![units(1, 1.0), units(1, LEAST), units(1, 1.0)]);
        }
        for samples in plots {
            let right = plotted(attribute, None, &samples, [1, 2, 0, 1, 0, 2]);
            for case in bad_records(&right).into_iter().chain([right]) {
                cases.extend(with_short_rooms(&case));
                cases.push(case);
            }
        }
        for bad in bad_samples(attribute) {
            for at in 0..4 {
                // the fourth stands past the count, and nothing looks at it
                let mut samples = [&good[..], &[good_sample(attribute)]].concat();
                samples[at] = bad;
                let mut case = plotted(attribute, None, &samples, [0; 6]);
                case.record.count = 3;
                cases.push(case);
            }
        }
        for centre in [None, Some(0.5), Some(f64::NAN)] {
            cases.push(plotted(attribute, centre, &[], [0; 6]));
            cases.push(plotted(attribute, centre, &[], [2, 0, 1, 2, 0, 1]));
        }
        // a count over 4,096 that the slices hold
        let many = vec![(1, 1); MOST_ROOM];
        let mut case = plotted(attribute, None, &many, [0; 6]);
        case.record.count = MOST as u64 + 1;
        case.rooms = [0; 6];
        cases.push(case);
    }
    cases
}

/// Records that are no chart for the slices of one that is: by the centre, and by the count.
fn bad_records(right: &AttributesCase) -> Vec<AttributesCase> {
    let centred = |x: f64| {
        let mut case = right.clone();
        case.record.centre = Some(x.to_bits());
        case
    };
    let counted = |count: u64| {
        let mut case = right.clone();
        case.record.count = count;
        case
    };
    let (mut few_counts, mut few_sizes) = (right.clone(), right.clone());
    few_counts.counts.pop();
    few_sizes.sizes.pop();
    vec![centred(-0.5), counted(4), counted(1 << 32), counted(u64::MAX), few_counts, few_sizes]
}

/// Each of the six slices one entry short by itself, and all of them empty.
fn with_short_rooms(case: &AttributesCase) -> Vec<AttributesCase> {
    let one_short = |k: usize| {
        let mut short = case.clone();
        short.rooms[k] = case.counts.len().min(case.sizes.len()) - 1;
        short
    };
    let empty = AttributesCase { rooms: [0; 6], ..case.clone() };
    (0..6).map(one_short).chain([empty]).collect()
}

// ---- adding ----------------------------------------------------------------

fn adding(record: Record, counts: usize, sizes: usize, samples: Vec<Sample>) -> AddingCase {
    AddingCase { record, counts, sizes, samples }
}

/// Samples that are taken one after another, from none on and behind others; each centre of `centres`.
fn added_by_hand(random: &mut Random) -> Vec<AddingCase> {
    let mut cases = Vec::new();
    for attribute in BOTH {
        let many = samples(random, attribute, Data::Usual, 24);
        cases.push(adding(record(attribute, None, 0), 26, 24, many.clone()));
        cases.push(adding(record(attribute, Some(0.25), 5), 29, 31, many));
        let ends = match attribute {
            Attribute::P => vec![(0, 1), (1, 1), (0, LARGEST), (LARGEST, LARGEST)],
            Attribute::U => vec![units(0, LEAST), units(LARGEST, f64::MAX)],
        };
        cases.push(adding(record(attribute, None, 1), 8, 8, ends));
        for centre in centres() {
            cases.push(adding(record(attribute, Some(centre), 0), 1, 1, vec![good_sample(attribute)]));
        }
    }
    cases
}

/// Every sample that is refused, then a good one and one more: beside a right record, and beside each that is refused by 14,
/// 5 or 6, or by two of them. A refusal leaves all as it was, so one case tries all samples.
fn refused_adding() -> Vec<AddingCase> {
    let mut cases = Vec::new();
    for attribute in BOTH {
        let mut samples = bad_samples(attribute);
        samples.extend([good_sample(attribute); 2]);
        for (count, counts, sizes) in [
            (2, 5, 6),
            // 6: no room for one more, or for two
            (2, 2, 5),
            (2, 5, 2),
            (0, 0, 0),
            (2, 3, 3),
            // 14: over a slice
            (3, 2, 5),
            (3, 5, 2),
            (3, 2, 2),
            // 5, alone and with 6; 14, alone and with both
            (MOST, MOST_ROOM, MOST_ROOM),
            (MOST, MOST, MOST_ROOM),
            (MOST + 1, MOST_ROOM, MOST_ROOM),
            (MOST + 1, MOST + 1, MOST_ROOM),
            // the last that is taken
            (MOST - 1, MOST_ROOM, MOST),
        ] {
            cases.push(adding(record(attribute, None, count), counts, sizes, samples.clone()));
        }
        let beyond = Record { count: u64::MAX, ..record(attribute, None, 0) };
        cases.push(adding(beyond, 3, 3, samples.clone()));
        for (count, room) in [(2, 5), (2, 2)] {
            cases.push(adding(record(attribute, Some(f64::NAN), count), room, room, samples.clone()));
            cases.push(adding(record(attribute, Some(0.5), count), room, room, samples.clone()));
        }
    }
    cases
}

// ---- samples by chance -----------------------------------------------------

#[derive(Clone, Copy)]
enum Data {
    Usual,
    Equal,
    NoneDamaged,
    AllDamaged,
    Wide,
    Tiny,
    Huge,
    AnyBits,
}

const DATA: [Data; 8] = [
    Data::Usual,
    Data::Equal,
    Data::NoneDamaged,
    Data::AllDamaged,
    Data::Wide,
    Data::Tiny,
    Data::Huge,
    Data::AnyBits,
];

/// A number of any length in bits, up to the largest count.
fn any_count(random: &mut Random) -> u64 {
    (random.bits() & LARGEST) >> random.below(32)
}

fn samples(random: &mut Random, attribute: Attribute, data: Data, count: usize) -> Vec<Sample> {
    let one = |random: &mut Random| match attribute {
        Attribute::P => parcels(random, data),
        Attribute::U => per_unit(random, data),
    };
    (0..count).map(|_| one(random)).collect()
}

fn parcels(random: &mut Random, data: Data) -> Sample {
    let inspected = match data {
        Data::Equal => 100,
        Data::Tiny => random.between(1, 3) as u64,
        Data::Huge => LARGEST - any_count(random) % 1000,
        Data::Wide | Data::AnyBits => any_count(random).max(1),
        _ => random.between(20, 400) as u64,
    };
    let damaged = match data {
        Data::NoneDamaged => 0,
        Data::AllDamaged => inspected,
        Data::Usual | Data::Equal => (inspected as f64 * 0.1 * random.unit()) as u64,
        _ => random.bits() % (inspected + 1),
    };
    (damaged, inspected)
}

fn per_unit(random: &mut Random, data: Data) -> Sample {
    let size = match data {
        Data::Equal => 2.5,
        Data::Tiny => f64::from_bits(1 + random.bits() % (1 << 53)),
        Data::Huge => f64::MAX / random.pick(&[1.0, 1.5, 2.0, 16.0]),
        Data::Wide => random.unit() * random.pick(&[1.0e-150, 1.0e-9, 1.0, 1.0e9, 1.0e150]) + 1.0e-200,
        Data::AnyBits => random.finite().abs().max(LEAST),
        _ => (1 + random.below(60)) as f64 / 20.0,
    };
    let damaged = match data {
        Data::NoneDamaged => 0,
        Data::AllDamaged => LARGEST - any_count(random) % 3,
        Data::Usual | Data::Equal => random.below(12) as u64,
        _ => random.pick(&[0, 1]) * any_count(random),
    };
    units(damaged, size)
}

/// Damage is seldom: most values and all lower limits are zero.
fn seldom(random: &mut Random, attribute: Attribute, count: usize) -> Vec<Sample> {
    let damaged = |random: &mut Random| u64::from(random.one_in(12)) * random.between(1, 5) as u64;
    let one = |random: &mut Random| match attribute {
        Attribute::P => (damaged(random), random.between(100, 900) as u64),
        Attribute::U => units(damaged(random), (1 + random.below(60)) as f64 / 20.0),
    };
    (0..count).map(|_| one(random)).collect()
}

/// A centre about which samples may lie.
fn usual_centre(random: &mut Random, attribute: Attribute, samples: &[Sample]) -> f64 {
    let (count, size) = samples[random.below(samples.len())];
    match attribute {
        Attribute::P => 0.02 + 0.9 * random.unit(),
        Attribute::U => ((count + 1) as f64 / f64::from_bits(size)).clamp(LEAST, f64::MAX),
    }
}

/// Any chart, evaluated or added to; one in four is spoiled in some way.
pub fn any(random: &mut Random) -> Case {
    let attribute = random.pick(&BOTH);
    let count = match random.below(64) {
        0 => random.pick(&[MOST - 1, MOST]),
        1..=8 => random.between(18, 200),
        _ => random.between(0, 20),
    };
    let data = random.pick(&DATA);
    let samples = samples(random, attribute, data, count);
    let centre = match random.below(4) {
        0 | 1 => None,
        2 if !samples.is_empty() => Some(usual_centre(random, attribute, &samples)),
        _ => Some(random.pick(&centres())),
    };
    if random.one_in(4) {
        return Case::Adding(any_adding(random, attribute, centre, samples));
    }
    let spare = [0; 6].map(|_| random.below(3));
    let mut case = plotted(attribute, centre, &samples, spare);
    if random.one_in(4) {
        spoil(random, &mut case);
    }
    case.counts.truncate(MOST_ROOM);
    case.sizes.truncate(MOST_ROOM);
    case.rooms = case.rooms.map(|room| room.min(MOST_ROOM));
    Case::Attributes(case)
}

fn any_adding(
    random: &mut Random,
    attribute: Attribute,
    centre: Option<f64>,
    mut samples: Vec<Sample>,
) -> AddingCase {
    samples.truncate(200);
    let count = random.pick(&[0, 0, 1, 30, MOST - 2]);
    let room =
        |random: &mut Random| (count + samples.len() + random.below(4)).saturating_sub(1).min(MOST_ROOM);
    let (counts, sizes) = (room(random), room(random));
    let bad = bad_samples(attribute);
    for sample in &mut samples {
        if random.one_in(8) {
            *sample = random.pick(&bad);
        }
    }
    adding(record(attribute, centre, count), counts, sizes, samples)
}

/// A bad sample, another count, a slice that is longer or shorter.
fn spoil(random: &mut Random, case: &mut AttributesCase) {
    let held = case.counts.len();
    match random.below(4) {
        0 if held > 0 => {
            let at = random.below(held);
            (case.counts[at], case.sizes[at]) = random.pick(&bad_samples(case.record.attribute));
        }
        1 => {
            let any = random.bits();
            case.record.count = random.pick(&[0, held as u64 / 2, held as u64 + 1, MOST as u64 + 1, any]);
        }
        2 if held > 0 => {
            let slice = if random.one_in(2) { &mut case.counts } else { &mut case.sizes };
            slice.pop();
        }
        _ => {
            let room = random.below(6);
            case.rooms[room] = random.below(held + 1);
        }
    }
}
