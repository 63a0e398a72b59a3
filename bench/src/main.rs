//! How long our calls take, and the Rust's for the same. README.md says what each line means.

mod data;
#[path = "../../host/src/mode.rs"]
mod mode;
mod ours;
mod rust;
mod stops;
mod time;

use data::{Samples, Sizes, LANES, LIMITS, POINTS};
use ours::{OWN_WIDTHS, SAME_WIDTHS};
use time::{keep, lasting, median, medians, opaque, single};
use u_analytics::spc::chart::ChartPoint;

const SHEWHART: u16 = 1;
const NELSON: u16 = 255;
const WESTERN_ELECTRIC: u16 = 305;
const EIGHT_ONE_SIDE: u16 = 1 << 8;
const ALL: u16 = 511;

/// A floating-point mode that is not the default one: subnormals are flushed.
const FLUSHING: mode::word::Word = if cfg!(target_arch = "x86_64") { 0x9fc0 } else { 1 << 24 };

fn main() {
    let word = std::env::args().nth(1);
    let turns = word.and_then(|w| w.parse().ok()).expect("a number of turns");
    marking_values(turns);
    marking_stopped(turns);
    single_tests(turns);
    short_series(turns);
    lanes(turns);
    marking_bytes(turns);
    sheets(turns);
    evidence(turns);
    roots(turns);
    modes(turns);
    evaluating(turns);
    attribute_charts(turns);
}

/// What is marked: the lines of both tables of marking.
fn flows() -> [(&'static str, u16, Vec<f64>); 6] {
    [
        ("nelson, in control", NELSON, data::in_control()),
        ("nelson, two-peaked", NELSON, data::two_peaked()),
        ("nelson, constant", NELSON, data::constant(25.0)),
        ("western_electric, in control", WESTERN_ELECTRIC, data::in_control()),
        ("shewhart, in control", SHEWHART, data::in_control()),
        ("one other test, in control", EIGHT_ONE_SIDE, data::in_control()),
    ]
}

fn marking_values(turns: usize) {
    println!();
    println!("{:<36}{:>8}{:>16}{:>8}", "marking values, ns a point", "ours", "Rust, points", "ratio");
    for (name, set, values) in flows() {
        let (points, rules) = (rust::points_of(values.iter().copied()), rust::set_of(set));
        let mut marks = vec![0; POINTS];
        assert_eq!(ours::mark_values(&values, set, &mut marks), 0);
        assert_eq!(marks, rust::marks_of(&rust::mark(&points, rules), POINTS), "marks differ: {name}");

        let [mine, theirs] = medians(
            turns,
            [&mut || keep(ours::mark_values(opaque(&values), set, &mut marks)), &mut || {
                keep(rust::mark(opaque(&points), rules))
            }],
        )
        .map(|t| t / POINTS as f64);
        println!("{name:<36}{mine:>8.2}{theirs:>16.2}{:>8.2}", mine / theirs);
    }
}

/// What stops cost: the same series marked with them and without. The Rust has no stops.
fn marking_stopped(turns: usize) {
    println!();
    println!("{:<36}{:>8}{:>16}{:>8}", "marking values, with stops", "ours", "no stops", "ratio");
    let flows = [
        data::in_control(),
        data::two_peaked(),
        data::constant(LIMITS.cl),
        data::constant(LIMITS.cl + 1.5),
        data::up_and_down(),
    ];
    for (name, stops, moving) in [
        ("nelson, 100 stops", stops::spread(100), false),
        ("nelson, 100 stops, moving ranges", stops::spread(100), true),
        ("nelson, 4,095 stops", stops::spread(POINTS - 1), false),
    ] {
        let (mut marks, mut whole) = (vec![0; POINTS], vec![0; POINTS]);
        for (values, set) in flows.iter().flat_map(|f| [(f, ALL), (f, NELSON)]) {
            assert_eq!(ours::mark_values(values, set, &mut whole), 0);
            assert_eq!(ours::mark_stopped(values, &stops, moving, set, &mut marks), 0);
            assert_ne!(marks, whole, "nothing is taken away: {name}");
            assert_eq!(marks, stops::left_of(&whole, &stops, moving), "marks differ: {name}");
        }

        let [stopped, none] = medians(
            turns,
            [
                &mut || keep(ours::mark_stopped(opaque(&flows[0]), &stops, moving, NELSON, &mut marks)),
                &mut || keep(ours::mark_values(opaque(&flows[0]), NELSON, &mut whole)),
            ],
        )
        .map(|t| t / POINTS as f64);
        println!("{name:<36}{stopped:>8.2}{none:>16.2}{:>8.2}", stopped / none);
    }
}

/// Each test alone, by the bit that it has in a set.
const TESTS: [&str; 9] = [
    "beyond the limits",
    "nine on one side",
    "six trending",
    "fourteen alternating",
    "two of three beyond two sigma",
    "four of five beyond one sigma",
    "fifteen within one sigma",
    "eight beyond one sigma",
    "eight on one side",
];

fn single_tests(turns: usize) {
    println!();
    println!("{:<36}{:>8}{:>16}{:>8}", "one test, in control, ns a point", "ours", "Rust, points", "ratio");
    let values = data::in_control();
    let points = rust::points_of(values.iter().copied());
    let mut marks = vec![0; POINTS];
    for (bit, name) in TESTS.iter().enumerate() {
        let set = 1 << bit;
        let rules = rust::set_of(set);
        assert_eq!(ours::mark_values(&values, set, &mut marks), 0);
        assert_eq!(marks, rust::marks_of(&rust::mark(&points, rules), POINTS), "marks differ: {name}");

        let [mine, theirs] = medians(
            turns,
            [&mut || keep(ours::mark_values(opaque(&values), set, &mut marks)), &mut || {
                keep(rust::mark(opaque(&points), rules))
            }],
        )
        .map(|t| t / POINTS as f64);
        println!("{name:<36}{mine:>8.2}{theirs:>16.2}{:>8.2}", mine / theirs);
    }
}

/// What a whole call takes on a chart of few points: by values, and through the boundary.
fn short_series(turns: usize) {
    println!();
    println!(
        "{:<36}{:>8}{:>16}{:>8}{:>10}{:>8}{:>10}{:>10}",
        "few points, nelson, ns a call",
        "ours",
        "Rust, points",
        "ratio",
        "bytes",
        "ratio",
        "checking",
        "writing"
    );
    for n in [1, 8, 25, 100] {
        let values = &data::in_control()[..n];
        let bytes = data::bytes_of(values);
        let (points, rules) = (rust::points_of(values.iter().copied()), rust::set_of(NELSON));
        let (mut marks, mut marked, mut room) = (vec![0; n], vec![0; 2 * n], vec![0; 8 * n + 64]);
        assert_eq!(ours::mark_values(values, NELSON, &mut marks), 0);
        assert_eq!(marks, rust::marks_of(&rust::mark(&points, rules), n), "marks differ: {n} points");
        let answer = ours::write(&bytes, NELSON, &mut room);
        assert_eq!(answer & 0xff, 0);
        let sheet = room[..(answer >> 8) as usize].to_vec();
        assert_eq!(ours::check(&bytes, NELSON, &sheet), 0, "the sheet is refused: {n} points");

        let [mine, theirs, from_bytes, checking, writing] = medians(
            turns,
            [
                &mut || keep(ours::mark_values(opaque(values), NELSON, &mut marks)),
                &mut || keep(rust::mark(opaque(&points), rules)),
                &mut || keep(ours::mark(opaque(&bytes), NELSON, &mut marked)),
                &mut || keep(ours::check(opaque(&bytes), NELSON, &sheet)),
                &mut || keep(ours::write(opaque(&bytes), NELSON, &mut room)),
            ],
        );
        let (to_values, to_bytes) = (mine / theirs, from_bytes / theirs);
        println!(
            "{n:<36}{mine:>8.0}{theirs:>16.0}{to_values:>8.2}{from_bytes:>10.0}{to_bytes:>8.2}{checking:>10.0}{writing:>10.0}"
        );
    }
}

/// Eight lanes by turns, a value at a time. The Rust is asked over the last fifteen points, and for the last of them. The limits
/// are symmetric to the bit, so width mode 1 has the same marks.
fn lanes(turns: usize) {
    println!();
    println!(
        "{:<36}{:>8}{:>16}{:>8}{:>14}{:>14}",
        "lanes, ns a value", "ours", "Rust, fifteen", "ratio", "ours, mode 1", "ours, whole"
    );
    for (name, set, values) in flows() {
        let series: [Vec<f64>; LANES] =
            std::array::from_fn(|k| values.iter().copied().skip(k).step_by(LANES).collect());
        let (points, rules) =
            (series.each_ref().map(|s| rust::points_of(s.iter().copied())), rust::set_of(set));
        let one_by_one = |points: &[Vec<ChartPoint>; LANES]| -> Vec<u16> {
            let at = |i: usize| rust::mark_last(&points[i % LANES][..=i / LANES], rules);
            (0..POINTS).map(at).collect()
        };
        let (mut marks, mut whole) = (vec![0; POINTS], vec![0; POINTS / LANES]);
        let mut own = vec![0; POINTS];
        ours::mark_by_lanes(&values, SAME_WIDTHS, set, &mut marks);
        ours::mark_by_lanes(&values, OWN_WIDTHS, set, &mut own);
        assert_eq!([&marks, &own], [&one_by_one(&points); 2], "marks differ: {name}");

        let [mine, by_side, theirs, at_once] = medians(
            turns,
            [
                &mut || ours::mark_by_lanes(opaque(&values), SAME_WIDTHS, set, &mut marks),
                &mut || ours::mark_by_lanes(opaque(&values), OWN_WIDTHS, set, &mut own),
                &mut || keep(one_by_one(opaque(&points))),
                &mut || {
                    opaque(&series).iter().for_each(|lane| keep(ours::mark_values(lane, set, &mut whole)))
                },
            ],
        )
        .map(|t| t / POINTS as f64);
        println!("{name:<36}{mine:>8.2}{theirs:>16.2}{:>8.2}{by_side:>14.2}{at_once:>14.2}", mine / theirs);
    }
}

fn marking_bytes(turns: usize) {
    println!();
    println!(
        "{:<36}{:>8}{:>16}{:>8}{:>18}{:>8}",
        "marking bytes, ns a point", "ours", "Rust, points", "ratio", "Rust, bytes", "ratio"
    );
    for (name, set, values) in flows() {
        let (bytes, points) = (data::bytes_of(&values), rust::points_of(values.into_iter()));
        let rules = rust::set_of(set);
        let mut marks = vec![0; 2 * POINTS];
        assert_eq!(ours::mark(&bytes, set, &mut marks), 0);
        let theirs = rust::marks_of(&rust::mark(&points, rules), POINTS);
        assert_eq!(marks, data::bytes_of_marks(&theirs), "marks differ: {name}");

        let [mine, ready, from_bytes] = medians(
            turns,
            [
                &mut || keep(ours::mark(opaque(&bytes), set, &mut marks)),
                &mut || keep(rust::mark(opaque(&points), rules)),
                &mut || keep(rust::mark(&rust::points_from_bytes(opaque(&bytes)), rules)),
            ],
        )
        .map(|t| t / POINTS as f64);
        let (to_ready, to_bytes) = (mine / ready, mine / from_bytes);
        println!("{name:<36}{mine:>8.2}{ready:>16.2}{to_ready:>8.2}{from_bytes:>18.2}{to_bytes:>8.2}");
    }
}

fn sheets(turns: usize) {
    println!();
    println!(
        "{:<36}{:>8}{:>16}{:>8}{:>18}{:>8}",
        "sheets, ns a point", "marking", "checking", "ratio", "writing", "ratio"
    );
    for (name, set, values) in [
        ("nelson, few marked", NELSON, data::in_control()),
        ("nelson, marks of both widths", NELSON, data::beyond(8, 9)),
        ("nelson, nearly all marked", NELSON, data::constant(LIMITS.cl + 1.5)),
        ("shewhart, in control", SHEWHART, data::in_control()),
        ("shewhart, half marked", SHEWHART, data::beyond(1, 2)),
        ("shewhart, all marked", SHEWHART, data::constant(LIMITS.ucl + 0.5)),
    ] {
        let bytes = data::bytes_of(&values);
        let (mut marks, mut room) = (vec![0; 2 * POINTS], vec![0; 8 * POINTS]);
        let answer = ours::write(&bytes, set, &mut room);
        assert_eq!(answer & 0xff, 0);
        let sheet = room[..(answer >> 8) as usize].to_vec();
        assert_eq!(ours::check(&bytes, set, &sheet), 0, "the sheet is refused: {name}");

        let [marking, checking, writing] = medians(
            turns,
            [
                &mut || keep(ours::mark(opaque(&bytes), set, &mut marks)),
                &mut || keep(ours::check(opaque(&bytes), set, &sheet)),
                &mut || keep(ours::write(opaque(&bytes), set, &mut room)),
            ],
        )
        .map(|t| t / POINTS as f64);
        let (check, write) = (checking / marking, writing / marking);
        println!("{name:<36}{marking:>8.2}{checking:>16.2}{check:>8.2}{writing:>18.2}{write:>8.2}");
    }
}

/// The window behind each mark of a flow under all nine tests. The Rust has no such call.
fn evidence(turns: usize) {
    println!();
    println!("{:<36}{:>8}", "evidence, ns a mark", "ours");
    let flow = data::two_peaked();
    for (name, stops) in [("all nine tests, two-peaked", vec![]), ("the same, 100 stops", stops::spread(100))]
    {
        let mut marks = vec![0; flow.len()];
        assert_eq!(ours::mark_stopped(&flow, &stops, false, ALL, &mut marks), 0);
        let is_marked = |&(at, bit): &(usize, u64)| marks[at] & (1 << bit) != 0;
        let mut pairs: Vec<_> = (0..flow.len()).flat_map(|at| (0..9).map(move |bit| (at, bit))).collect();
        for pair @ &(at, bit) in &pairs {
            let shown = ours::evidence(&flow, &stops, at, bit) != 0;
            assert_eq!(shown, is_marked(pair), "a mark without a window, or a window without: {bit} at {at}");
        }
        pairs.retain(is_marked);
        let ask = |&(at, bit): &(usize, u64)| keep(ours::evidence(&flow, &stops, opaque(at), opaque(bit)));
        let [mine] = medians(turns, [&mut || pairs.iter().for_each(ask)]).map(|t| t / pairs.len() as f64);
        println!("{name:<36}{mine:>8.0}");
    }
}

/// One at a time through the boundary, and all in a loop of ours. Each time is that of numbers not seen before: by the
/// same ones again and again a processor learns where each root ends.
fn roots(turns: usize) {
    println!();
    println!(
        "{:<36}{:>8}{:>16}{:>8}{:>14}",
        "root, ns each", "ours", "the machine's", "ratio", "ours, a loop"
    );
    let lines: [(&str, &mut dyn FnMut() -> f64); 3] = [
        ("any magnitude", &mut data::positive()),
        ("squares of numbers up to 2^20", &mut data::squares(1 << 20)),
        ("squares of numbers up to 2^10", &mut data::squares(1 << 10)),
    ];
    for (name, draw) in lines {
        let draw = std::cell::RefCell::new(draw);
        let fresh = || -> Vec<f64> { (0..POINTS).map(|_| draw.borrow_mut()()).collect() };
        for x in fresh() {
            assert_eq!(ours::root(x).to_bits(), x.sqrt().to_bits(), "roots differ: of {x:e}");
        }
        let times = single(
            turns,
            [
                &mut || {
                    let numbers = fresh();
                    lasting(|| numbers.iter().for_each(|&x| keep(ours::root(opaque(x)))))
                },
                &mut || {
                    let numbers = fresh();
                    lasting(|| numbers.iter().for_each(|&x| keep(opaque(x).sqrt())))
                },
                &mut || {
                    let mut numbers = fresh();
                    lasting(|| ours::roots(opaque(&mut numbers)))
                },
            ],
        );
        let [mine, machine, looped] =
            [0, 1, 2].map(|k| median(&times, |turn: &[f64; 3]| turn[k]) / POINTS as f64);
        println!("{name:<36}{mine:>8.2}{machine:>16.2}{:>8.2}{looped:>14.2}", mine / machine);
    }
}

/// What the package adds to a call, so that its mode is the default one: on the call that takes least.
fn modes(turns: usize) {
    println!();
    println!("{:<36}{:>8}{:>16}{:>8}", "the mode, ns a call", "bare", "guarded", "more");
    for (name, callers) in
        [("called in the default mode", mode::word::DEFAULT), ("called in another mode", FLUSHING)]
    {
        let [bare, guarded] = medians(
            turns,
            [&mut || under(callers, || ours::root(opaque(0.0))), &mut || {
                under(callers, || mode::in_default(|| ours::root(opaque(0.0))))
            }],
        )
        .map(|t| t / POINTS as f64);
        println!("{name:<36}{bare:>8.2}{guarded:>16.2}{:>8.2}", guarded - bare);
    }
}

/// Calls as often as there are points, in a floating-point mode.
fn under(callers: mode::word::Word, call: impl Fn() -> f64) {
    mode::word::write(callers);
    (0..POINTS).for_each(|_| keep(call()));
    mode::word::write(mode::word::DEFAULT);
}

fn evaluating(turns: usize) {
    println!();
    println!("{:<36}{:>8}{:>16}{:>8}", "evaluating, nelson, ns a value", "ours", "Rust", "ratio");
    for (name, kind, size, mut values) in [
        ("individuals, 4,096", 1, 1, data::in_control()),
        ("X-bar-R, 819 of 5", 2, 5, data::in_control()),
        ("X-bar-S, 819 of 5", 3, 5, data::in_control()),
        ("X-bar-S, whole millimetres", 3, 5, data::millimetres()),
    ] {
        values.truncate(values.len() / size * size);
        let rules = rust::set_of(NELSON);
        let mut room = ours::Room::new(values.len());
        let mut chart = Some(rust::Chart::new(kind, size, &values).with_rules(rules));
        let marks = chart.as_ref().map(|c| c.number_of_marks() as u64);
        assert_eq!(Some(room.evaluate(kind, size, NELSON, &values)), marks, "evaluations differ: {name}");

        let [mine, theirs] = medians(
            turns,
            [&mut || keep(room.evaluate(kind, size, NELSON, opaque(&values))), &mut || {
                chart = opaque(chart.take()).map(|c| c.with_rules(rules))
            }],
        )
        .map(|t| t / values.len() as f64);
        println!("{name:<36}{mine:>8.2}{theirs:>16.2}{:>8.2}", mine / theirs);
    }
}

/// What the Rust works out at the last sample of a chart, and what either takes less the roots in it.
fn attribute_charts(turns: usize) {
    println!();
    println!(
        "{:<36}{:>8}{:>16}{:>8}{:>10}{:>16}{:>10}{:>12}{:>8}",
        "attribute charts, ns a sample",
        "ours",
        "Rust",
        "ratio",
        "our root",
        "the machine's",
        "left",
        "left, Rust",
        "ratio"
    );
    // Once a large block was given back, the C library keeps what is given back later. Where it does not, the
    // Rust gets its points' room anew from the system at each sample, and takes twice as long.
    keep(Vec::<u8>::with_capacity(16 << 20));
    for (name, samples, centre) in [
        ("P, computed centre", data::parcels(), None),
        ("P, given centre", data::parcels(), Some(0.03)),
        ("P, none damaged", data::undamaged(data::parcels()), None),
        ("U, computed centre", data::units(), None),
        ("U, given centre", data::units(), Some(2.3)),
        ("U, none damaged", data::undamaged(data::units()), None),
    ] {
        let mut columns = ours::Columns::new(POINTS);
        let cl = columns.evaluate(centre, &samples);
        let chart = rust::Attributes::filled(centre, &samples, POINTS);
        assert_eq!(chart.points().len(), POINTS);
        for (at, point) in chart.points().iter().enumerate() {
            let z = columns.has_z[at].then_some(columns.z[at].to_bits());
            let mine = [cl, columns.values[at], columns.ucl[at], columns.lcl[at]].map(f64::to_bits);
            let theirs = [point.cl, point.value, point.ucl, point.lcl].map(f64::to_bits);
            assert_eq!((mine, columns.out[at], z), (theirs, point.out_of_control, point.z.map(f64::to_bits)));
        }
        let variances = variances(cl, &samples);
        let (mut numbers, mut again) = (variances.clone(), variances.clone());
        ours::roots(&mut numbers);
        again.iter_mut().for_each(|x| *x = x.sqrt());
        assert_eq!(numbers, again, "roots differ: {name}");

        // Ours and its roots one right after the other: what is told as left is the median of their differences.
        let times = single(
            turns,
            [
                &mut || {
                    let mut chart = rust::Attributes::filled(centre, &samples, POINTS - 1);
                    let time = lasting(|| chart.add(opaque(&samples), POINTS - 1));
                    keep(chart);
                    time
                },
                &mut || {
                    again.copy_from_slice(&variances);
                    lasting(|| opaque(&mut again).iter_mut().for_each(|x| *x = x.sqrt()))
                },
                // Like the Rust's chart, which was worked out for one sample less, ours is not the first time.
                &mut || {
                    keep(columns.evaluate(centre, opaque(&samples)));
                    lasting(|| keep(columns.evaluate(centre, opaque(&samples))))
                },
                &mut || {
                    numbers.copy_from_slice(&variances);
                    lasting(|| ours::roots(opaque(&mut numbers)))
                },
            ],
        );
        let sample = |of: &dyn Fn(&[f64; 4]) -> f64| median(&times, of) / POINTS as f64;
        let [theirs, machines, mine, root] = [0, 1, 2, 3].map(|k| sample(&|turn| turn[k]));
        let (left, rusts) = (sample(&|turn| turn[2] - turn[3]), sample(&|turn| turn[0] - turn[1]));
        println!(
            "{name:<36}{mine:>8.2}{theirs:>16.2}{:>8.2}{root:>10.2}{machines:>16.2}{left:>10.2}{rusts:>12.2}{:>8.2}",
            mine / theirs,
            left / rusts
        );
    }
}

/// What both take the roots of, about a centre.
fn variances(cl: f64, samples: &Samples) -> Vec<f64> {
    match &samples.sizes {
        Sizes::Parcels(sizes) => sizes.iter().map(|&n| cl * (1.0 - cl) / n as f64).collect(),
        Sizes::Units(sizes) => sizes.iter().map(|n| cl / n).collect(),
    }
}
