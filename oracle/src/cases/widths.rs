//! Width modes for marking and for charts (02, R-5): where the two part, and each way of 21.

use super::edges::{lower_flaws, lower_windows};
use super::flows::{flow, Shape, SHAPES};
use super::limits::{self, about, ALL};
use super::{charts, stops};
use crate::case::{ChartCase, Limits, MarksCase, ModedChart, ModedMarks, StoppedChart, StoppedMarks};
use crate::random::Random;
use crate::scope::ALL_TESTS;
use crate::widths::Mode;

/// The smallest f64: small multiples of it cost one byte each in a list.
const UNIT: f64 = f64::from_bits(1);

/// Half as wide below as above: 8 and 16 units above, and by mode 1 4 and 8 below.
const SKEW: Limits = Limits { ucl: 84.0 * UNIT, cl: 60.0 * UNIT, lcl: 48.0 * UNIT };

/// Both sides as `SKEW` has the lower one by mode 1.
const NARROW: Limits = Limits { ucl: 72.0 * UNIT, ..SKEW };

/// No modes; cut to eight or to 32 bits some would be.
const NO_MODES: [u64; 7] = [2, 3, 255, 256, 1 << 32, (1 << 32) + 1, u64::MAX];

fn moded(width: u64, limits: Limits, values: Vec<f64>) -> ModedMarks {
    let marks = MarksCase { set: ALL_TESTS, limits, values };
    ModedMarks { width, stopped: StoppedMarks { moving: false, stops: vec![], marks } }
}

pub fn marks_list(random: &mut Random) -> Vec<ModedMarks> {
    let mut cases = Vec::new();
    // 02's lower lines and 01's: each window about them, by the mode that has them and by the other.
    for width in [0, 1] {
        cases.extend(lower_windows(&NARROW).into_iter().map(|v| moded(width, SKEW, v)));
    }
    cases.extend(lower_flaws(&NARROW).into_iter().map(|v| moded(1, SKEW, v)));
    for l in ALL {
        let edges: Vec<f64> = limits::lines(&l, Mode::New).into_iter().flat_map(about).collect();
        let n = random.between(15, 18);
        cases.push(moded(1, l, (0..n).map(|_| random.pick(&edges)).collect()));
    }
    for moving in [false, true] {
        for shape in SHAPES {
            let mut case = moded(1, SKEW, flow(random, shape, &NARROW, 24));
            case.stopped.moving = moving;
            case.stopped.stops = (1..24).filter(|_| random.one_in(12)).collect();
            cases.push(case);
        }
    }
    for width in NO_MODES {
        for stops in [vec![], vec![1], vec![2]] {
            let mut case = moded(width, SKEW, vec![SKEW.cl; 2]);
            case.stopped.stops = stops;
            cases.push(case);
        }
        cases.push(moded(width, SKEW, vec![]));
    }
    cases
}

/// A chart that counts all the stops of a list.
fn charted(width: u64, list: Vec<u64>, chart: ChartCase) -> ModedChart {
    ModedChart { width, stopped: StoppedChart { count: list.len() as u64, list, chart } }
}

pub fn charts_list(random: &mut Random) -> Vec<ModedChart> {
    let mut cases = Vec::new();
    for kind in [1, 2, 3] {
        for width in [0, 1, 1] {
            cases.push(charted(width, vec![], charts::wide(random, kind, 16)));
            cases.push(charted(width, vec![], charts::shaped(random, kind, Shape::Runs, 16)));
        }
        for shape in SHAPES {
            let chart = charts::shaped(random, kind, shape, 14);
            let stops = (1..14).filter(|_| random.one_in(12)).collect();
            cases.push(charted(1, stops, chart));
        }
        // 15 before 21, and 21 before 8 and 7.
        for width in NO_MODES {
            let widening = |n, stop| charted(width, vec![stop], stops::widening(kind, n));
            cases.extend([widening(5, 1), widening(5, 5), widening(0, 1)]);
            cases.extend([stops::widening(kind, 0), stops::past(kind)].map(|c| charted(width, vec![], c)));
        }
    }
    cases
}

/// Any values with any stops, mostly by mode 1.
pub fn any_marks(random: &mut Random) -> ModedMarks {
    ModedMarks { width: any_width(random), stopped: stops::any_marks(random) }
}

/// Any chart with any stops, mostly by mode 1.
pub fn any_chart(random: &mut Random) -> ModedChart {
    ModedChart { width: any_width(random), stopped: stops::any_chart(random) }
}

fn any_width(random: &mut Random) -> u64 {
    let none = random.pick(&NO_MODES);
    random.pick(&[0, 1, 1, 1, 1, 1, 1, none])
}
