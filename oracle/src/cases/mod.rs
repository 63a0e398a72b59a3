//! The cases: a fixed list for each part, and fresh ones from a seed.

mod attributes;
mod charts;
mod edges;
mod flows;
mod limits;
mod marks;
mod reports;
mod stops;
mod widths;

use crate::case::Case;
use crate::random::Random;
use crate::scope::ALL_TESTS;

/// The seed of the stored list.
const LIST_SEED: u64 = 20_261_102;

#[derive(Clone, Copy)]
pub enum Part {
    Marks,
    Charts,
    Attributes,
    Reports,
}

impl Part {
    pub fn named(name: &str) -> Option<Self> {
        match name {
            "marks" => Some(Part::Marks),
            "charts" => Some(Part::Charts),
            "attributes" => Some(Part::Attributes),
            "reports" => Some(Part::Reports),
            _ => None,
        }
    }
}

/// The cases of the stored list.
pub fn list(part: Part) -> Vec<Case> {
    let mut random = Random::new(LIST_SEED);
    match part {
        Part::Marks => {
            let plain: Vec<Case> = marks::list(&mut random).into_iter().map(Case::Marks).collect();
            let stopped: Vec<Case> =
                stops::marks_list(&mut random).into_iter().map(Case::StoppedMarks).collect();
            let moded = widths::marks_list(&mut random).into_iter().map(Case::ModedMarks);
            plain.into_iter().chain(stopped).chain(moded).collect()
        }
        Part::Charts => {
            let plain: Vec<Case> = charts::list(&mut random).into_iter().map(Case::Chart).collect();
            let stopped: Vec<Case> =
                stops::charts_list(&mut random).into_iter().map(Case::StoppedChart).collect();
            let moded = widths::charts_list(&mut random).into_iter().map(Case::ModedChart);
            plain.into_iter().chain(stopped).chain(moded).collect()
        }
        Part::Attributes => attributes::list(&mut random),
        Part::Reports => reports::list(&mut random).into_iter().map(Case::Flow).collect(),
    }
}

/// `count` cases that follow from `seed` alone; of marks and charts two in three have stops, and half of these a width mode.
pub fn fresh(part: Part, count: usize, seed: u64) -> Vec<Case> {
    let mut random = Random::new(seed);
    let mut one = |k: usize| match (part, k % 3) {
        (Part::Marks, 0) => Case::Marks(marks::any(&mut random)),
        (Part::Marks, 1) => Case::StoppedMarks(stops::any_marks(&mut random)),
        (Part::Marks, _) => Case::ModedMarks(widths::any_marks(&mut random)),
        (Part::Charts, 0) => Case::Chart(charts::any(&mut random)),
        (Part::Charts, 1) => Case::StoppedChart(stops::any_chart(&mut random)),
        (Part::Charts, _) => Case::ModedChart(widths::any_chart(&mut random)),
        (Part::Attributes, _) => attributes::any(&mut random),
        (Part::Reports, _) => Case::Flow(reports::any(&mut random)),
    };
    (0..count).map(&mut one).collect()
}

/// All nine tests, a named set (shewhart, nelson, western_electric), or any of the 512.
fn any_set(random: &mut Random) -> u16 {
    let any = random.below(usize::from(ALL_TESTS) + 1) as u16;
    random.pick(&[ALL_TESTS, ALL_TESTS, 1, 255, 305, any])
}
