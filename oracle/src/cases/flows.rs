//! Flows: series of values with a shape, about the lines of given limits. All values are finite.

use super::limits::{edge_values, lines, scale};
use crate::case::Limits;
use crate::random::Random;
use crate::widths::Mode;

#[derive(Clone, Copy, Debug)]
pub enum Shape {
    InControl,
    TwoPeaked,
    Drifting,
    Alternating,
    Constant,
    OnLines,
    Runs,
    Trends,
    OneBitSteps,
    Hugging,
    Avoiding,
    AnyBits,
    Mixed,
}

pub const SHAPES: [Shape; 13] = [
    Shape::InControl,
    Shape::TwoPeaked,
    Shape::Drifting,
    Shape::Alternating,
    Shape::Constant,
    Shape::OnLines,
    Shape::Runs,
    Shape::Trends,
    Shape::OneBitSteps,
    Shape::Hugging,
    Shape::Avoiding,
    Shape::AnyBits,
    Shape::Mixed,
];

pub fn flow(random: &mut Random, shape: Shape, limits: &Limits, n: usize) -> Vec<f64> {
    let values = match shape {
        Shape::InControl => about_centre(random, limits, n),
        Shape::TwoPeaked => two_peaked(random, limits, n),
        Shape::Drifting => drifting(random, limits, n),
        Shape::Alternating => alternating(random, limits, n),
        Shape::Constant => vec![random.pick(&edge_values(limits)); n],
        Shape::OnLines => on_lines(random, limits, n),
        Shape::Runs => runs(random, limits, n),
        Shape::Trends => trends(random, limits, n),
        Shape::OneBitSteps => one_bit_steps(random, limits, n),
        Shape::Hugging => zone(random, limits, n, 0.0),
        Shape::Avoiding => zone(random, limits, n, 1.0),
        Shape::AnyBits => (0..n).map(|_| random.finite()).collect(),
        Shape::Mixed => mixed(random, limits, n),
    };
    values.into_iter().map(held).collect()
}

/// What has gone past the largest f64 is held there.
fn held(x: f64) -> f64 {
    x.clamp(-f64::MAX, f64::MAX)
}

fn about_centre(random: &mut Random, l: &Limits, n: usize) -> Vec<f64> {
    (0..n).map(|_| l.cl + random.bell() * scale(l)).collect()
}

fn two_peaked(random: &mut Random, l: &Limits, n: usize) -> Vec<f64> {
    let one = |r: &mut Random| l.cl + (r.pick(&[-1.6, 1.6]) + r.bell() * 0.3) * scale(l);
    (0..n).map(|_| one(random)).collect()
}

fn drifting(random: &mut Random, l: &Limits, n: usize) -> Vec<f64> {
    let slope = (random.unit() - 0.5) * 0.6;
    let noise = random.pick(&[0.0, 0.02, 0.5]);
    let mut place = -slope * n as f64 / 2.0;
    let mut values = Vec::new();
    for _ in 0..n {
        values.push(l.cl + (place + random.bell() * noise) * scale(l));
        place += slope;
    }
    values
}

/// Up and down by turns; now and then a level step, or two steps the same way.
fn alternating(random: &mut Random, l: &Limits, n: usize) -> Vec<f64> {
    let mut up = random.one_in(2);
    let mut values: Vec<f64> = Vec::new();
    for _ in 0..n {
        let size = (0.1 + random.unit()) * scale(l);
        match values.last() {
            Some(&last) if random.one_in(24) => values.push(last),
            _ => values.push(if up { l.cl + size } else { l.cl - size }),
        }
        up = !up || random.one_in(30);
    }
    values
}

fn on_lines(random: &mut Random, l: &Limits, n: usize) -> Vec<f64> {
    let edges = edge_values(l);
    (0..n).map(|_| random.pick(&edges)).collect()
}

/// Runs of about a window's length on one side of a line, with a point on the line between them.
fn runs(random: &mut Random, l: &Limits, n: usize) -> Vec<f64> {
    let mut values = Vec::new();
    while values.len() < n {
        let line = random.pick(&lines(l, Mode::Old));
        let side = random.pick(&[-1.0, 1.0]);
        for _ in 0..random.between(2, 17) {
            values.push(line + side * random.unit() * 0.7 * scale(l));
        }
        if random.one_in(2) {
            values.push(line);
        }
    }
    values.truncate(n);
    values
}

/// Rises and falls of about six points, with level steps.
fn trends(random: &mut Random, l: &Limits, n: usize) -> Vec<f64> {
    let mut at = l.cl;
    let mut values = Vec::new();
    while values.len() < n {
        let way = random.pick(&[-1.0, 1.0]);
        for _ in 0..random.between(3, 8) {
            let level = random.one_in(20);
            at = if level { at } else { held(at + way * (0.05 + random.unit() * 0.5) * scale(l)) };
            values.push(at);
        }
    }
    values.truncate(n);
    values
}

/// A walk by single bits from a line.
fn one_bit_steps(random: &mut Random, l: &Limits, n: usize) -> Vec<f64> {
    let mut at = random.pick(&lines(l, Mode::Old));
    let mut values = Vec::new();
    for _ in 0..n {
        at = match random.below(5) {
            0 | 1 => held(at.next_up()),
            2 | 3 => held(at.next_down()),
            _ => at,
        };
        values.push(at);
    }
    values
}

/// Within one sigma of the centre (`from` 0) or just beyond it (`from` 1), rarely otherwise.
fn zone(random: &mut Random, l: &Limits, n: usize, from: f64) -> Vec<f64> {
    let edges = edge_values(l);
    let mut values = Vec::new();
    for _ in 0..n {
        let far = (from + random.unit()) * random.pick(&[-1.0, 1.0]);
        let edge = random.one_in(16);
        values.push(if edge { random.pick(&edges) } else { l.cl + far * scale(l) });
    }
    values
}

/// Shape after shape, about twenty values of each.
fn mixed(random: &mut Random, l: &Limits, n: usize) -> Vec<f64> {
    let mut values = Vec::new();
    while values.len() < n {
        let shape = SHAPES[random.below(SHAPES.len() - 1)];
        let part = random.between(5, 35);
        values.extend(flow(random, shape, l, part));
    }
    values.truncate(n);
    values
}
