//! Small cases taken in full: each test's window at one short, exact, one and two more; each place
//! of a window on each line that the test looks at, and one bit to either side; all windows over
//! a few chosen values.

use super::limits::{about, one_sigma};
use crate::case::Limits;
use crate::scope::WINDOWS;

/// `n` values of which every full window shows `test`'s pattern with room to spare, `way` being
/// 1.0 for its upper side and -1.0 for its lower.
pub fn shown(test: usize, l: &Limits, way: f64, n: usize) -> Vec<f64> {
    let s = one_sigma(l) * way;
    let turn = |i: usize| if i % 2 == 0 { 1.0 } else { -1.0 };
    let value = |i: usize| match test {
        0 => l.cl + 4.0 * s,
        1 | 8 => l.cl + s / 2.0,
        2 => l.cl + s * i as f64 / 8.0,
        3 => l.cl + turn(i) * s / 4.0,
        4 => l.cl + if i % 3 == 1 { 0.0 } else { 2.5 } * s,
        5 => l.cl + if i % 5 == 2 { 0.0 } else { 1.5 } * s,
        6 => l.cl + turn(i / 2) * s / 2.0,
        _ => l.cl + turn(i / 3) * s * 1.5,
    };
    (0..n).map(value).collect()
}

/// The values that `test` tells apart, at place `at` of `values`.
fn edges(test: usize, l: &Limits, values: &[f64], at: usize) -> Vec<f64> {
    let s = one_sigma(l);
    let t = 2.0 * s;
    let lines = match test {
        0 => vec![l.ucl, l.lcl],
        1 | 8 => vec![l.cl],
        2 | 3 => vec![values[if at == 0 { 1 } else { at - 1 }]],
        4 => vec![l.cl + t, l.cl - t],
        _ => vec![l.cl + s, l.cl - s],
    };
    lines.into_iter().flat_map(about).collect()
}

/// Each test from one value short of its window to two more.
pub fn lengths(l: &Limits) -> Vec<Vec<f64>> {
    let mut found = Vec::new();
    for (test, window) in WINDOWS.into_iter().enumerate() {
        for n in window - 1..=window + 2 {
            found.push(shown(test, l, 1.0, n));
            found.push(shown(test, l, -1.0, n));
        }
    }
    found
}

/// Each test's window with each of its places in turn on each edge.
pub fn flawed(l: &Limits) -> Vec<Vec<f64>> {
    let mut found = Vec::new();
    for (test, window) in WINDOWS.into_iter().enumerate() {
        for way in [1.0, -1.0] {
            let values = shown(test, l, way, window);
            for at in 0..values.len() {
                for edge in edges(test, l, &values, at) {
                    let mut flawed = values.clone();
                    flawed[at] = edge;
                    found.push(flawed);
                }
            }
        }
    }
    found
}

/// Flows that hold every window over a few values just off and on the lines.
pub fn every_window(l: &Limits) -> Vec<Vec<f64>> {
    let s = one_sigma(l);
    let t = 2.0 * s;
    let (above1, below1) = (l.cl + s, l.cl - s);
    let (above2, below2) = (l.cl + t, l.cl - t);
    vec![
        spelled(3, &[above2, above2.next_up(), below2, below2.next_down()]),
        spelled(5, &[above1, above1.next_up(), below1.next_down()]),
        spelled(5, &[below1, below1.next_down(), above1.next_up()]),
        spelled(8, &[above1, above1.next_up()]),
        spelled(8, &[l.cl, l.cl.next_up()]),
        spelled(8, &[l.cl, l.cl.next_down()]),
        spelled(9, &[l.cl.next_up(), l.cl.next_down()]),
        stepped(l),
    ]
}

/// Flows that hold every three values about two sigma below, and every five about one.
pub fn lower_windows(l: &Limits) -> Vec<Vec<f64>> {
    let s = one_sigma(l);
    let (below1, below2) = (l.cl - s, l.cl - 2.0 * s);
    vec![
        spelled(3, &[below2, below2.next_up(), below2.next_down()]),
        spelled(5, &[below1, below1.next_down(), below1.next_up()]),
    ]
}

/// Each window of a test that looks at the zones, shown below, with each of its places in turn on the lower
/// line and one bit to either side.
pub fn lower_flaws(l: &Limits) -> Vec<Vec<f64>> {
    let s = one_sigma(l);
    let mut found = Vec::new();
    for (test, line) in [(4, l.cl - 2.0 * s), (5, l.cl - s), (6, l.cl - s), (7, l.cl - s)] {
        let values = shown(test, l, -1.0, WINDOWS[test]);
        for at in 0..values.len() {
            for edge in about(line) {
                let mut flawed = values.clone();
                flawed[at] = edge;
                found.push(flawed);
            }
        }
    }
    found
}

fn spelled(window: usize, alphabet: &[f64]) -> Vec<f64> {
    let letters = every_word(alphabet.len(), window);
    letters.into_iter().map(|letter| alphabet[letter]).collect()
}

/// Every five steps there are, each up, level or down.
fn stepped(l: &Limits) -> Vec<f64> {
    let (mut at, step) = (l.cl, one_sigma(l) / 8.0);
    let mut values = vec![at];
    for way in every_word(3, 5) {
        at += [0.0, step, -step][way];
        values.push(at);
    }
    values
}

/// A string over `letters` letters in which every word of length `n` stands once: after `n` zeros
/// always the highest letter that makes a new word (the greedy de Bruijn sequence).
fn every_word(letters: usize, n: usize) -> Vec<usize> {
    let words = letters.pow(n as u32);
    let mut seen = vec![false; words];
    let mut string = vec![0; n];
    let mut word = 0;
    seen[0] = true;
    let next = |word: usize, letter: usize| (word * letters + letter) % words;
    while let Some(letter) = (0..letters).rev().find(|&x| !seen[next(word, x)]) {
        word = next(word, letter);
        seen[word] = true;
        string.push(letter);
    }
    assert!(seen.iter().all(|&word| word), "a word is missing");
    string
}
