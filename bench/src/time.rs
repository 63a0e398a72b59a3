//! Measuring: contenders take turns, and of each the median is told, or of what one takes more than another in a turn.

use std::time::{Duration, Instant};

/// How long one measurement takes at least, by repeating the call: far above what the clock can tell apart.
const LEAST: Duration = Duration::from_micros(500);

/// The same value, of which the compiler knows nothing any more.
pub fn opaque<T>(value: T) -> T {
    // SAFETY: the value is read once from where it stands, and then forgotten there.
    unsafe {
        let read = std::ptr::read_volatile(&value);
        std::mem::forget(value);
        read
    }
}

/// Has a value worked out that nobody looks at.
pub fn keep<T>(value: T) {
    opaque(value);
}

/// The median time of one call of each contender, in nanoseconds. In each of the turns every contender is
/// measured once, so that what slows the machine for a while slows all of them.
pub fn medians<const N: usize>(turns: usize, mut contenders: [&mut dyn FnMut(); N]) -> [f64; N] {
    let repeats: Vec<u32> = contenders.iter_mut().map(|call| repeats_of(call)).collect();
    let times =
        by_turns(turns, |k| time(repeats[k], contenders[k]).as_nanos() as f64 / f64::from(repeats[k]));
    std::array::from_fn(|k| median(&times, |turn: &[f64; N]| turn[k]))
}

/// The times of one call of each contender, in nanoseconds, turn by turn. The contenders are made ready for each call,
/// and say themselves how long the call alone took, by `lasting`: for calls that take long enough to be told by the
/// clock once.
pub fn single<const N: usize>(
    turns: usize,
    mut contenders: [&mut dyn FnMut() -> Duration; N],
) -> Vec<[f64; N]> {
    by_turns(turns, |k| contenders[k]().as_nanos() as f64)
}

/// The median over the turns.
pub fn median<const N: usize>(turns: &[[f64; N]], of: impl Fn(&[f64; N]) -> f64) -> f64 {
    let mut times: Vec<f64> = turns.iter().map(of).collect();
    times.sort_by(f64::total_cmp);
    times[times.len() / 2]
}

/// How long a call takes.
pub fn lasting(call: impl FnOnce()) -> Duration {
    let begun = Instant::now();
    call();
    begun.elapsed()
}

fn by_turns<const N: usize>(turns: usize, mut time_of: impl FnMut(usize) -> f64) -> Vec<[f64; N]> {
    (0..turns).map(|_| std::array::from_fn(&mut time_of)).collect()
}

fn repeats_of(call: &mut dyn FnMut()) -> u32 {
    let mut repeats = 1;
    while time(repeats, call) < LEAST {
        repeats *= 2;
    }
    repeats
}

fn time(repeats: u32, call: &mut dyn FnMut()) -> Duration {
    let begun = Instant::now();
    for _ in 0..repeats {
        call();
    }
    begun.elapsed()
}
