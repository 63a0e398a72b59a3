//! Writes pairs of bit patterns for the program crate `root_run`: the bits of a number x, then the
//! bits of its root, each as eight bytes, low byte first. Where document 01 refuses the root (a NaN,
//! an infinity, a number below zero) the second has every bit set.
//!
//! The roots are those of `f64::sqrt`, which is the processor's own instruction. It can be believed
//! because IEEE 754 demands that squareRoot is rounded correctly (section 5.4.1), as it does of a sum
//! or a product, and because nothing of it is shared with the crate `root`, which computes with whole
//! numbers, a binary digit at a time.
//!
//! There is no dependency, and the random numbers are made from a fixed seed: the bytes are the same
//! at every run.
//!
//!     rustc -O oracle/roots.rs -o target/roots && target/roots > crates/root_run/data/roots

use std::io::Write;

/// The mark of a refused root.
const REFUSED: u64 = u64::MAX;

/// Sebastiano Vigna's splitmix64.
struct Random(u64);

impl Random {
    fn next(&mut self) -> u64 {
        self.0 = self.0.wrapping_add(0x9e37_79b9_7f4a_7c15);
        let mut z = self.0;
        z = (z ^ (z >> 30)).wrapping_mul(0xbf58_476d_1ce4_e5b9);
        z = (z ^ (z >> 27)).wrapping_mul(0x94d0_49bb_1331_11eb);
        z ^ (z >> 31)
    }

    /// One of the numbers below `n`.
    fn below(&mut self, n: u64) -> u64 {
        self.next() % n
    }
}

/// The bits of the root, or the mark.
fn root(bits: u64) -> u64 {
    let x = f64::from_bits(bits);
    if !x.is_finite() || x < 0.0 {
        REFUSED
    } else {
        x.sqrt().to_bits()
    }
}

/// A number and its two neighbours.
fn with_neighbours(list: &mut Vec<u64>, x: f64) {
    let bits = x.to_bits();
    list.extend([bits.wrapping_sub(1), bits, bits + 1]);
}

fn main() {
    let mut random = Random(0x0126_2026_0053_0054);
    let mut list = Vec::new();

    // the ends of the ranges, of either sign: zero, the smallest and the largest subnormal and
    // normal, one, infinity, NaNs
    for bits in [
        0,
        1,
        2,
        3,
        0x000f_ffff_ffff_fffe,
        0x000f_ffff_ffff_ffff,
        0x0010_0000_0000_0000,
        0x0010_0000_0000_0001,
        0x3fef_ffff_ffff_ffff,
        0x3ff0_0000_0000_0000,
        0x3ff0_0000_0000_0001,
        0x7fef_ffff_ffff_fffe,
        0x7fef_ffff_ffff_ffff,
        0x7ff0_0000_0000_0000,
        0x7ff0_0000_0000_0001,
        0x7ff8_0000_0000_0000,
        0x7fff_ffff_ffff_ffff,
    ] {
        list.extend([bits, bits | 1 << 63]);
    }

    // every power of two, so every power of four, with its neighbours
    for e in 0..52 {
        with_neighbours(&mut list, f64::from_bits(1 << e));
    }
    for field in 1..2047u64 {
        with_neighbours(&mut list, f64::from_bits(field << 52));
    }

    // squares of whole numbers, small and up to 2^52: the next whole numbers and the next f64s
    let mut squares = |k: u64| {
        let n = k * k;
        list.extend([((n - 1) as f64).to_bits(), ((n + 1) as f64).to_bits()]);
        with_neighbours(&mut list, n as f64);
    };
    for k in 1..200 {
        squares(k);
    }
    for _ in 0..100 {
        squares(random.below(1 << 26) + 1);
    }

    // the f64s on either side of a number whose root lies midway between two f64s: the root's digits
    // are m and a half, and x has the first 53 binary digits of (2m + 1)^2, and the next f64
    for _ in 0..250 {
        let m = (1u64 << 52) + random.below(1 << 52);
        let square = (2 * m as u128 + 1) * (2 * m as u128 + 1);
        let length = 128 - square.leading_zeros();
        let digits = (square >> (length - 53)) as u64;
        // x is digits * 2^(field - 1075), and differs from digits * 2^(length - 53) by a power of 4
        let field = 2 * random.below(900) + 1 + u64::from(length % 2 == 0);
        let bits = (field << 52) + (digits - (1 << 52));
        list.extend([bits, bits + 1]);
    }

    // numbers of every exponent, numbers of either sign, subnormals of every length
    for _ in 0..1000 {
        list.push(random.below(0x7ff0_0000_0000_0000));
    }
    for _ in 0..200 {
        list.push(random.next());
    }
    for i in 0..600 {
        list.push(random.next() >> (12 + i % 52));
    }

    // numbers with few binary digits, where the digit work ends early, or just does not: squares of
    // whole numbers of every length up to 26 digits, some of which end in zeros, the next whole
    // numbers and the next quarter steps, and powers of two times them: 1, 1/16 (so that whole
    // numbers are quarter steps squared), an even and an odd one, and a subnormal one
    for length in 1..=26 {
        for ending in [0, 0, 0, 1, 2, length / 2] {
            let k = (1 << (length - 1) | random.below(1 << (length - 1))) >> ending << ending;
            let n = (k * k) as f64;
            let (even, odd) = (2 * random.below(450) as i32 - 450, 2 * random.below(450) as i32 - 449);
            let least = f64::from_bits(1 << random.below(20));
            for x in [n - 1.0, n - 0.25, n, n + 0.25, n + 1.0] {
                for power in [1.0, 0.0625, 2f64.powi(even), 2f64.powi(odd), least] {
                    list.push((x * power).to_bits());
                }
            }
        }
    }

    let mut out = std::io::BufWriter::new(std::io::stdout().lock());
    for bits in list {
        out.write_all(&bits.to_le_bytes()).unwrap();
        out.write_all(&root(bits).to_le_bytes()).unwrap();
    }
    out.flush().unwrap();
}
