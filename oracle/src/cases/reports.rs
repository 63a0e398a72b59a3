//! Flow files for the report program, whole and damaged.

use super::charts;
use crate::case::ChartCase;
use crate::format::put;
use crate::random::Random;
use crate::report::{flow_file, MOST_BYTES};

const NAN: u64 = 0x7ff8_0000_0000_0000;
const SIGNALLING: u64 = 0xfff0_0000_0000_0001;
const INFINITY: u64 = 0x7ff0_0000_0000_0000;
const LARGEST: u64 = 0x7fef_ffff_ffff_ffff;
const EIGHT: u64 = 0x4020_0000_0000_0000;

/// A file of the given numbers.
fn file(numbers: &[u64]) -> Vec<u8> {
    let mut out = Vec::new();
    for &n in numbers {
        put(&mut out, n);
    }
    out
}

/// A file with `n` times the same bits as its values.
fn filled(kind: u64, size: u64, set: u64, count: u64, n: usize, bits: u64) -> Vec<u8> {
    let mut numbers = vec![kind, size, set, count];
    numbers.resize(4 + n, bits);
    file(&numbers)
}

pub fn list(random: &mut Random) -> Vec<Vec<u8>> {
    let mut files = vec![Vec::new(), filled(1, 1, 64, 16, 16, EIGHT)];
    files.extend(by_head());
    files.extend(by_values());
    files.extend(by_length());
    files.extend(damaged(&filled(2, 2, 511, 2, 4, EIGHT)));
    for (k, case) in charts::list(random).iter().enumerate() {
        if k % 8 == 0 && case.values.len() <= 512 {
            files.push(flow_file(case));
        }
    }
    files
}

/// Each header number just allowed and just not, and with nothing behind it.
fn by_head() -> Vec<Vec<u8>> {
    let heads: [&[u64]; 23] = [
        &[0],
        &[1],
        &[3],
        &[4],
        &[u64::MAX],
        &[0, 1, 1, 2],
        &[4, 2, 1, 2],
        &[1, 0],
        &[1, 1],
        &[1, 2],
        &[2, 1],
        &[2, 2],
        &[2, 25],
        &[2, 26],
        &[3, u64::MAX],
        &[1, 1, 511],
        &[1, 1, 512],
        &[1, 1, 65_536],
        &[1, 1, 1, 2049],
        &[1, 1, 1, 4097],
        &[2, 25, 1, 82],
        &[2, 25, 1, u64::MAX / 25 + 1],
        &[1, 1, 1, u64::MAX],
    ];
    heads.iter().map(|h| file(h)).collect()
}

/// Too few, not finite, past the largest, and which of these comes first.
fn by_values() -> Vec<Vec<u8>> {
    vec![
        filled(1, 1, 1, 0, 0, EIGHT),
        filled(1, 1, 1, 1, 1, EIGHT),
        filled(2, 2, 1, 0, 0, EIGHT),
        filled(3, 25, 255, 1, 25, EIGHT),
        filled(1, 1, 1, 1, 1, NAN),
        filled(1, 1, 1, 3, 3, SIGNALLING),
        filled(2, 3, 1, 1, 3, INFINITY),
        filled(1, 1, 1, 3, 2, NAN),
        filled(1, 1, 1, 3, 4, NAN),
        filled(1, 1, 1, 2, 2, LARGEST),
        filled(1, 1, 1, 2, 2, LARGEST | 1 << 63),
        file(&[1, 1, 255, 2, LARGEST, LARGEST | 1 << 63]),
        file(&[1, 1, 1, 2, 0, 1 << 63]),
        file(&[1, 1, 511, 3, 0x3fb9_9999_9999_999a, 0x3fb9_9999_9999_999a, 0x3fb9_9999_9999_999a]),
    ]
}

/// The most values, and files as long as allowed and longer.
fn by_length() -> Vec<Vec<u8>> {
    let most = filled(1, 1, 65, 2048, 2048, EIGHT);
    let mut files =
        vec![most.clone(), filled(2, 25, 511, 81, 2025, EIGHT), filled(3, 2, 511, 1024, 2048, EIGHT)];
    for length in [MOST_BYTES, MOST_BYTES + 1] {
        let mut longer = most.clone();
        longer.resize(length, 0);
        files.push(longer);
    }
    files.push(vec![0x80; MOST_BYTES]);
    // numbers of ten bytes: the file is too long although each number stands in its shortest form
    files.push(filled(1, 1, 1, 2048, 2048, 1 << 63));
    files.push(filled(1, 1, 1, 2048, 2048, EIGHT)[..24].to_vec());
    files
}

/// A file cut at each place, with a byte more, and with each byte changed in three ways.
fn damaged(whole: &[u8]) -> Vec<Vec<u8>> {
    let mut files: Vec<Vec<u8>> = (0..whole.len()).map(|n| whole[..n].to_vec()).collect();
    for more in [0, 128] {
        files.push([whole, &[more]].concat());
    }
    for at in 0..whole.len() {
        for by in [1, 0x7f, 0x80] {
            let mut file = whole.to_vec();
            file[at] ^= by;
            files.push(file);
        }
    }
    // a header number longer than shortest, and one over 64 bits
    files.push([&[0x82, 0x00], &whole[1..]].concat());
    files.push([&[0xff; 9][..], &[0x02], &whole[1..]].concat());
    files
}

/// A chart's flow file, one in four damaged at one place.
pub fn any(random: &mut Random) -> Vec<u8> {
    let case: ChartCase = charts::any(random);
    let mut bytes = flow_file(&case);
    if random.one_in(4) {
        let at = random.below(bytes.len().min(40));
        match random.below(4) {
            0 => bytes.truncate(at),
            1 => bytes.push(random.below(256) as u8),
            2 => bytes.insert(at, random.below(256) as u8),
            _ => bytes[at] ^= 1 << random.below(8),
        }
    }
    bytes
}
