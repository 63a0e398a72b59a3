//! Values and marks as the bytes that the library works on, low byte first. On a machine that keeps
//! numbers so they are the same memory, seen as bytes; on others they are copied.

use std::borrow::Cow;
use std::slice;

const SAME_MEMORY: bool = cfg!(target_endian = "little");

/// The bytes of `values`.
pub fn of_values(values: &[f64]) -> Cow<'_, [u8]> {
    if !SAME_MEMORY {
        return Cow::Owned(copied(values));
    }
    // SAFETY: these are the bytes of the slice, all of them set, and lent as long as it is. A byte
    // may stand anywhere.
    Cow::Borrowed(unsafe { slice::from_raw_parts(values.as_ptr().cast(), 8 * values.len()) })
}

/// What `call` answers, given the bytes of `marks`, which become what it makes of them.
pub fn with_marks<T>(marks: &mut [u16], call: impl FnOnce(&mut [u8]) -> T) -> T {
    if !SAME_MEMORY {
        return with_copied(marks, call);
    }
    // SAFETY: these are the bytes of the slice, all of them set, and lent for writing as long as it
    // is. A byte may stand anywhere, and any two bytes are a u16.
    call(unsafe { slice::from_raw_parts_mut(marks.as_mut_ptr().cast(), 2 * marks.len()) })
}

fn copied(values: &[f64]) -> Vec<u8> {
    values.iter().flat_map(|v| v.to_le_bytes()).collect()
}

fn with_copied<T>(marks: &mut [u16], call: impl FnOnce(&mut [u8]) -> T) -> T {
    let mut bytes: Vec<u8> = marks.iter().flat_map(|m| m.to_le_bytes()).collect();
    let answer = call(&mut bytes);
    for (mark, pair) in marks.iter_mut().zip(bytes.chunks_exact(2)) {
        *mark = u16::from_le_bytes([pair[0], pair[1]]);
    }
    answer
}

#[cfg(test)]
mod tests {
    use super::*;

    #[test]
    fn both_ways_show_the_same_bytes() {
        let values = [1.5, -0.0, f64::NAN, f64::MIN_POSITIVE];
        assert_eq!(&of_values(&values)[..], &copied(&values)[..]);
        assert_eq!(&of_values(&values)[..8], [0, 0, 0, 0, 0, 0, 0xf8, 0x3f]);
        assert!(of_values(&[]).is_empty());
    }

    #[test]
    fn both_ways_take_back_what_was_written() {
        let call = |bytes: &mut [u8]| {
            assert_eq!(bytes, [2, 1, 4, 3]);
            bytes[1] = 9;
            bytes.len()
        };
        let (mut seen, mut copied) = ([0x0102, 0x0304], [0x0102, 0x0304]);
        assert_eq!(with_marks(&mut seen, call), 4);
        assert_eq!(with_copied(&mut copied, call), 4);
        assert_eq!(seen, [0x0902, 0x0304]);
        assert_eq!(copied, seen);
    }
}
