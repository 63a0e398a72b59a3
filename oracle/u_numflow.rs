//! Document 01's four functions, under the names by which the published Rust calls u_numflow.
//!
//! u_numflow itself is not to be had. 01, 'The charts', says how each is worked out; this file is
//! that text and nothing more. Of infinite or undefined values 01 says only that a point or limit
//! that comes out not finite is answered 7, so such values are carried through here, not refused.

pub mod stats {
    /// Sum from +0.0, left to right, divided by the count.
    pub fn mean(values: &[f64]) -> Option<f64> {
        let mut sum = 0.0;
        for v in values {
            sum += v;
        }
        (!values.is_empty()).then(|| sum / values.len() as f64)
    }

    /// Sum of (v - mean) * (v - mean) from +0.0, left to right, divided by n - 1, then the root.
    pub fn std_dev(values: &[f64]) -> Option<f64> {
        if values.len() < 2 {
            return None;
        }
        let mean = mean(values)?;
        let mut squares = 0.0;
        for v in values {
            squares += (v - mean) * (v - mean);
        }
        Some((squares / (values.len() - 1) as f64).sqrt())
    }

    /// Starts with the first, is replaced only by a strictly larger one.
    pub fn max(values: &[f64]) -> Option<f64> {
        let mut largest = *values.first()?;
        for &v in values {
            if v > largest {
                largest = v;
            }
        }
        Some(largest)
    }

    /// Starts with the first, is replaced only by a strictly smaller one.
    pub fn min(values: &[f64]) -> Option<f64> {
        let mut smallest = *values.first()?;
        for &v in values {
            if v < smallest {
                smallest = v;
            }
        }
        Some(smallest)
    }
}
