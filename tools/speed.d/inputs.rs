//! Inputs for both sides.

/// Readings with two places, about 20.
pub fn reading(i: usize) -> f64 {
    let mixed = (i as u64 + 1).wrapping_mul(0x9E37_79B9_7F4A_7C15) >> 40;
    20.0 + (mixed % 1000) as f64 / 100.0
}

pub fn readings(n: usize) -> Vec<f64> {
    (0..n).map(reading).collect()
}

/// Rows of k readings, n of them: the rows differ, and so do the columns, each as far as its neighbour, so that no sum is noise alone.
pub fn repeated(n: usize, k: usize) -> Vec<f64> {
    (0..n * k).map(|i| reading(i) + 0.5 * (i / k) as f64 - (i % k) as f64).collect()
}
