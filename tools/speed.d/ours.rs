//! The exported calls of `crates/speed_oneway`, `speed_sheet`, `speed_twoway` and `speed_repeated`, declared by hand: nothing checks these lines against the Rattle source.
//! A slice is passed as a pointer and a length. No call has a `requires`, so each is safe behind its wrapper.

mod c {
    extern "C" {
        pub fn speed_fisher(
            readings: *const f64,
            n: usize,
            sizes: *const u32,
            k: usize,
            out: *mut f64,
            places: usize,
        ) -> u32;
        pub fn speed_welch(
            readings: *const f64,
            n: usize,
            sizes: *const u32,
            k: usize,
            out: *mut f64,
            places: usize,
        ) -> u32;
        pub fn speed_levene(
            readings: *const f64,
            n: usize,
            sizes: *const u32,
            k: usize,
            out: *mut f64,
            places: usize,
        ) -> u32;
        pub fn speed_sqrt(x: f64) -> f64;
        pub fn speed_history_fisher(
            readings: *const f64,
            n: usize,
            sizes: *const u32,
            k: usize,
            edits: *const u32,
            numbers: usize,
            fresh: *const f64,
            new: usize,
            out: *mut f64,
            places: usize,
        ) -> u32;
        pub fn speed_history_welch(
            readings: *const f64,
            n: usize,
            sizes: *const u32,
            k: usize,
            edits: *const u32,
            numbers: usize,
            fresh: *const f64,
            new: usize,
            out: *mut f64,
            places: usize,
        ) -> u32;
        pub fn speed_two_way(
            values: *const f64,
            n: usize,
            factor_a: *const u32,
            n_a: usize,
            factor_b: *const u32,
            n_b: usize,
            scratch: *mut f64,
            room: usize,
            out: *mut f64,
            places: usize,
        ) -> u32;
        pub fn speed_repeated(
            readings: *const f64,
            n: usize,
            sizes: *const u32,
            k: usize,
            sphericity: u32,
            out: *mut f64,
            places: usize,
        ) -> u32;
    }
}

/// How many numbers a one-way analysis hands out.
pub const ONE_WAY: usize = 25;

/// How many numbers a two-way analysis hands out, and how many places of scratch it is lent.
pub const TWO_WAY: usize = 6;
pub const SCRATCH: usize = 6400;

/// How many numbers an analysis of repeated measures hands out.
pub const REPEATED: usize = 8;

#[inline]
pub fn fisher(readings: &[f64], sizes: &[u32], out: &mut [f64]) -> u32 {
    unsafe {
        c::speed_fisher(
            readings.as_ptr(),
            readings.len(),
            sizes.as_ptr(),
            sizes.len(),
            out.as_mut_ptr(),
            out.len(),
        )
    }
}

#[inline]
pub fn welch(readings: &[f64], sizes: &[u32], out: &mut [f64]) -> u32 {
    unsafe {
        c::speed_welch(
            readings.as_ptr(),
            readings.len(),
            sizes.as_ptr(),
            sizes.len(),
            out.as_mut_ptr(),
            out.len(),
        )
    }
}

#[inline]
pub fn levene(readings: &[f64], sizes: &[u32], out: &mut [f64]) -> u32 {
    unsafe {
        c::speed_levene(
            readings.as_ptr(),
            readings.len(),
            sizes.as_ptr(),
            sizes.len(),
            out.as_mut_ptr(),
            out.len(),
        )
    }
}

#[inline]
pub fn sqrt(x: f64) -> f64 {
    unsafe { c::speed_sqrt(x) }
}

#[inline]
pub fn history_fisher(readings: &[f64], sizes: &[u32], edits: &[u32], fresh: &[f64], out: &mut [f64]) -> u32 {
    unsafe {
        c::speed_history_fisher(
            readings.as_ptr(),
            readings.len(),
            sizes.as_ptr(),
            sizes.len(),
            edits.as_ptr(),
            edits.len(),
            fresh.as_ptr(),
            fresh.len(),
            out.as_mut_ptr(),
            out.len(),
        )
    }
}

#[inline]
pub fn history_welch(readings: &[f64], sizes: &[u32], edits: &[u32], fresh: &[f64], out: &mut [f64]) -> u32 {
    unsafe {
        c::speed_history_welch(
            readings.as_ptr(),
            readings.len(),
            sizes.as_ptr(),
            sizes.len(),
            edits.as_ptr(),
            edits.len(),
            fresh.as_ptr(),
            fresh.len(),
            out.as_mut_ptr(),
            out.len(),
        )
    }
}

#[inline]
pub fn two_way(values: &[f64], factor_a: &[u32], factor_b: &[u32], scratch: &mut [f64], out: &mut [f64]) -> u32 {
    unsafe {
        c::speed_two_way(
            values.as_ptr(),
            values.len(),
            factor_a.as_ptr(),
            factor_a.len(),
            factor_b.as_ptr(),
            factor_b.len(),
            scratch.as_mut_ptr(),
            scratch.len(),
            out.as_mut_ptr(),
            out.len(),
        )
    }
}

#[inline]
pub fn repeated(readings: &[f64], sizes: &[u32], sphericity: u32, out: &mut [f64]) -> u32 {
    unsafe {
        c::speed_repeated(
            readings.as_ptr(),
            readings.len(),
            sizes.as_ptr(),
            sizes.len(),
            sphericity,
            out.as_mut_ptr(),
            out.len(),
        )
    }
}
