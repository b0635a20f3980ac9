//! One square root, beside the machine's instruction.

use std::hint::black_box;

use crate::timing::{same, Timing};
use crate::{inputs, ours};

pub fn lines(timing: &mut Timing) {
    let numbers = inputs::readings(1024);
    for &x in &numbers {
        same(&format!("the root of {x}"), ours::sqrt(x), x.sqrt());
    }
    // each call takes the next number
    let (mut i, mut j) = (0, 0);
    timing.line(
        "square root",
        || {
            i = (i + 1) % numbers.len();
            ours::sqrt(black_box(numbers[i]))
        },
        || {
            j = (j + 1) % numbers.len();
            black_box(numbers[j]).sqrt()
        },
    );
}
