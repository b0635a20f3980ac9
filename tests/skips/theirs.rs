//! theirs: reads designs, as tests/skips/cases.c writes them, and prints for each the three sums of squares by their bits and the five counts of the oracle's Type III. A NaN is 7FF8000000000000.

use std::io::{self, BufRead, Write};

fn main() {
    let out = io::stdout();
    let mut out = io::BufWriter::new(out.lock());
    for line in io::stdin().lock().lines() {
        let line = line.expect("a line");
        let words: Vec<&str> = line.split(' ').collect();
        let number = |i: usize| words[i].parse::<usize>().expect("a number");
        let n = number(2);
        let codes_a: Vec<usize> = (0..n).map(|i| number(3 + i)).collect();
        let codes_b: Vec<usize> = (0..n).map(|i| number(3 + n + i)).collect();
        let values: Vec<f64> = (0..n).map(|i| f64::from_bits(u64::from_str_radix(words[3 + 2 * n + i], 16).expect("bits"))).collect();
        let answer = oracle::marked::type3(&values, &codes_a, &codes_b).expect("an uneven design");
        for ss in answer.ss {
            let bits = if ss.is_nan() { 0x7FF8_0000_0000_0000 } else { ss.to_bits() };
            write!(out, "{bits:016X} ").expect("written");
        }
        let counts: Vec<String> = answer.skipped.iter().map(|n| n.to_string()).collect();
        writeln!(out, "{}", counts.join(" ")).expect("written");
    }
}
