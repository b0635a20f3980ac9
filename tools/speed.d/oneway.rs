//! One-way analyses. Ours is given one flat slice and the sizes, the Rust a slice of slices. Neither works out a p value:
//! ours has none, and the original's distribution library is a stand-in that answers at once.

use std::hint::black_box;

use oracle::parametric::anova::{one_way_anova, AnovaKind, OneWayAnovaResult};
use oracle::utils::math::mean;

use crate::timing::{same, Timing};
use crate::{inputs, ours};

type Call = fn(&[f64], &[u32], &mut [f64]) -> u32;
type Original = fn(&[&[f64]]) -> OneWayAnovaResult;

const KINDS: [(&str, Original, Call); 3] = [
    ("fisher", fisher, ours::fisher),
    ("welch", welch, ours::welch),
    ("levene", levene, ours::levene),
];

#[inline]
fn fisher(groups: &[&[f64]]) -> OneWayAnovaResult {
    one_way_anova(groups, AnovaKind::Fisher).unwrap()
}

#[inline]
fn welch(groups: &[&[f64]]) -> OneWayAnovaResult {
    one_way_anova(groups, AnovaKind::Welch).unwrap()
}

/// The original has no Levene: the distances from its own means, in one list that has room for them from the start, and its Fisher on them.
#[inline]
fn levene(groups: &[&[f64]]) -> OneWayAnovaResult {
    let mut distances = Vec::with_capacity(groups.iter().map(|g| g.len()).sum());
    for group in groups {
        let m = mean(group).unwrap();
        distances.extend(group.iter().map(|x| (x - m).abs()));
    }
    let mut rest = distances.as_slice();
    let mut parts = Vec::with_capacity(groups.len());
    for group in groups {
        let (part, behind) = rest.split_at(group.len());
        parts.push(part);
        rest = behind;
    }
    one_way_anova(&parts, AnovaKind::Fisher).unwrap()
}

const SHAPES: [(usize, usize); 3] = [(16, 32), (2, 2), (16, 2)];

pub fn lines(timing: &mut Timing) {
    for (k, n) in SHAPES {
        let readings = inputs::readings(k * n);
        let sizes = vec![n as u32; k];
        let groups: Vec<&[f64]> = readings.chunks(n).collect();
        let mut out = [0.0; ours::ONE_WAY];
        for (kind_name, original, call) in KINDS {
            let name = format!("{kind_name} {k} x {n}");
            if timing.asks(&name) {
                agree(&name, &readings, &sizes, &groups, original, call);
            }
            timing.line(
                &name,
                || call(black_box(&readings), black_box(&sizes), black_box(&mut out)),
                || original(black_box(&groups)),
            );
        }
    }
}

/// Every number that both have, bit for bit. What Welch's analysis has not is +0.0 in ours.
fn agree(name: &str, readings: &[f64], sizes: &[u32], groups: &[&[f64]], original: Original, call: Call) {
    // the call keeps to its places, and writes nothing where it refuses: a slip in ours.rs would show here
    let mut out = [7.5; ours::ONE_WAY + 2];
    assert_eq!(call(readings, sizes, &mut out[..ours::ONE_WAY - 1]), 12, "{name}: too few places");
    assert_eq!(call(readings, &sizes[1..], &mut out), 10, "{name}: a size too few");
    assert!(out.iter().all(|&x| x == 7.5), "{name}: a refused call wrote");
    assert_eq!(call(readings, sizes, &mut out), 0, "{name}: refused");
    assert_eq!(out[ours::ONE_WAY..], [7.5; 2], "{name}: a place too many");
    let r = original(groups);
    let absent = 0.0;
    let mut rust = vec![
        ("F", r.statistic),
        ("df between", r.df_between),
        ("df within", r.df_within),
        ("SS between", r.ss_between.unwrap_or(absent)),
        ("SS within", r.ss_within.unwrap_or(absent)),
        ("SS total", r.ss_total.unwrap_or(absent)),
        ("MS between", r.ms_between.unwrap_or(absent)),
        ("MS within", r.ms_within.unwrap_or(absent)),
        ("the grand mean", r.grand_mean.unwrap_or(absent)),
    ];
    rust.extend(r.group_means.iter().map(|&m| ("a group's mean", m)));
    rust.resize(ours::ONE_WAY, ("an unused mean", absent));
    for (o, (what, r)) in out.into_iter().zip(rust) {
        same(&format!("{name}: {what}"), o, r);
    }
}
