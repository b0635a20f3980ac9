//! A sheet of 16 groups of 32: an edit and a report after it, beside the edit of a list and the Rust's whole rerun. A call makes 1,000 edits with
//! a report after each, and what is told is one edit with its report. Ours loads the sheet in each call, which is in its time; the Rust copies its lists.

use std::hint::black_box;

use oracle::parametric::anova::{one_way_anova, AnovaKind};

use crate::timing::{same, Timing};
use crate::{inputs, ours};

type Call = fn(&[f64], &[u32], &[u32], &[f64], &mut [f64]) -> u32;

const KINDS: [(&str, AnovaKind, Call); 2] = [
    ("fisher", AnovaKind::Fisher, ours::history_fisher),
    ("welch", AnovaKind::Welch, ours::history_welch),
];

const GROUPS: usize = 16;
const SIZE: usize = 32;
const EDITS: usize = 1000;
const WILD: usize = 20000;

struct History {
    readings: Vec<f64>,
    sizes: Vec<u32>,
    /// operation (1 replace, 2 append, 3 remove), group, place
    edits: Vec<u32>,
    fresh: Vec<f64>,
}

impl History {
    /// Edits of these operations in turn, at mixed groups and places.
    fn of(operations: &[u32]) -> History {
        let mut edits = Vec::new();
        for i in 0..EDITS {
            let mixed = (i as u64 + 1).wrapping_mul(0x9E37_79B9_7F4A_7C15) >> 32;
            edits.extend([operations[i % operations.len()], mixed as u32 % 16, (mixed >> 8) as u32 % 20]);
        }
        History {
            readings: inputs::readings(GROUPS * SIZE),
            sizes: vec![SIZE as u32; GROUPS],
            edits,
            fresh: (0..EDITS).map(|i| inputs::reading(i + 5000)).collect(),
        }
    }

    fn groups(&self) -> [Vec<f64>; GROUPS] {
        std::array::from_fn(|g| {
            let mut group = Vec::with_capacity(4 * SIZE);
            group.extend(&self.readings[g * SIZE..(g + 1) * SIZE]);
            group
        })
    }

    /// A long one on one sheet, with every sort of edit that is refused: no such group or place, a NaN, a full sheet, a group of two.
    fn wild(edits: usize) -> History {
        let mut state = 1u64;
        let mut below = |n: u64| {
            state = state.wrapping_mul(6364136223846793005).wrapping_add(1442695040888963407);
            (state >> 33) % n
        };
        let mut history = History::of(&[1]);
        history.edits.clear();
        history.fresh.clear();
        for i in 0..edits {
            // long stretches in which most edits append, and others in which most remove
            let operation = if below(2) == 0 { 2 + (i / 4000 % 2) as u64 } else { 1 + below(3) };
            let place = if below(2) == 0 { below(40) } else { below(3) };
            history.edits.extend([operation as u32, below(17) as u32, place as u32]);
            history.fresh.push(match below(3000) {
                0 => f64::INFINITY,
                1..=50 => f64::NAN,
                51..=200 => -0.0,
                201..=350 => f64::from_bits(below(1 << 30)),
                n => inputs::reading(i + n as usize),
            });
        }
        history
    }

    /// The same edits on lists, and a rerun after each. None of them is one that document 01 refuses.
    fn rerun(&self, kind: AnovaKind, out: &mut [f64]) {
        let mut groups = self.groups();
        for (i, f) in out.iter_mut().enumerate() {
            let (g, p) = (self.edits[3 * i + 1] as usize, self.edits[3 * i + 2] as usize);
            match self.edits[3 * i] {
                1 => groups[g][p] = self.fresh[i],
                2 => groups[g].push(self.fresh[i]),
                _ => drop(groups[g].remove(p)),
            }
            let slices: [&[f64]; GROUPS] = std::array::from_fn(|g| &groups[g][..]);
            *f = one_way_anova(black_box(&slices), kind).unwrap().statistic;
        }
    }

    /// The same with document 01's checks: a refused edit changes nothing.
    fn judged(&self, kind: AnovaKind, out: &mut [f64]) {
        let mut groups = self.groups();
        for (i, f) in out.iter_mut().enumerate() {
            let (g, p, x) = (self.edits[3 * i + 1] as usize, self.edits[3 * i + 2] as usize, self.fresh[i]);
            let size = groups.get(g).map_or(0, Vec::len);
            let total: usize = groups.iter().map(Vec::len).sum();
            match self.edits[3 * i] {
                1 if p < size && !x.is_nan() => groups[g][p] = x,
                2 if 0 < size && !x.is_nan() && total < GROUPS * SIZE => groups[g].push(x),
                3 if p < size && 2 < size => drop(groups[g].remove(p)),
                _ => {}
            }
            let slices: Vec<&[f64]> = groups.iter().map(Vec::as_slice).collect();
            *f = one_way_anova(&slices, kind).unwrap().statistic;
        }
    }
}

pub fn lines(timing: &mut Timing) {
    if timing.times() {
        let wild = History::wild(WILD);
        for (kind_name, kind, call) in KINDS {
            equal(&format!("{WILD} edits, {kind_name}"), &wild, WILD, kind, call);
        }
    }
    for (what, operations) in [("replace", &[1][..]), ("mixed edit", &[1, 3, 2])] {
        let history = History::of(operations);
        for (kind_name, kind, call) in KINDS {
            let name = format!("{what}, {kind_name}");
            if timing.asks(&name) {
                agree(&name, &history, kind, call);
            }
            let h = black_box(&history);
            let (mut ours, mut rust) = ([0.0; EDITS], [0.0; EDITS]);
            timing.line_of(
                &name,
                EDITS as u64,
                || call(&h.readings, &h.sizes, &h.edits, &h.fresh, black_box(&mut ours)),
                || h.rerun(kind, black_box(&mut rust)),
            );
        }
    }
}

/// What a refused load and no places leave, and the F after each edit.
fn agree(name: &str, h: &History, kind: AnovaKind, call: Call) {
    let mut out = [7.5; EDITS + 2];
    assert_eq!(call(&h.readings, &h.sizes[1..], &h.edits, &h.fresh, &mut out), 10, "{name}: a size too few");
    assert_eq!(call(&h.readings, &h.sizes, &h.edits, &h.fresh, &mut out[..0]), 0, "{name}: no places");
    assert!(out.iter().all(|&x| x == 7.5), "{name}: a refused call wrote");
    assert_eq!(call(&h.readings, &h.sizes, &h.edits, &h.fresh, &mut out[..EDITS]), 0, "{name}: refused");
    assert_eq!(out[EDITS..], [7.5; 2], "{name}: a place too many");
    // now and then a reading is replaced by an equal one
    let changes = out[..EDITS].windows(2).filter(|f| f[0] != f[1]).count();
    assert!(changes > EDITS * 9 / 10, "{name}: edits that change nothing");
    equal(name, h, EDITS, kind, call);
    // what is timed beside it gives the same
    let mut rust = [0.0; EDITS];
    h.rerun(kind, &mut rust);
    for (i, (o, r)) in out.into_iter().zip(rust).enumerate() {
        same(&format!("{name}: F of rerun {i}"), o, r);
    }
}

/// The F after each edit, bit for bit. Ours has one NaN.
fn equal(name: &str, h: &History, edits: usize, kind: AnovaKind, call: Call) {
    let (mut out, mut rust) = (vec![0.0; edits], vec![0.0; edits]);
    assert_eq!(call(&h.readings, &h.sizes, &h.edits, &h.fresh, &mut out), 0, "{name}: refused");
    h.judged(kind, &mut rust);
    for (i, (o, r)) in out.into_iter().zip(rust).enumerate() {
        let r = if r.is_nan() { f64::from_bits(0x7FF8000000000000) } else { r };
        same(&format!("{name}: F after edit {i}"), o, r);
    }
}
