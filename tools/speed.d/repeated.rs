//! Repeated measures. Ours is given one flat slice and the rows' lengths, the Rust a slice of rows, and allocates. Neither works out a p value:
//! ours has none, and the original's distribution library is a stand-in that answers at once.

use std::hint::black_box;

use oracle::parametric::anova::repeated_measures_anova;

use crate::timing::{same, Timing};
use crate::{inputs, ours};

struct Design {
    name: &'static str,
    readings: Vec<f64>,
    sizes: Vec<u32>,
    conditions: usize,
    sphericity: bool,
}

impl Design {
    fn new(name: &'static str, n: usize, k: usize, sphericity: bool) -> Design {
        Design {
            name,
            readings: inputs::repeated(n, k),
            sizes: vec![k as u32; n],
            conditions: k,
            sphericity,
        }
    }

    fn rows(&self) -> Vec<&[f64]> {
        self.readings.chunks(self.conditions).collect()
    }
}

pub fn lines(timing: &mut Timing) {
    let designs = [
        Design::new("repeated 42x12 sphericity", 42, 12, true),
        Design::new("repeated 12x5 sphericity", 12, 5, true),
        Design::new("repeated 2x3 sphericity", 2, 3, true),
        Design::new("repeated 64x8", 64, 8, false),
    ];
    for design in &designs {
        if timing.asks(design.name) {
            agree(design);
        }
        let d = black_box(design);
        let rows = d.rows();
        let mut out = [0.0; ours::REPEATED];
        timing.line(
            d.name,
            || {
                ours::repeated(
                    black_box(&d.readings),
                    black_box(&d.sizes),
                    black_box(d.sphericity as u32),
                    black_box(&mut out),
                )
            },
            || repeated_measures_anova(black_box(&rows), black_box(d.sphericity)).unwrap(),
        );
    }
}

/// What refused calls leave, then the numbers bit for bit. What an analysis without sphericity has not is +0.0 in ours.
fn agree(d: &Design) {
    let name = d.name;
    let asked = d.sphericity as u32;
    let mut out = [7.5; ours::REPEATED + 2];
    let short = &mut out[..ours::REPEATED - 1];
    assert_eq!(ours::repeated(&d.readings, &d.sizes, asked, short), 12, "{name}: too few places");
    let fewer = &d.readings[1..];
    assert_eq!(ours::repeated(fewer, &d.sizes, asked, &mut out), 10, "{name}: a reading too few");
    let mut odd = d.readings.clone();
    *odd.last_mut().unwrap() = f64::NAN;
    assert_eq!(ours::repeated(&odd, &d.sizes, asked, &mut out), 4, "{name}: a NaN");
    assert!(out.iter().all(|&x| x == 7.5), "{name}: a refused call wrote");
    assert_eq!(ours::repeated(&d.readings, &d.sizes, asked, &mut out), 0, "{name}: refused");
    assert_eq!(out[ours::REPEATED..], [7.5; 2], "{name}: a place too many");
    let r = repeated_measures_anova(&d.rows(), d.sphericity).unwrap();
    let table = [
        ("F", r.within_subjects.f_statistic.unwrap()),
        ("SS of the conditions", r.within_subjects.ss),
        ("SS of the subjects", r.subjects.ss),
        ("SS of the error", r.error.ss),
    ];
    let absent = 0.0;
    let sphericity = [
        ("W", r.sphericity.as_ref().map_or(absent, |s| s.w)),
        ("Greenhouse and Geisser's epsilon", r.greenhouse_geisser.as_ref().map_or(absent, |c| c.epsilon)),
        ("Huynh and Feldt's epsilon", r.huynh_feldt.as_ref().map_or(absent, |c| c.epsilon)),
        ("Huynh and Feldt's df", r.huynh_feldt.as_ref().map_or(absent, |c| c.df_num_corrected)),
    ];
    assert_eq!(r.sphericity.is_some(), d.sphericity, "{name}: sphericity");
    for (what, x) in table {
        assert!(x.is_finite() && x != 0.0, "{name}: {what} tells nothing");
    }
    for (o, (what, r)) in out.into_iter().zip(table.into_iter().chain(sphericity)) {
        same(&format!("{name}: {what}"), o, r);
    }
}
