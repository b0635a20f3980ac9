//! Two-way analyses. Ours is lent a scratch and the codes as u32; the Rust allocates, and takes its codes as usize. Neither works out a p value:
//! ours has none, and the original's distribution library is a stand-in that answers at once.

use std::hint::black_box;

use oracle::parametric::anova::two_way_anova;

use crate::timing::{same, Timing};
use crate::{inputs, ours};

struct Design {
    name: &'static str,
    values: Vec<f64>,
    /// The codes of A and of B, as ours takes them and as the Rust does.
    codes: [Vec<u32>; 2],
    indices: [Vec<usize>; 2],
}

impl Design {
    /// Reading i lies in cell i modulo the number of cells, so the first cells have one reading more where that leaves a rest.
    fn new(name: &'static str, a: usize, b: usize, n: usize) -> Design {
        let indices = [
            (0..n).map(|i| i % (a * b) / b).collect::<Vec<usize>>(),
            (0..n).map(|i| i % b).collect(),
        ];
        Design {
            name,
            // the levels differ, so that no effect is noise alone
            values: (0..n)
                .map(|i| inputs::reading(i) + indices[0][i] as f64 - 0.5 * indices[1][i] as f64)
                .collect(),
            codes: [0, 1].map(|f: usize| indices[f].iter().map(|&code| code as u32).collect()),
            indices,
        }
    }
}

pub fn lines(timing: &mut Timing) {
    let designs = [
        Design::new("twoway 6 x 6 x 14", 6, 6, 504),
        Design::new("twoway 6 x 6, 512", 6, 6, 512),
        Design::new("twoway 2 x 2, 9", 2, 2, 9),
    ];
    for design in &designs {
        if timing.asks(design.name) {
            agree(design);
        }
        let d = black_box(design);
        let mut scratch = vec![0.0; ours::SCRATCH];
        let mut out = [0.0; ours::TWO_WAY];
        timing.line(
            d.name,
            || {
                ours::two_way(
                    black_box(&d.values),
                    black_box(&d.codes[0]),
                    black_box(&d.codes[1]),
                    black_box(&mut scratch),
                    black_box(&mut out),
                )
            },
            || two_way_anova(black_box(&d.values), black_box(&d.indices[0]), black_box(&d.indices[1])).unwrap(),
        );
    }
}

/// What refused calls leave, then F and the sums of squares bit for bit, and a scratch that is wiped as far as it is used.
fn agree(d: &Design) {
    let name = d.name;
    let [a, b] = &d.codes;
    let mut scratch = vec![7.5; ours::SCRATCH + 2];
    let mut out = [7.5; ours::TWO_WAY + 2];
    let short = &mut out[..ours::TWO_WAY - 1];
    assert_eq!(ours::two_way(&d.values, a, b, &mut scratch, short), 12, "{name}: too few places");
    let small = &mut scratch[..ours::SCRATCH - 1];
    assert_eq!(ours::two_way(&d.values, a, b, small, &mut out), 12, "{name}: too small a scratch");
    assert_eq!(ours::two_way(&d.values, &a[1..], b, &mut scratch, &mut out), 5, "{name}: a code too few");
    assert!(out.iter().chain(&scratch).all(|&x| x == 7.5), "{name}: a refused call wrote");
    assert_eq!(ours::two_way(&d.values, a, b, &mut scratch, &mut out), 0, "{name}: refused");
    assert_eq!(out[ours::TWO_WAY..], [7.5; 2], "{name}: a place too many");
    assert!(scratch[..ours::SCRATCH].iter().all(|x| x.to_bits() == 0), "{name}: the scratch is not wiped");
    assert_eq!(scratch[ours::SCRATCH..], [7.5; 2], "{name}: a place of the scratch too many");
    let r = two_way_anova(&d.values, &d.indices[0], &d.indices[1]).unwrap();
    let rust = [
        ("F of A", r.factor_a.f_statistic.unwrap()),
        ("F of B", r.factor_b.f_statistic.unwrap()),
        ("F of the interaction", r.interaction.f_statistic.unwrap()),
        ("SS of A", r.factor_a.ss),
        ("SS of B", r.factor_b.ss),
        ("SS of the interaction", r.interaction.ss),
    ];
    for (o, (what, r)) in out.into_iter().zip(rust) {
        assert!(r.is_finite() && r != 0.0, "{name}: {what} tells nothing");
        same(&format!("{name}: {what}"), o, r);
    }
}
