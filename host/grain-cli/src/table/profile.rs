//! The noise profile, as a table.

use super::line;
use crate::figures::{Planes, Profile};

/// Sigma and samples of each plane and of its bins.
pub fn show(out: &mut String, planes: &Planes<Profile>, depth: u8) {
    line(
        out,
        "  noise: sigma in 8-bit steps and samples, by intensity",
    );
    let mut bins = 0;
    for (name, plane) in planes.named() {
        let column = 64 / plane.bins.len();
        let mut row = |head: &str, first: String, cell: &dyn Fn(usize) -> String| {
            let cells: String = (0..plane.bins.len())
                .map(|at| format!("{:>column$}", cell(at)))
                .collect();
            line(out, format!("  {head:<2}{first:>10}{cells}"));
        };
        if bins != plane.bins.len() {
            bins = plane.bins.len();
            row("", "plane".to_string(), &|at| {
                format!("{}–{}", plane.bins[at].from, plane.bins[at].to)
            });
        }
        row(name, sigma(plane.sigma), &|at| {
            let bin = &plane.bins[at];
            match (bin.count, bin.own) {
                (0, _) => "–".to_string(),
                (_, true) => sigma(bin.sigma),
                // Too few samples: the plane's sigma.
                (_, false) => format!("({})", sigma(bin.sigma)),
            }
        });
        row("", count(plane.samples()), &|at| {
            count(plane.bins[at].count)
        });
    }
    if depth > 8 {
        let words: Vec<_> = planes
            .named()
            .map(|(name, plane)| format!("{name} {:.3}", plane.sigma_unshifted))
            .collect();
        let words = words.join(", ");
        line(
            out,
            format!("  sigma before noise is cut to 8-bit steps: {words}"),
        );
    }
}

/// Two places after the point, or one, so that a bin has room for it.
fn sigma(of: f64) -> String {
    match of < 100.0 {
        true => format!("{of:.2}"),
        false => format!("{of:.1}"),
    }
}

/// A count in at most seven places.
fn count(n: u64) -> String {
    let short = |unit: f64, letter| format!("{:.1}{letter}", n as f64 / unit);
    match n {
        0..10_000_000 => n.to_string(),
        10_000_000..10_000_000_000 => short(1e6, 'M'),
        10_000_000_000..10_000_000_000_000 => short(1e9, 'G'),
        _ => short(1e12, 'T'),
    }
}
