//! The fits, each coefficient at its place.

use super::cell::Cell;
use super::{COLUMNS, line};
use crate::figures::Fit;
use console::{Alignment, measure_text_width, pad_str};

/// One plane's coefficients at one lag, as they are shown.
struct Shown {
    coefficients: Vec<String>,
    luma_tap: Option<String>,
}

impl Shown {
    fn new(fit: Option<&Fit<Cell>>, plane: &str) -> Option<Self> {
        let (coefficients, luma_tap) = fit?.plane(plane)?;
        Some(Shown {
            coefficients: coefficients.iter().map(Cell::shown).collect(),
            luma_tap: luma_tap.map(Cell::shown),
        })
    }
}

/// A plane's name, and its fits at lags 1, 2 and 3.
type Plane<'a> = (&'a str, [Option<Shown>; 3]);

/// The lags side by side, each coefficient where its neighbour lies before the sample itself, and a chroma plane's luma
/// tap below that. Where three don't fit into the columns, lag 3 comes below.
pub fn show(out: &mut String, fits: &[Option<Fit<Cell>>; 3], planes: &[&str]) {
    let shown = |plane: &str| [0, 1, 2].map(|at| Shown::new(fits[at].as_ref(), plane));
    let planes: Vec<Plane> = planes.iter().map(|plane| (*plane, shown(plane))).collect();
    let words = planes.iter().flat_map(|(_, fits)| fits.iter().flatten());
    let words = words.flat_map(|fit| fit.coefficients.iter().chain(&fit.luma_tap));
    let widths = words.map(|word| measure_text_width(word));
    let cell = 1 + widths.max().unwrap_or(0).max(3);
    line(out, "  fits, in 64ths; · is the sample itself");
    let wide = HEAD + (1..=3).map(|lag| block(lag, cell)).sum::<usize>() - GAP > COLUMNS;
    let groups: &[&[usize]] = if wide {
        &[&[1, 2], &[3]]
    } else {
        &[&[1, 2, 3]]
    };
    for lags in groups {
        group(out, lags, &planes, cell);
    }
}

/// Columns before the first lag, and between two.
const HEAD: usize = 6;
const GAP: usize = 2;

/// Columns of one lag, with the gap after it.
fn block(lag: usize, cell: usize) -> usize {
    (2 * lag + 1) * cell + GAP
}

/// Some lags side by side.
fn group(out: &mut String, lags: &[usize], planes: &[Plane], cell: usize) {
    let side_by_side = |of: &dyn Fn(usize) -> Vec<String>| -> String {
        let one = |&lag: &usize| {
            let words = of(lag);
            let padded = |word| pad_str(word, cell, Alignment::Right, None);
            let words: String = words.iter().map(|word| padded(word)).collect();
            pad_str(&words, block(lag, cell), Alignment::Left, None).into_owned()
        };
        lags.iter().map(one).collect()
    };
    // The sample's own column.
    let own = |lag: usize, word: String| [vec![String::new(); lag], vec![word]].concat();
    let mut row = |head: &str, cells: String| line(out, format!("  {head:<4}{cells}").trim_end());
    row("", side_by_side(&|lag| own(lag, format!("lag {lag}"))));
    let highest = lags.iter().copied().max().unwrap_or(0) as i32;
    for (plane, fits) in planes {
        let fit = |lag: usize| fits[lag - 1].as_ref();
        for up in (0..=highest).rev() {
            let head = if up == 0 { plane } else { "" };
            row(head, side_by_side(&|lag| neighbours(fit(lag), lag, up)));
        }
        if *plane != "Y" {
            let tap = |lag| fit(lag).and_then(|fit| fit.luma_tap.clone());
            row(
                "luma",
                side_by_side(&|lag| own(lag, tap(lag).unwrap_or_default())),
            );
        }
    }
}

/// The coefficients of the row so far up, one for each column from −lag to lag.
fn neighbours(fit: Option<&Shown>, lag: usize, up: i32) -> Vec<String> {
    let lag = lag as i32;
    let places = grain::ar_positions(lag as usize).expect("a fit has a lag of 1 to 3");
    let word = |column| {
        let at = places.iter().position(|&place| place == (-up, column));
        match (at, fit) {
            (Some(at), Some(fit)) => fit.coefficients[at].clone(),
            (Some(_), None) => "–".to_string(),
            (None, _) if (up, column) == (0, 0) => "·".to_string(),
            (None, _) => String::new(),
        }
    };
    (-lag..=lag).map(word).collect()
}
