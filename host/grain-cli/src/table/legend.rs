//! What the marks of coefficients mean.

use super::cell::Cell;
use super::{COLUMNS, line};
use crate::figures::MarkCount;
use crate::summary::{ClipFigures, in_frames};
use crate::words::wrapped;

/// Of a frame's cells and of a clip's: held low, held high, NaN.
pub const OF_FRAME: [&str; 3] = [
    "<-128: too low, held at -128",
    ">127: too high, held at 127",
    "NaN: no number, taken as 0",
];
pub const OF_CLIP: [&str; 3] = [
    "<: held at -128 in some frames",
    ">: held at 127 in some frames",
    "NaN: no number in some frames",
];

/// The meanings of the marks that are among these cells.
pub fn show<'a>(out: &mut String, cells: impl Iterator<Item = &'a Cell>, meanings: [&str; 3]) {
    let mut all = MarkCount::default();
    cells.for_each(|cell| all += cell.marks);
    let times = [all.held_low, all.held_high, all.nan];
    let there = meanings.into_iter().zip(times).filter(|of| of.1 > 0);
    let words: Vec<_> = there.map(|(meaning, _)| meaning).collect();
    if !words.is_empty() {
        indented(out, 2, &words.join("; "));
    }
}

/// In how many frames a clip has marks, by lag and plane.
pub fn frames(out: &mut String, clip: &ClipFigures) {
    let places = [
        (1, "lag 1"),
        (2, "lag 2"),
        (3, "lag 3"),
        (0, "taps without neighbours"),
    ];
    for (lag, place) in places {
        if let Some(words) = in_frames(clip.marked[lag].named(), clip.reported) {
            indented(out, 4, &format!("{place}: {words}"));
        }
    }
}

fn indented(out: &mut String, by: usize, words: &str) {
    let indent = " ".repeat(by);
    let words = wrapped(words, COLUMNS - by, &indent);
    line(out, format!("{indent}{words}"));
}
